"""Proves and builds the crates side by side, and knows how long that takes."""
