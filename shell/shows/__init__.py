"""Answers about a pair in words: the pair itself, where its nodes or branches differ, its events, and what each changed."""
