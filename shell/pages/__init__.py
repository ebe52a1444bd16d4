"""A run as a page: one file, or served to browsers on this machine."""
