"""Installs the built program, its shell, manual pages, completion and examples in a folder of the user, and removes them."""
