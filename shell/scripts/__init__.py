"""Scripts: what a file looks like, how replies are compared, written and proof-read, and the story in the comments."""
