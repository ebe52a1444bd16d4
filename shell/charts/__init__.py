"""Charts of a branch, as text and as a picture."""
