"""A lesson on paper: a script as a sheet for students, with room for answers, or for their teacher, with the replies."""
