"""Scripts that are changed at random, and what the program must do with them: for `./fuzz`."""
