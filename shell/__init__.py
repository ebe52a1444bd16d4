"""A face for people over the laboratory's lines: `./lab shell`, and what goes with it."""
