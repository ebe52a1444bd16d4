"""The program that runs beside the shell, and the laboratory over it: its branches, its history, and the pairs of others."""
