"""Takes in a pf.conf(5): `./lab import` writes the rules of one interface as a setup of the laboratory."""
