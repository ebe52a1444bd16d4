"""What the laboratory must show, by a model that knows about events only what was shown: for `./random-runs` and `./fuzz`."""
