"""Two dumps of a pair's state tables, as pfctl(8) prints them, read and compared, and made the opening of a pair."""
