"""Why something happened: the rule, the limit, the window, the record, with their numbers."""
