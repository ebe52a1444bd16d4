"""Events of the laboratory that would have led to what is known of a pair."""
