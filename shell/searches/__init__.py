"""`search`: which runs of events lead to a packet that is dropped, to one that passes, or to nodes that are apart."""
