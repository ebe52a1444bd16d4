"""`whatif`: tries each single fault of a run by itself, and groups the faults by what they change."""
