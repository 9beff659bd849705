"""A picture of one run of `continuity`, as one HTML page."""
