"""What a report says was committed, run on a database of another make."""
