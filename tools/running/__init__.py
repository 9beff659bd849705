"""The program, for the tools that run it."""
