"""Runs a document under each outage, and counts what its clients were shown."""
