"""Runs sessions and tables of texts on the built program, and compares what it replies. Nothing of it is proved."""
