"""Runs `rt ci`, tells what it is at, and measures what it takes."""
