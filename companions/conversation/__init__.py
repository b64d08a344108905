"""Speaks with the program, and knows the session so far; `./talk` and `./causes` stand on it."""
