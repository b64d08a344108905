"""Builds the program, with its proofs or without, and tells which of the two there is to run. The commands are `./run` and `./prove`."""
