"""Puts the program, with all that goes with it, below a folder, and takes it away again. The command is `./install`."""
