"""Tests the program that `./run` takes, and all that stands round it, side by side. The command is `./test`."""
