"""The program at a terminal. The command is `./talk`."""
