"""A session with the program as a page in the browser. The command is `./workbench`."""
