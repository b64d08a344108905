"""Draws the events of a session with their causes and messages, as a picture in SVG. The command is `./causes`."""
