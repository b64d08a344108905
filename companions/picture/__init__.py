"""Lays the events of a session out, with their messages and causes, and draws them as SVG; `./causes` and `./workbench` stand
on it."""
