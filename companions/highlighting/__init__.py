"""Tests of editors/: what they show of texts is what the program takes them for."""
