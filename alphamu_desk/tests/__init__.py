"""Unit tests of the desk: python3 -m unittest, at the top of the repository."""
