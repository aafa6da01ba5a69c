"""The desk: a board on the screen, with what alphamu_study says of each card. See docs/USING.md."""
