"""The facts on which causes rest, and their words."""
