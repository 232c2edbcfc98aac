"""The tests in Python. The tests in this folder don't need the built program; the tests in `program/` run it."""
