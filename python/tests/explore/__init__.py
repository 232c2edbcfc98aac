"""Tests of `explore` and `reduce`."""
