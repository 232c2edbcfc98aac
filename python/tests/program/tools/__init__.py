"""Tests of the tools around netrev with the built program."""
