"""Tests the built program from outside, for properties that no contract states. The environment variable `NETREV` names
another program to test."""
