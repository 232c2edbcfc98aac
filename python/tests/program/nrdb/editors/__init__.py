"""Tests of the adapter with the built program."""
