"""Tests of `info suspects`."""
