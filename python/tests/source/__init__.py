"""Tests of the rules that read the program's source."""
