"""Tests of the repository's scripts and pages."""
