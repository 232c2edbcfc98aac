"""Tests of the causes of failed calls."""
