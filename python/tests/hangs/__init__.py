"""Tests of the causes of hangs."""
