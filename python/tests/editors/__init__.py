"""Tests of the adapter for editors."""
