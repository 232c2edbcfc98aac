"""Tests of what happened in a recording: calls, notes, changes."""
