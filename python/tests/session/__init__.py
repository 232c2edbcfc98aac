"""Tests of sessions with netrev."""
