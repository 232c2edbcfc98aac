"""Requests, answers and connections of streams."""
