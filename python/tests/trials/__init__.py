"""Trials of the recorder with real releases of Go."""
