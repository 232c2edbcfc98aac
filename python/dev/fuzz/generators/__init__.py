"""Random recordings, logs, lines and files."""
