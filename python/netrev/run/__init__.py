"""What happened in a recording: its notes, Go's calls, its timers, and the owners of its steps."""
