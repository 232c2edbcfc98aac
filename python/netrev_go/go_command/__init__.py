"""The installed Go, its changed copy, and runs of its command."""
