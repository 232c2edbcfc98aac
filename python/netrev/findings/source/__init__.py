"""The program's source, and the mistakes that it shows."""
