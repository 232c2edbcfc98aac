"""A recording, the file of source lines beside it, and what netrev prints about it."""
