"""A connection to netrev, its replies, and the output of a session."""
