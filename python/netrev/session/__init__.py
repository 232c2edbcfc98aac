"""A session, which sends lines to netrev or answers them itself, and explains faults."""
