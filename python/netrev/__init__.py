"""The library: recordings, netrev's answers about them, and what they show."""
