"""The log of a process: its points, sockets, goroutines and orders."""
