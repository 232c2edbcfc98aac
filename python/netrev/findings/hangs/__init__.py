"""The needs of waiting goroutines, and the graph of their waits."""
