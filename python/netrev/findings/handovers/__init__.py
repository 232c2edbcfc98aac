"""Values that goroutines hand over through channels."""
