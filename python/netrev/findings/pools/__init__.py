"""Channels as pools and semaphores, and the goroutines that should end a wait on a channel."""
