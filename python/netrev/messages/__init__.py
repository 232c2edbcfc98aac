"""nrdb's errors and hints, one module for each place that prints them. A word in braces is replaced when the message is
printed."""
