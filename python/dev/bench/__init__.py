"""Benchmarks of netrev: programs that report figures, and test nothing (docs/measurements/BENCHMARKS.md,
docs/measurements/MEASUREMENTS.md)."""
