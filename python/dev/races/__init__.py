"""Benchmarks of `explore`: races that other schedules show."""
