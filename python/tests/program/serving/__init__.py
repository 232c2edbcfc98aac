"""Tests of `netrev serve` and of the times of replies."""
