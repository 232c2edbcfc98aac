"""Tests of the changed copy of Go, release by release."""
