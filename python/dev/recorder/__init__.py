"""The recorder's measurements: tests of Go's packages, costs, and fetched releases."""
