"""Tests of netrev-go with a real Go on the PATH. `make real` runs them; the gate doesn't."""
