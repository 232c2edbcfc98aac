"""netrev-go records unchanged Go programs, and makes recordings from their logs (docs/internals/INSTRUMENTING.md). It
is unproved."""
