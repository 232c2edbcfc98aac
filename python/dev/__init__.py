"""What isn't shipped: fuzzers, benchmarks, and the recorder's own measurements."""
