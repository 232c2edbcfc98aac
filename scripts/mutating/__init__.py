"""Mutants of the unproved code: small changes to netrev, nrdb and netrev_go, and the tests that notice them."""
