"""Tests of logs and of the recordings that are made from them."""
