"""Requests and connections of net/http and net/rpc."""
