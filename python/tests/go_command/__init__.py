"""Tests of netrev-go's command."""
