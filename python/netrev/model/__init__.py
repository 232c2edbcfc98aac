"""The model of netrev's program, over the machine of `netrev.machine`."""
