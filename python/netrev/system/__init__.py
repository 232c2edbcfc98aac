"""The processes: netrev's program, the commands of this user, Ctrl-C, and how a program ends."""
