"""`explore`: other schedules near a recorded one. Each goroutine makes its own calls in its own order, by the control
flow of internal/poll and runtime/netpoll, on the Python model of the machine. If a schedule ends with a suspect, nrdb
keeps the schedule, and netrev checks that it is a run of the machine. Only that check is proved."""

from .commands import answer_explore, explored

__all__ = ["answer_explore", "explored"]
