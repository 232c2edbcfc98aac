"""`reduce` and `report`: the smallest recording in which a suspect, or a cell's value, still shows. nrdb removes whole
calls, whole goroutines and sockets, and arrivals with their events. The remaining steps have the same answers as
before. The Python model of the machine tries each removal, and netrev must accept the result."""

from .commands import answer_reduce, answer_report, reduced_file

__all__ = ["answer_reduce", "answer_report", "reduced_file"]
