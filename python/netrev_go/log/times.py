"""The time of each step: its point's time, or, for a step without a point, such as arriving bytes, the time of the
point for which it was made."""

from __future__ import annotations

import argparse
import re
from collections.abc import Iterable
from itertools import chain
from operator import sub

from .points import TIME, Point

UNITS = {"ms": 0.001, "s": 1.0, "m": 60.0, "h": 3600.0, "": 1.0}
A_TIME = re.compile(r"([0-9]{1,9}(?:\.[0-9]{1,3})?)(ms|s|m|h|)\Z")


def times_of(points: Iterable[Point], ended: list[int], begin: int) -> list[int] | None:
    """For each step, the nanoseconds since the log began. A counter orders the points, and each point reads the clock
    just after taking its number. So a time may be slightly less than the previous point's; the previous time is used
    then. None if a point has no time, as in older logs."""
    times: list[int] = []
    latest, step = begin, 0
    for time, behind in zip(map(TIME, points), ended):
        if time > latest:
            latest = time
        elif not time:
            return None
        while step < behind:
            times.append(latest - begin)
            step += 1
    return times


def deltas(numbers: list[int]) -> list[int]:
    """The differences between consecutive numbers; the first number stays as it is."""
    return list(map(sub, numbers, chain((0,), numbers)))


def seconds(text: str) -> float:
    """A duration in Go's form: 5s, 500ms, 2m."""
    found = A_TIME.match(text)
    if not found or not (number := float(found[1]) * UNITS[found[2]]):
        raise argparse.ArgumentTypeError("expected a time such as 5s, 500ms or 2m")
    return number
