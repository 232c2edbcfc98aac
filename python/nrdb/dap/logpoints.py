"""Breakpoints that print a message when a move passes them, instead of stopping the move. These breakpoints belong to
nrdb and use no marks of netrev. A cell's name in braces is replaced by the cell's value at the position, from `netrev
changes`."""

from collections.abc import Iterator, Sequence
from typing import NamedTuple

from netrev.session.session import Session

from .breakpoint_requests import HERE, IN_BRACES, BreakpointRequest
from .view.messages import Body

FIRST = 2_000_000  # the first number of these breakpoints, above all other breakpoints
MOST = 1_000  # the maximum number of messages that a move prints


class LogPoint(NamedTuple):
    """A breakpoint with a message: the message, and the positions at which it is printed, in ascending order."""

    message: str
    positions: list[int]


class LogPoints:
    """The current logpoints, by file."""

    def __init__(self, session: Session):
        self._session = session
        self._of: dict[str, list[LogPoint]] = {}
        self._given = FIRST

    def clear(self, path: str) -> None:
        """Removes the logpoints of a file."""
        self._of[path] = []

    def set(self, path: str, positions: Sequence[int], breakpoint: BreakpointRequest) -> Body:
        """Sets a logpoint at these positions, and returns the protocol's object for it."""
        self._given += 1
        self._of.setdefault(path, []).append(LogPoint(breakpoint.message, breakpoint.stops(self._session, positions)))
        return {"id": self._given, "verified": True}

    def messages(self, begun: int, ended: int) -> Iterator[str]:
        """The messages of a move from one position to another, in the move's order."""
        low, high = (begun + 1, ended) if ended > begun else (ended, begun - 1)
        every = (logpoint for many in self._of.values() for logpoint in many)
        hits = [
            (position, logpoint.message)
            for logpoint in every
            for position in logpoint.positions
            if low <= position <= high
        ]
        hits.sort(key=lambda hit: hit[0], reverse=ended < begun)
        for position, message in hits[:MOST]:
            yield f"at {position}: {self._filled(message, position)}"
        if len(hits) > MOST:
            yield f"and {len(hits) - MOST} messages more"

    def _filled(self, message: str, position: int) -> str:
        """A message, with the names in braces replaced by values."""
        return IN_BRACES.sub(lambda found: self._value(found[1].strip(), position), message)

    def _value(self, named: str, position: int) -> str:
        return str(position) if named == HERE else self._session.changes().value(" ".join(named.split()), position)
