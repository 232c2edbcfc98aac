"""Breakpoints in the program's own source. Such breakpoints stop before the steps at which, according to NAME.where, a
goroutine reaches a line or a function. Like the filters, these breakpoints belong to nrdb and use no marks of
netrev."""

from bisect import bisect_left, bisect_right
from collections.abc import Sequence
from functools import cached_property
from pathlib import Path

from netrev.session.line_index import near_lines, no_step_from, places_of
from netrev.session.session import Session
from netrev.text.plain import plain

from .breakpoint_requests import BreakpointError, BreakpointRequest, is_in, refused
from .logpoints import LogPoints
from .view.debuggee import Debuggee
from .view.messages import Body, UnanswerableError
from .view.roots import Roots

FIRST = 1_000_000  # the number of the first of these breakpoints; marks have smaller numbers
FUNCTIONS = "functions"  # used in place of a file name for breakpoints on functions


class Hits:
    """A breakpoint: its number, the positions at which a goroutine reaches it, in ascending order, and its condition,
    hit count and message."""

    def __init__(self, number: int, session: Session, reached: Sequence[int], breakpoint: BreakpointRequest):
        self.number = number
        self._session, self._reached, self._wish = session, reached, breakpoint

    @cached_property
    def positions(self) -> list[int]:
        """The positions at which the breakpoint stops, in ascending order."""
        return self._wish.stops(self._session, self._reached)


class GoLines:
    """The breakpoints in the program's source by file, and the breakpoints at its functions."""

    def __init__(self, debuggee: Debuggee, roots: Roots, logpoints: LogPoints):
        self._debuggee, self._roots, self._logpoints = debuggee, roots, logpoints
        self._of: dict[str, list[Hits]] = {}
        self._given = FIRST

    def lines(self, path: str) -> dict[int, list[int]]:
        """For each line of a file, the positions at which a goroutine reaches it."""
        try:
            wanted = Path(path).resolve()
        except (OSError, RuntimeError, ValueError):  # (the text isn't a path, or the path's links form a loop)
            return {}
        return places_of(self._debuggee.recording).lines_of(lambda file: self._roots.is_at(file, wanted))

    def clear(self, path: str) -> None:
        """Removes the breakpoints of a file."""
        self._of[path] = []
        self._logpoints.clear(path)

    def positions(self, path: str, line: int) -> list[int]:
        """The positions at which a goroutine reaches a line of a file; raises UnanswerableError, with the prompt's
        message, if no step comes from the line."""
        lines = self.lines(path)
        if line not in lines:
            name = plain(Path(path).name) or "that file"
            raise UnanswerableError(no_step_from(f"{name}:{line}", near_lines(name, line, lines)))
        return lines[line]

    def set_line(self, path: str, line: int, breakpoint: "BreakpointRequest | BreakpointError") -> Body:
        """Sets a breakpoint at a line from which steps come, and returns the protocol's object for the breakpoint."""
        try:
            return self._set(path, self.positions(path, line), breakpoint)
        except UnanswerableError as why:
            return refused(str(why))

    def set_function(self, name: str, breakpoint: "BreakpointRequest | BreakpointError") -> Body | None:
        """Sets a breakpoint at a function; returns None if no step comes from a function of that name."""
        place = places_of(self._debuggee.recording).place(name)
        return self._set(FUNCTIONS, place.positions, breakpoint) if place else None

    def _set(self, path: str, positions: list[int], breakpoint: "BreakpointRequest | BreakpointError") -> Body:
        if isinstance(breakpoint, BreakpointError):
            return refused(str(breakpoint))
        if breakpoint.message:
            return self._logpoints.set(path, positions, breakpoint)
        self._given += 1
        self._of.setdefault(path, []).append(Hits(self._given, self._debuggee.session, positions, breakpoint))
        return {"id": self._given, "verified": True}

    def nearest(self, position: int, forwards: bool) -> int | None:
        """The nearest later (or, backwards, earlier) position at which a breakpoint stops."""
        found = [near(hits.positions, position, forwards) for many in self._of.values() for hits in many]
        return (min if forwards else max)((stop for stop in found if stop is not None), default=None)

    def at(self, position: int) -> Sequence[int]:
        """The numbers of the breakpoints that stop at a position."""
        every = [hits for many in self._of.values() for hits in many]
        return [hits.number for hits in every if is_in(hits.positions, position)]


def near(rising: Sequence[int], position: int, forwards: bool) -> int | None:
    """The nearest later (or, backwards, earlier) one of these positions, which are in ascending order."""
    at = bisect_right(rising, position) if forwards else bisect_left(rising, position) - 1
    return rising[at] if 0 <= at < len(rising) else None
