"""The breaks at lines and functions of the program. These breaks are nrdb's own and use none of netrev's marks. If
netrev has moved past such a break, nrdb goes back to it."""

import re
from bisect import bisect_left, bisect_right
from collections.abc import Callable
from dataclasses import dataclass, field

from netrev.recording.recording import Recording

from .line_index import ProgramPlace, is_place

LETTER = "p"  # the prefix of the breaks' numbers; netrev's numbers have no prefix
NUMBER = re.compile(rf"{LETTER}\d+")


@dataclass
class Break:
    """A break: its number, its place, and whether it is temporary, so that its first stop deletes it."""

    number: str
    place: ProgramPlace
    is_temporary: bool

    def words(self) -> str:
        """The break as `info breakpoints` prints it."""
        once = ", once" if self.is_temporary else ""
        return f"{self.number} at {self.place.spelled}: {len(self.place.positions)} of the recording's positions{once}"


@dataclass
class Breaks:
    """The current breaks at lines and functions of the program."""

    standing: dict[str, Break] = field(default_factory=dict)
    given: int = 0
    is_met: Callable[
        [str, int], bool
    ] = lambda number, position: True  # whether a break's condition holds at a position

    def add(self, place: ProgramPlace, is_temporary: bool) -> Break:
        self.given += 1
        mark = Break(f"{LETTER}{self.given}", place, is_temporary)
        self.standing[mark.number] = mark
        return mark

    def nearest(self, position: int, forwards: bool) -> int | None:
        """The nearest later (or, backwards, earlier) position at which a break stops."""
        near = [stop for mark in self.standing.values() if (stop := self._next(mark, position, forwards)) is not None]
        return (min if forwards else max)(near, default=None)

    def _next(self, mark: Break, position: int, forwards: bool) -> int | None:
        """The nearest later (or, backwards, earlier) position at which this break stops."""
        near = beyond(mark.place, position, forwards)
        while near is not None and not self.is_met(mark.number, near):
            near = beyond(mark.place, near, forwards)
        return near

    def at(self, position: int) -> list[Break]:
        """The breaks that stop at a position."""
        here = (mark for mark in self.standing.values() if position in mark.place.positions)
        return [mark for mark in here if self.is_met(mark.number, position)]

    def hit(self, position: int) -> list[Break]:
        """Returns the breaks that stop at a position, and deletes the temporary breaks among them."""
        found = self.at(position)
        for mark in found:
            if mark.is_temporary:
                del self.standing[mark.number]
        return found


def names_a_place(recording: Recording | None, words: list[str]) -> bool:
    """Whether nrdb itself answers this netrev command, because the command names a place in the program, a break at
    such a place, or all marks."""
    name, *rest = words
    if name in ("break", "tbreak"):
        return is_place(recording, rest)
    return name == "delete" and (not rest or (len(rest) == 1 and NUMBER.fullmatch(rest[0]) is not None))


def beyond(place: ProgramPlace, position: int, forwards: bool) -> int | None:
    """The nearest later (or, backwards, earlier) position at which a goroutine reaches a place."""
    rows = place.positions
    at = bisect_right(rows, position) if forwards else bisect_left(rows, position) - 1
    return rows[at] if 0 <= at < len(rows) else None
