"""The lifetimes of goroutines: a recording has room for a limited number at once, because a goroutine that has ended
hands its number to the next one."""

from __future__ import annotations

from collections.abc import Iterable
from dataclasses import dataclass, field

from .points import Point, PointKind

ENDS = int(PointKind.ENDS)


@dataclass
class Lifetimes:
    """For each goroutine, by Go's number, the points at which it begins to make steps and at which it ends."""

    began: dict[int, int] = field(default_factory=dict)
    ended: dict[int, int] = field(default_factory=dict)

    def most(self, goroutines: Iterable[int]) -> int:
        """The greatest number of these goroutines that exist at one time."""
        known, began, ended = list(goroutines), self.began, self.ended
        moments = [(began.get(goroutine, 0), 1) for goroutine in known]
        moments += [(ended[goroutine], -1) for goroutine in known if goroutine in ended]
        count = most = 0
        for _, change in sorted(moments):
            count += change
            most = max(most, count)
        return most

    def in_order(self) -> list[tuple[int, int]]:
        """The ends, latest first: the point and the goroutine."""
        return sorted(((number, goroutine) for goroutine, number in self.ended.items()), reverse=True)


def lifetimes_of(began: dict[int, int], ends: Iterable[Point]) -> Lifetimes:
    """The lifetimes of goroutines that began to make steps at these points."""
    ended = {point.goroutine: point.number for point in ends if point.kind == ENDS and point.goroutine in began}
    return Lifetimes(began, ended)
