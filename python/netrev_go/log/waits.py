"""The waits of recorded goroutines outside the poller, on a channel, a select, a mutex, a condition or a WaitGroup. A
wait counts only if a step of the recording comes during it."""

from __future__ import annotations

from collections.abc import Mapping
from typing import NamedTuple

from .goroutines import SLEEP, UNENDED, Goroutines

WAITED_FOR = ("", "a value from a channel", "room in a channel", "a select", "a condition")


class LoggedWait(NamedTuple):
    """A wait: the steps after which it begins and ends (0 if the recording ends first), the goroutine, the reason, the
    stack, and the goroutine that ended it (-1 if it isn't in the recording)."""

    first: int
    last: int
    goroutine: int
    reason: str
    stack: int
    by: int


def waits_of(found: Goroutines, numbers: dict[int, int], since: Mapping[int, int] = {}) -> list[LoggedWait]:
    """The waits in the order of their ends; those that don't end come last. `numbers` has the recording's numbers of
    goroutines. `since` has the step after which a goroutine took over another goroutine's number. Waits before that
    step are left out, because they would be attributed to the other goroutine."""
    waits = []
    for park in (
        *(found.parks[place] for place in found.finished),
        *(park for park in found.parks if park.last == UNENDED),
    ):
        is_own = park.goroutine in numbers and park.first >= since.get(park.goroutine, 0)
        if is_own and park.what != SLEEP and not park.first == park.last:
            reason = WAITED_FOR[park.what] if park.what < len(WAITED_FOR) else ""
            is_known = park.by and park.by in numbers and park.last >= since.get(park.by, 0)
            last, by = max(park.last, 0), numbers[park.by] if is_known else -1
            waits.append(LoggedWait(park.first, last, numbers[park.goroutine], reason, park.stack, by))
    return waits
