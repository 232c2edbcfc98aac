"""A recorded run for the rules: a recording's changes, notes and Go calls, with the facts that several rules need."""

from bisect import bisect_right
from collections import defaultdict
from functools import cached_property

from netrev.machine.machine import INSIDE
from netrev.recording.notes import AT, MANY, Use
from netrev.recording.suspect_list import SuspectEntries
from netrev.run.index import RunIndex, run_of
from netrev.run.notes import Notes
from netrev.text.plurals import counted

from .computed_facts import by_the_notes

SIDES = {"Read": "r", "Write": "w"}  # the sides of calls that a deadline ends
SHORT = 10  # a pause of at most this number of steps proves nothing, whatever the other pauses were
TWICE = 2  # a pause or a hold is too long if it is more than this many times as long as the longest one that ended


class Run:
    """A recorded run, in the form that the rules need."""

    def __init__(self, notes: Notes) -> None:
        self.notes, self.changes, self.recording = notes, notes.changes, notes.recording
        self.end = notes.step  # the last position

    @cached_property
    def facts(self) -> SuspectEntries:
        """The list of `netrev suspects`. If netrev is missing or too old, the same facts are taken from the notes."""
        listed = self.recording.suspects.of(self.end) if self.recording.suspects else None
        return listed or by_the_notes(self.notes)

    def asleep(self, g: int, d: int, side: str) -> str:
        """netrev's line about a goroutine that sleeps although its side must be answered; empty if netrev printed no
        such line."""
        return self.facts.asleep.get((g, d, side), "")

    @cached_property
    def calls(self) -> RunIndex:
        """Go's calls."""
        return run_of(self.recording)

    @cached_property
    def _uses(self) -> dict[int, list[Use]]:
        """The uses of each descriptor."""
        uses = defaultdict[int, list[Use]](list)
        for use in self.notes.uses:
            uses[use.descriptor].append(use)
        return uses

    def use_at(self, d: int, step: int) -> Use:
        """The descriptor's use that includes a step."""
        uses = self._uses[d]
        return uses[bisect_right(uses, step, key=lambda use: use.opened) - 1]

    def number(self, cell: str, position: int) -> int:
        """The value of a cell that holds a number."""
        return int(self.changes.value(cell, position))

    def status(self, g: int, position: int) -> list[str]:
        """The words of a goroutine's status."""
        return self.changes.value(f"gor {g}", position).split()

    def statuses(self, place: str) -> list[tuple[int, list[str]]]:
        """The goroutines whose status at the end begins with this place, each with the rest of its status."""
        found = ((g, goroutine.status.split()) for g, goroutine in self.notes.goroutines.items())
        return [(g, words) for g, (at, *words) in found if at == place]

    def since(self, g: int) -> int:
        """The step at which a goroutine got the status that it has at the end."""
        return self.notes.goroutines[g].since

    def inside(self, use: Use, side: str, position: int) -> int | None:
        """The goroutine that is inside the wait of a side; None if no goroutine waits there."""
        wait = next((candidate for candidate in reversed(use.waits[AT[side]]) if candidate.step <= position), None)
        if wait is None:
            return None
        place, *at = self.status(wait.goroutine, position)
        return wait.goroutine if place in INSIDE and at == [str(use.descriptor), side] else None

    def unread(self, s: int) -> str:
        """Text for a socket's unread bytes at the end, or for its peer's close; empty if the socket has neither."""
        if number := int(self.notes.now[f"in {s}"]):
            return f"{counted(number, 'byte')} unread"
        return f"the peer closed at step {self.notes.peer[s]}" if s in self.notes.peer else ""

    def stalled(self, g: int) -> str:
        """Text for how long a goroutine that could continue has paused, if that is too long compared with earlier
        pauses in its status; else empty."""
        known = self.notes.pauses.get(self.notes.status(g))
        longest = known.longest if known and known.count >= MANY else None
        pause = self.end - max(self.notes.goroutines[g].last, self.since(g))
        if pause <= max(TWICE * (longest or 0), SHORT):
            return ""
        behind = "" if longest is None else f", and the longest that ended was {longest}"
        return f"a pause of {counted(pause, 'step')}{behind}"
