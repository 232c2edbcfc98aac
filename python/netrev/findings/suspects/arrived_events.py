"""Goroutines that wait at the end of the recording for something that has already come. Each of them is parked for
reading although bytes are unread or the peer has closed."""

from collections.abc import Iterator
from typing import NamedTuple

from netrev.recording.notes import Use

from .run import Run
from .suspect import Evidence, Suspect


class ParkedReader(NamedTuple):
    """A goroutine that is parked for reading: the step at which it parked, what has arrived (as text), and the step at
    which that arrived."""

    goroutine: int
    use: Use
    since: int
    lies: str
    arrival: int

    @property
    def begins(self) -> str:
        """The beginning of a sentence about this wait."""
        return f"goroutine {self.goroutine} is parked for reading since step {self.since}, {self.lies}"

    @property
    def has_event(self) -> bool:
        """Whether an event reported the bytes or the close that came."""
        return self.use.last_event("r") >= self.arrival

    def has_stale_event(self, run: Run) -> bool:
        """Whether an event that reported the bytes or the close was dropped."""
        return not self.has_event and run.notes.stale.get(self.use.descriptor, (0, 0))[0] > self.arrival

    def suspect(self, run: Run, step: int, weight: int, says: list[str]) -> Suspect:
        """The suspect for a goroutine that waits although what it waits for has arrived."""
        shown = Evidence(run.end, f"gor {self.goroutine}", run.notes.now[f"gor {self.goroutine}"])
        d, s = self.use.descriptor, self.use.socket
        suspect = Suspect(step, weight, says, goroutine=self.goroutine, descriptor=d, socket=s, evidence=[shown])
        suspect.has_line(run.asleep(self.goroutine, d, "r"))
        return suspect


def waits_after_arrival(run: Run) -> Iterator[ParkedReader]:
    """All goroutines that wait although what they wait for has arrived."""
    notes = run.notes
    for g, (d, side) in run.statuses("parked"):
        use = notes.use_of[int(d)]
        if side == "r" and (lies := run.unread(use.socket)):
            has_bytes = notes.now[f"in {use.socket}"] != "0"
            yield ParkedReader(g, use, run.since(g), lies, (notes.arrived if has_bytes else notes.peer)[use.socket])
