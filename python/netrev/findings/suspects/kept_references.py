"""References that are still held at the end of the recording although their holders are gone, have stopped, or have
gone on to other work."""

from collections.abc import Iterator
from typing import NamedTuple

from netrev.recording.cell_meanings import SIDES as NAMES
from netrev.recording.notes import Hold
from netrev.text.plurals import counted

from .run import TWICE, Run
from .suspect import Evidence, Suspect, Weight

BRIEF = 20  # holding a reference for at most this number of steps proves nothing


class KeptReference(NamedTuple):
    """A reference to a socket that is held at the end, and whether its holder is gone (otherwise the holder is idle).
    `pause` says how long the holder has paused, and `age` how long it has held the reference; each is empty unless that
    is too long."""

    socket: int
    hold: Hold
    is_gone: bool
    pause: str
    age: str

    def is_unevicted(self, run: Run) -> bool:
        """Whether the reference belongs to a close that hasn't evicted its descriptor."""
        is_of_close = self.hold.kind == "increfclose" and self.socket not in run.notes.evicted
        return not self.is_gone and is_of_close and bool(self.pause or self.age)

    def suspect(self, run: Run, how: str, open_and_closed: tuple[Weight, Weight]) -> Suspect:
        """A suspect that reports this reference. `how` says how the reference is held, and the weights are for an open
        and for a closed socket."""
        (g, step, kind, side), s, notes = self.hold, self.socket, run.notes
        lock = f" {NAMES[side]}" if side else ""
        says = [f"goroutine {g} holds a reference of socket {s} since step {step} ({kind}{lock}) {how}"]
        closer = notes.closer.get(s)
        held = run.facts.held_references.get((s, g))
        if closer and closer != (step, g):
            says.append(f"goroutine {closer.goroutine} closed it at step {closer.step}, and it can't be freed")
        return Suspect(
            step,
            open_and_closed[notes.is_closed(s)],
            says,
            goroutine=g,
            socket=s,
            listed=[held.line] if held else [],
            evidence=[Evidence(run.end, cell, notes.now[cell]) for cell in (f"gor {g}", f"lock {s}")],
            looks=[f"goto {run.end}", f"info holders {s}"],
            steps=[step, *([closer.step] if closer else [])],
        )


def kept(run: Run) -> Iterator[KeptReference]:
    """The references that idle or gone goroutines hold at the end. A lock for which a goroutine sleeps is left out,
    because another rule reports it."""
    asleep = {(int(s), side) for _, (s, side) in run.statuses("queued")}
    for s in sorted(run.notes.holds):
        for hold in run.notes.holds[s]:
            status = run.notes.status(hold.goroutine)
            if (s, hold.side) in asleep or status not in ("idle", "gone"):
                continue
            longest = max(run.notes.longest_holds.get(hold.kind, 0), BRIEF)
            is_old = run.end - hold.step > TWICE * longest
            age = f"the longest that ended took {counted(longest, 'step')}" if is_old else ""
            yield KeptReference(s, hold, status == "gone", run.stalled(hold.goroutine) if status == "idle" else "", age)
