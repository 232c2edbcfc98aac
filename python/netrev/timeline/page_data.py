"""The page's data other than the cells: the sockets of descriptors and goroutines, wake-ups, marks, and the program's
lines. These data are nrdb's own and aren't proved."""

from typing import Any

from netrev.connection.shapes import ListedMark
from netrev.machine.machine import INSIDE
from netrev.recording.recording import Recording
from netrev.recording.step_changes import RecordedChanges
from netrev.run.index import run_of
from netrev.run.step_owners import NONE

from .calls import Data
from .cell_runs import Runs, Window

MOST_TICKS = 2_000
MOST_TIMES = 4_000
WAKES = {
    "parked": ("swapping", "desc"),
    "queued": ("acquiring", "sock"),
}  # the next action of the woken goroutine, and its line


class Connections:
    """The sockets of descriptors and goroutines in a window. Each use of a descriptor has its number, its socket, and
    its first and last position (None: it lasts at least until the end of the window). Each goroutine has the socket
    that it uses most."""

    def __init__(self, recording: Recording, window: Window) -> None:
        self._window, run = window, run_of(recording)
        self.uses: list[list[Any]] = [
            [use.descriptor, use.socket, use.opened, use.closed if 0 < use.closed <= window.last else None]
            for use in run.notes.uses
            if use.opened <= window.last and not 0 < use.closed <= window.first
        ]
        self._touched: dict[int, dict[int, int]] = {}
        for (g, s), many in sorted(run.sockets_used(window.first, window.last).items()):
            if s != NONE:
                self._touched.setdefault(g, {})[s] = many

    def groups(self, runs: Runs) -> dict[int, int]:
        """The socket of each goroutine: the socket with the most steps. This counts the goroutine's own steps on the
        socket and the steps during which it waits there."""
        for cell, run in runs.items():
            if cell.startswith("gor "):
                ends = [begins for begins, _ in run[1:]] + [self._window.last + 1]
                for (begins, value), until in zip(run, ends):
                    self._waits(int(cell.split()[1]), value.split(), begins, until - begins)
        return {g: max(counts, key=counts.__getitem__) for g, counts in self._touched.items()}

    def _waits(self, g: int, status: list[str], position: int, steps: int) -> None:
        """Counts the steps during which a goroutine has a status, for the socket of that status."""
        if len(status) < 3:
            return
        socket = int(status[1])
        if status[0] in INSIDE:
            uses = (use for use in reversed(self.uses) if use[0] == socket and use[2] <= position)
            socket = next(uses)[1]
        counts = self._touched.setdefault(g, {})
        counts[socket] = counts.get(socket, 0) + steps


def wakes_of(recording: Recording, runs: Runs) -> list[list[Any]]:
    """Each wake-up: its step, the goroutine that was woken, the goroutine that woke it (or None), the place where the
    woken goroutine slept, and the step's kind."""
    wakes: list[list[Any]] = []
    for cell, run in runs.items():
        if not cell.startswith("gor "):
            continue
        for (_, before), (number, after) in zip(run, run[1:]):
            slept, *where = before.split()
            if slept not in WAKES or after.split()[0] != WAKES[slept][0]:
                continue
            step, place = recording.step(number), WAKES[slept][1]
            at = f"desc {where[0]} {where[1]}" if place == "desc" else f"sock {where[0]}"
            wakes.append([number, int(cell.split()[1]), step.argument("g"), at, step.kind])
    return sorted(wakes, key=lambda wake: wake[:2])


def lines_data(recording: Recording, window: Window) -> Data:
    """The program's lines, each stored once, and, for each step since the first position, the index of the step's line.
    The result is empty if the recording has no lines."""
    if not recording.lines:
        return {}
    texts: dict[str, int] = {"": 0}
    at = [texts.setdefault(recording.lines.words(step), len(texts)) for step in range(window.first, window.last + 2)]
    return {"texts": list(texts), "at": at}


def marks_of(listed: list[ListedMark], recording: Recording, window: Window, runs: Runs) -> list[Data]:
    """The session's marks, with the positions at which they hit."""
    marks = []
    for number, sort, what in listed:
        if sort == "watch":
            hits = [start for start, _ in runs.get(what, ())[1:]]
        elif what.startswith("@"):
            hits = [int(what[1:]) - 1]
        else:
            hits = [step.number - 1 for step in recording.steps_of((what,), window.last + 1)]
        shown = [hit for hit in hits if window.first <= hit <= window.last]
        marks.append({"mark": int(number), "what": f"{sort} {what}", "hits": shown})
    return marks


def ticks_of(changes: RecordedChanges) -> list[list[int]]:
    """The steps at which the clock advanced, each with its time. If the clock advanced too often, the result has only
    the last step, and some steps at regular intervals."""
    ticks = changes.changes_of("clock")
    every = -(-len(ticks) // MOST_TICKS) or 1
    shown = [*ticks[::every], *(ticks[-1:] if (len(ticks) - 1) % every else [])]
    return [[0, 0], *([step, int(time)] for step, time in shown)]


def times_of(recording: Recording, window: Window, most: int) -> Data:
    """The recorder's times after the steps of a window; in a long window, only after steps at equal intervals. `every`
    is that interval, counted from the first position. `ns` has the differences between consecutive times. The result is
    empty if the recorder had no times."""
    times = recording.lines.times
    if not times:
        return {}
    every = -(-(window.last - window.first) // most) or 1
    positions = [*range(window.first, window.last, every), window.last]
    chosen = [times[max(position, 1) - 1] for position in positions]  # (the first time is that of the first step)
    return {
        "first": window.first,
        "last": window.last,
        "every": every,
        "ns": [after - before for before, after in zip([0, *chosen], chosen)],
    }
