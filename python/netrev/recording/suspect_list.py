"""The output of `netrev suspects FILE` for a recording: each line as netrev printed it, and its meaning. netrev is
started only once. If netrev is too old to have this command, or fails, the list is empty; then the rules of `info
suspects` use nrdb's own notes (`suspects/computed_facts.py`)."""

import re
import subprocess
from collections.abc import Iterable
from typing import NamedTuple

from netrev.system.interrupts import Interrupts

from .notes import By

PAUSE = 0.05  # seconds between two checks for Ctrl-C
LOST_WAKE_UP = re.compile(r"at \d+ lost-wakeup gor (\d+) desc (\d+) ([rw]) event (\d+) taken (\d+) by (\d+)")
ASLEEP = re.compile(
    r"at \d+ asleep gor (\d+) desc (\d+) (?:(r) because (?:closing|deadline|error|bytes|end)|(w) because (?:closing|deadline|shut|room))"
)
HELD_REFERENCE = re.compile(r"at \d+ held-reference sock (\d+) gor (\d+) count (\d+) since (\d+)( gone)?")
OF_A_DEADLINE = re.compile(
    r"at (\d+) (?:passed-deadline|(timeout|taken-back) gor (\d+)) "
    r"desc (\d+) ([rw]) set (\d+) by (\d+) (rw?|w)(?: moved (\d+) by (\d+))?"
)
LAST = re.compile(r"ok (\d+) steps")


class LostWakeUp(NamedTuple):
    """A goroutine that parked on a side without another try: the readiness from the side's last event was consumed, and
    no try on that side has returned EAGAIN since then."""

    line: str
    goroutine: int
    descriptor: int
    side: str
    event: int  # the step of the event
    taken: int  # the step that consumed the readiness, and its goroutine
    by: int


class HeldReference(NamedTuple):
    """A goroutine that took more references to a closed socket than it gave back: the number of references that it
    still holds, and the step `since` that took the last of them."""

    line: str
    socket: int
    goroutine: int
    references: int
    since: int
    is_gone: bool


class OfDeadline(NamedTuple):
    """The effect of a side's deadline at a step: the deadline passed, a goroutine's call ended with it, or it was
    withdrawn before that goroutine checked. `setting` is the step that set the deadline, for the sides `sides`; `moved`
    is the first later step that set a deadline for the other side alone."""

    line: str
    step: int
    goroutine: int | None
    descriptor: int
    side: str
    setting: By
    sides: str
    moved: By | None


class SuspectEntries:
    """The entries of a list of suspects. Lost wake-ups and passed deadlines are in the order of the lines. Sleeping
    goroutines whose read or write could return are keyed by goroutine, descriptor and side. Held references are keyed
    by socket and goroutine, and timeouts by step. Withdrawn deadlines are keyed by step, descriptor and side."""

    def __init__(self, lines: Iterable[str] = ()) -> None:
        self.lost_wake_ups: list[LostWakeUp] = []
        self.asleep: dict[tuple[int, int, str], str] = {}
        self.held_references: dict[tuple[int, int], HeldReference] = {}
        self.passed_deadlines: list[OfDeadline] = []
        self.timeouts: dict[int, OfDeadline] = {}
        self.taken_back: dict[tuple[int, int, str], OfDeadline] = {}
        for line in lines:
            self._take(line)

    def _take(self, line: str) -> None:
        """Adds a line. A line of an unknown form is ignored."""
        if found := OF_A_DEADLINE.fullmatch(line):
            self._take_deadline(line, *found.groups())
        elif found := HELD_REFERENCE.fullmatch(line):
            s, g, references, since = map(int, found.groups()[:4])
            self.held_references[s, g] = HeldReference(line, s, g, references, since, found[5] is not None)
        elif found := LOST_WAKE_UP.fullmatch(line):
            goroutine, d, side, *steps = found.groups()
            self.lost_wake_ups.append(LostWakeUp(line, int(goroutine), int(d), side, *map(int, steps)))
        elif found := ASLEEP.fullmatch(line):
            goroutine, d, reading, writing = found.groups()
            self.asleep[int(goroutine), int(d), reading or writing] = line

    def _take_deadline(self, line: str, step: str, event: str | None, g: str, d: str, side: str, *due: str) -> None:
        set_at, set_by, sides, moved_at, moved_by = due
        setting, moved = By(int(set_at), int(set_by)), By(int(moved_at), int(moved_by)) if moved_at else None
        found = OfDeadline(line, int(step), int(g) if event else None, int(d), side, setting, sides, moved)
        if event is None:
            self.passed_deadlines.append(found)
        elif event == "timeout":
            self.timeouts[found.step] = found
        else:
            self.taken_back[found.step, found.descriptor, side] = found


class SuspectList:
    """The list for a recording's file. The first use starts netrev."""

    def __init__(self, program: str, path: str, interrupts: Interrupts) -> None:
        self._words, self._interrupts = [program, "suspects", path], interrupts
        self._process: "subprocess.Popen[bytes] | None" = None
        self._lines: list[str] | None = None

    def prepare(self) -> None:
        """Starts netrev, unless it has been started."""
        if self._process is not None or self._lines is not None:
            return
        try:
            with self._interrupts.shielded():
                self._process = subprocess.Popen(
                    self._words,
                    stdin=subprocess.DEVNULL,
                    stdout=subprocess.PIPE,
                    stderr=subprocess.DEVNULL,
                    start_new_session=True,
                )
        except OSError:
            self._lines = []

    def of(self, length: int) -> SuspectEntries | None:
        """The list for a recording with this many steps; None if netrev has no such list."""
        if self._lines is None:
            self._lines = self._read()
        *lines, last = self._lines or [""]
        found = LAST.fullmatch(last)
        return SuspectEntries(lines) if found and int(found[1]) == length else None

    def _read(self) -> list[str]:
        """All lines, after netrev has ended; none if netrev failed."""
        self.prepare()
        while self._process is not None:
            self._interrupts.check()
            try:
                output, _ = self._process.communicate(timeout=PAUSE)
            except subprocess.TimeoutExpired:
                continue
            return [] if self._process.returncode else output.decode("ascii", "replace").splitlines()
        return []

    def drop(self) -> None:
        """Ends netrev, if its output hasn't been read."""
        if self._process is not None and self._lines is None:
            self._process.kill()
            self._process.communicate()
