"""Reduces the recording of a session to the steps that still show a target, and reports what was removed."""

from collections import Counter
from collections.abc import Callable
from fnmatch import fnmatchcase
from typing import NamedTuple

from netrev.findings.suspects.ranking import suspects_of
from netrev.messages import searches as messages
from netrev.recording.recording import Recording
from netrev.session.session import Session, UsageError
from netrev.text.contents import Limits
from netrev.text.files import Owns, has
from netrev.text.vocabulary import cell_of, number_of

from .events import Events
from .replay import ReplayPlayer
from .shrinking import NotReproducedError, Shrinking
from .targets import CellTarget, HangTarget, ReductionTarget, SuspectTarget
from .units import UnitKind, units_of
from .writing import answered_by, taken, where_text


class Wanted(NamedTuple):
    """The target of a reduction: the suspect with this number, a cell with a value at a step, or a goroutine that
    hangs; then the steps in `steps` must stay too."""

    suspect: int
    cell: str
    value: str
    until: int
    hangs: int = -1
    steps: tuple[int, ...] = ()


class Reduced(NamedTuple):
    """A reduced recording: its text, its NAME.where, the numbers that its steps had in the original, the number of
    removed units of each kind, and whether the reduction ran to its end."""

    data: bytes
    lines: str
    numbers: list[int]
    left_out: Counter[UnitKind]
    is_done: bool

    def words(self, path: str, steps: int) -> str:
        """The size of the result in this file, and what the reduction removed, as text."""
        parts = [
            f"{self.left_out[sort]} {sort.value[self.left_out[sort] != 1]}" for sort in UnitKind if self.left_out[sort]
        ]
        left = f"left out {', '.join(parts)}" if parts else "nothing could be left out"
        more = "" if self.is_done else "; stopped early, so reduce what is left once more"
        return f"{path}: {len(self.numbers)} of {steps} steps, accepted by netrev; {left}{more}"

    def endings(self) -> dict[str, Owns]:
        """The endings of its files, and which files it may replace."""
        return {".jsonl": has(self.data), ".where": has(self.lines.encode())}


class Reducing(NamedTuple):
    """The input of a reduction: a recording, netrev's program, and the check for Ctrl-C."""

    recording: Recording
    program: str
    check: Callable[[], None]


def reduced(session: Session, wanted: Wanted) -> Reduced:
    """The session's recording, reduced; raises UsageError if a replay of the recording doesn't show the target."""
    return reduced_of(Reducing(session.text(), session.program, session.interrupts.check), wanted)


def reduced_of(reducing: Reducing, wanted: Wanted) -> Reduced:
    """The reduced form of any recording."""
    recording, program, check = reducing
    answered = answered_recording(program, recording, wanted.until)
    events = Events(answered)
    units = units_of(events)
    limits = Limits(*(answered.limits[key] for key in Limits._fields))
    player = ReplayPlayer(events, units, limits, check)
    shrinking = Shrinking(player, events, units, _target(events, answered, wanted))
    try:
        kept = shrinking.run()
    except NotReproducedError:
        raise UsageError(messages.NOT_SHOWN) from None
    data = taken(program, player, recording.has_answers)
    numbers = [events.all[place].number for place in player.chosen]
    left_out = Counter(unit.sort for at, unit in enumerate(units) if at not in kept)
    return Reduced(data, where_text(recording.lines, numbers), numbers, left_out, not shrinking.is_done)


def answered_recording(program: str, recording: Recording, until: int) -> Recording:
    """The recording's steps up to `until`, with netrev's answers."""
    status, text = answered_by(program, "upgrade", recording.data)
    if status:
        raise UsageError(messages.REFUSED.format(fault=text.decode("utf-8", "replace").strip()))
    return Recording(b"".join(text.splitlines(keepends=True)[: until + 1]))


def _target(events: Events, recording: Recording, wanted: Wanted) -> ReductionTarget:
    if wanted.hangs >= 0:
        return HangTarget(events, wanted.hangs, wanted.steps, wanted.until)
    if wanted.cell:
        return CellTarget(events, wanted.cell, wanted.value, wanted.until)
    found = [suspect for suspect in suspects_of(recording).suspects if suspect.is_shown]
    if not found:
        raise UsageError(messages.NO_SUSPECTS)
    if not 0 < wanted.suspect <= len(found):
        raise UsageError(messages.SUSPECT_NUMBERS.format(count=len(found)))
    return SuspectTarget(events, found[wanted.suspect - 1], wanted.suspect)


def wanted_by(session: Session, words: list[str]) -> Wanted:
    """The target that the words after the file name describe."""
    length = session.text().length
    if not words:
        return Wanted(1, "", "", length)
    if (number := number_of(" ".join(words))) is not None:
        return Wanted(number, "", "", length)
    cell = cell_of(words[:2]) or cell_of(words[:1])
    value = " ".join(words[2 if cell_of(words[:2]) else 1 :])
    if cell is None or not value:
        raise UsageError(messages.AFTER_FILE)
    return Wanted(0, cell, value, _last_with(session, cell, value))


def _last_with(session: Session, cell: str, value: str) -> int:
    """The session's position, if the cell has this value there, else the last position at which it has the value. A
    missing object has no value."""
    changes, length = session.changes(), session.text().length

    def is_wanted(shown: str) -> bool:
        return shown != "absent" and (fnmatchcase(shown, value) or fnmatchcase(session.words_of(cell, shown), value))

    for position in (session.current_position().position, length):
        if is_wanted(changes.value(cell, position)):
            return position
    found: int | None = changes.nearest([cell], lambda values: is_wanted(values[0]), length, True)
    if found is None:
        raise UsageError(messages.NO_STEP_GIVES.format(cell=cell, value=value))
    return found
