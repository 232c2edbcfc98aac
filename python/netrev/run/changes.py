"""The changes made by a recording's steps, for callers without a session: from one run of `netrev changes`, or computed
without netrev, by the Python model of the machine, which takes many times as long."""

import subprocess
from collections.abc import Callable, Iterable, Iterator
from typing import Any

from netrev.machine.in_place import Machine
from netrev.messages import session as messages
from netrev.model.changes import lines_of
from netrev.recording.recording import Recording, Row
from netrev.recording.step_changes import IncompleteChangesError, RecordedChanges
from netrev.system.command_lines import file_word
from netrev.text.contents import Limits, Step
from netrev.text.vocabulary import KINDS, MOST

# the seconds that netrev may take, and the additional seconds for each step; the model takes about as long
AT_LEAST, A_STEP = 5, 0.00005


class PrintedChanges:
    """`netrev changes` of a recording in a file. It runs in the background, and is ended when the `with` block ends."""

    def __init__(self, netrev: str, path: str) -> None:
        self._words = [netrev, "changes", file_word(path)]
        self._process: "subprocess.Popen[bytes] | None" = None
        self._fault: OSError | None = None
        self._ended: tuple[int, bytes, bytes] | None = None

    def __enter__(self) -> "PrintedChanges":
        pipe = subprocess.PIPE
        try:
            self._process = subprocess.Popen(self._words, stdin=subprocess.DEVNULL, stdout=pipe, stderr=pipe)
        except OSError as fault:
            self._fault = fault
        return self

    def __exit__(self, *_: object) -> None:
        if self._process is not None and self._ended is None:
            self._process.kill()
            self._process.communicate()

    def ended(self, seconds: float | None = None) -> tuple[int, bytes, bytes]:
        """Waits for netrev to end, and returns its status and its two outputs; raises an OSError if it couldn't be
        started."""
        if self._ended is None:
            if self._process is None:
                assert self._fault is not None
                raise self._fault
            printed, errors = self._process.communicate(timeout=seconds)
            self._ended = self._process.returncode, printed, errors
        return self._ended

    def of(self, recording: Recording) -> RecordedChanges | None:
        """The changes of the recording. The result is None if netrev can't be started, takes longer than the model
        would, or refuses the recording."""
        try:
            status, printed, _ = self.ended(AT_LEAST + A_STEP * recording.length)
            changes = RecordedChanges.read([printed])
        except (OSError, subprocess.TimeoutExpired, IncompleteChangesError):
            return None
        return None if status or changes.fault or changes.length != recording.length else changes


def read_with_changes(netrev: str, path: str) -> Recording:
    """The recording in a file, with the changes that netrev lists. Raises an OSError or IncompleteChangesError if
    netrev doesn't list them."""
    with PrintedChanges(netrev, path) as printed:
        recording = Recording.read(path)
        status, _, _ = printed.ended()
        recording.changes = printed.of(recording)
    if recording.changes is None:
        raise IncompleteChangesError(messages.ENDED_WITH.format(status=status))
    return recording


WIDE = Limits(MOST, MOST, MOST, MOST)  # (the steps were made within the limits)
OF_BYTES = frozenset(kind for kind, row in KINDS.items() if "bytes" in row.arguments)


class PlayedSteps(Recording):
    """Steps of the model, as the rules need them. The caller may know the changes of each step (`lock 0 = 8`)."""

    def __init__(self, steps: Iterable[Step], changes: Iterable[Iterable[str]] | None = None) -> None:
        super().__init__(b"")
        self._steps = list(steps)
        if changes is not None:
            lines = (f"{number} {change}" for number, its in enumerate(changes, 1) for change in its)
            self.changes = _read([*lines, f"ok {len(self._steps)} steps"])

    @property
    def has_answers(self) -> bool:
        return False

    def rows(self, row_of: Callable[[list[Any]], Row], begin: int = 1, end: int | None = None) -> Iterator[Row]:
        steps = self._steps[begin - 1 : end]
        return (row_of([part.hex() if isinstance(part, bytes) else part for part in step]) for step in steps)


def changes_of(recording: Recording) -> RecordedChanges:
    """The changes of a recording's steps, from netrev if it is available, else from the model."""
    if recording.changes is None:
        recording.changes = _read(_lines(recording))
    return recording.changes


def _read(lines: Iterable[str]) -> RecordedChanges:
    return RecordedChanges.read(["\n".join((*lines, "")).encode()])


def _lines(recording: Recording) -> Iterator[str]:
    """The lines that netrev would print."""
    machine, number = Machine(WIDE), 0
    for number, (kind, *arguments) in enumerate(recording.arrays(), 1):
        if recording.has_answers:
            arguments.pop()
        if kind in OF_BYTES:
            arguments[-1] = bytes.fromhex(arguments[-1])
        machine.step((kind, *arguments))
        yield from lines_of(machine, number)
    yield f"ok {number} steps"
