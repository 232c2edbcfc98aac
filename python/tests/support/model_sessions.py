"""A model of netrev in the test's process, with events."""

from collections import deque
from collections.abc import Callable
from pathlib import Path

from netrev.connection.netrev import Netrev
from netrev.machine.debugger_model import DebuggedRecording
from netrev.machine.observer import Observer
from netrev.model.changes import changes
from netrev.model.program import replay
from netrev.model.session import ModelSession, recording_of
from netrev.recording.step_changes import RecordedChanges
from netrev.system.interrupts import Interrupts

Happens = Callable[["Modelled"], None]


def recording_at(path: Path) -> DebuggedRecording:
    """The recording in the form that the model's debugger uses."""
    replayed = replay(path.read_bytes(), Observer())
    return recording_of(replayed.text.steps, replayed.worlds)


def changes_at(path: Path) -> RecordedChanges:
    """The changes that each step of the recording makes, according to the model."""
    return changes_in(path.read_bytes())


def changes_in(recording: bytes) -> RecordedChanges:
    """The changes that each step makes in the recording with this text, according to the model."""
    lines, _ = changes(recording, Observer())
    return RecordedChanges.read(f"{line}\n".encode() for line in lines)


class Modelled(Netrev):
    """Answers as netrev would. `happens` is called before lines are sent, and before each line that is read."""

    def __init__(self, recording: DebuggedRecording, interrupts: Interrupts, happens: Happens):
        super().__init__(interrupts)
        self._session = ModelSession(recording, Observer())
        self._happens = happens
        self._said: deque[str] = deque()
        self.has_ended = False

    def _send(self, text: bytes) -> None:
        self._happens(self)
        for line in text.split(b"\n")[:-1]:
            self._said.extend(self._session.answer(line) or ())

    def _next(self, line: str) -> str | None:
        self._happens(self)
        return None if self.has_ended else self._said.popleft()

    def close(self) -> int | None:
        self.has_ended = True
        return None
