"""A model of a session of `netrev run`: the debugger of debugger_model.py over the states of the machine."""

from collections.abc import Sequence

from netrev.machine.cells import look
from netrev.machine.debugger_model import FULL, DebuggedRecording, Reply, SharedState, is_command, read_line
from netrev.machine.machine import World
from netrev.machine.observer import Observer
from netrev.text.contents import Step

ROOM = 65_536


class Looked:
    """The results of one query, by position."""

    def __init__(self, worlds: Sequence[World], query: str) -> None:
        self.worlds = worlds
        self.query = query

    def __getitem__(self, position: int) -> str:
        return look(self.worlds[position], self.query)


class QueryResults(dict[str, Looked]):
    """The results of each query, by the query's line."""

    def __init__(self, worlds: Sequence[World]) -> None:
        super().__init__()
        self.worlds = worlds

    def __missing__(self, query: str) -> Looked:
        self[query] = Looked(self.worlds, query)
        return self[query]


def recording_of(steps: Sequence[Step], worlds: Sequence[World]) -> DebuggedRecording:
    """The debugger's data for a recording with these steps, whose positions have these states."""
    return DebuggedRecording(None, tuple(step[0] for step in steps), QueryResults(worlds))


class ModelSession:
    """Answers lines one after another."""

    def __init__(self, recording: DebuggedRecording, observer: Observer) -> None:
        self.recording = recording
        self.state, self.placed, self.has_ended = SharedState(), 0, False
        self._observer = observer

    def answer(self, line: bytes) -> Reply | None:
        """The reply to a line; None for a blank line."""
        request = read_line(line)
        if request is None:
            return None
        reply: Reply = (FULL,)
        if not is_command(request) or self.placed < ROOM:
            self.placed += is_command(request)
            self.state, reply = self.recording.answer(self.state, request)
        self._observer.replied(request, reply)
        self.has_ended = request.sort == "quit"
        return reply

    def close(self) -> None:
        """Drops the caches."""
        DebuggedRecording.hits_of.cache_clear()
        DebuggedRecording.nearest.cache_clear()


def lines_of(script: bytes) -> list[bytes]:
    """The lines of a script without their newlines; the last line may lack one."""
    lines = script.split(b"\n")
    return lines if lines[-1] else lines[:-1]


def replies_to(session: ModelSession, script: bytes) -> list[str]:
    """The lines that `netrev run` prints for this script."""
    replies: list[str] = []
    for line in lines_of(script):
        replies += session.answer(line) or ()
        if session.has_ended:
            break
    session.close()
    return replies
