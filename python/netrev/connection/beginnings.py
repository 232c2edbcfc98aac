"""The beginning of a recording. In a recording of a long-running server, the first steps only lead to the state in
which the recording begins."""

from typing import Protocol

from netrev.messages import session as messages
from netrev.recording.recording import Recording

from .netrev import Netrev, NetrevProcess, Reply
from .output import Printer, SessionPosition
from .shapes import go_to, position_of


class SessionParts(Protocol):
    """The parts of a session that this module needs."""

    netrev: Netrev
    recording: Recording | None
    printer: Printer
    known_position: int

    def ask(self, line: str) -> str:
        """The first line of netrev's reply."""

    def place(self, position: int) -> SessionPosition:
        """The position, with the steps before and after it."""


def begins_at(recording: Recording) -> int:
    """The position at which a recording begins: 0, or the position after the steps that lead to the recording's first
    state."""
    begins = recording.lines.prelude
    return begins if 0 < begins <= recording.length else 0


def begin_words(recording: Recording) -> str:
    """A note about a recording that begins in the middle of a run; empty for other recordings."""
    begins = begins_at(recording)
    return messages.BEGINS_IN_THE_MIDDLE.format(steps=begins) if begins else ""


def report_begin(session: SessionParts, reply: str) -> None:
    """Goes to the beginning of the recording, and prints the position. A shared session keeps its position. `reply` is
    netrev's reply to `info position`."""
    recording = session.recording
    if recording and begins_at(recording) and session.known_position == 0 and isinstance(session.netrev, NetrevProcess):
        go_to(begins_at(recording), session.ask)
        reply = session.ask("info position")
        session.known_position = position_of(reply).position
    session.printer.reply("info position", Reply(reply), "")
    session.printer.place(session.place(session.known_position))
    if recording and (words := begin_words(recording)):
        session.printer.note(words)
