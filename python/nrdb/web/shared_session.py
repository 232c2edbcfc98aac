"""The session that the page's browsers share. This is nrdb's session, which also reports which browser moved it to
which position. netrev reports only a session's position, so moves by other clients are noticed at the next check."""

from collections.abc import Callable, Sequence
from contextlib import suppress
from dataclasses import dataclass, field, fields
from typing import Any, Protocol

from netrev.connection.collected_output import Collecting
from netrev.connection.netrev import Netrev, Reply
from netrev.connection.output import SessionPosition, Table
from netrev.connection.shapes import LineRefusedError, ListedMark, Position
from netrev.messages import browsers as texts
from netrev.session.commands import whole_words
from netrev.session.session import Answering, Session, UsageError
from netrev.system.interrupts import SearchInterruptedError
from nrdb.prompt.answers import ANSWERS, answer_list

OTHERS = "another front"
WITH_FILES = ("source", "save", "timeline", "trace", "reduce", "report", "explore", "frame", "up", "down")


class EventListener(Protocol):
    """Receives events."""

    def tell(self, event: str, **values: Any) -> None:
        """Sends an event with this name and these values."""


def refusing(why: str) -> Answering:
    """The answer to a command that the page doesn't allow."""

    def answer(session: Session, words: list[str]) -> None:
        raise UsageError(why)

    return answer


OF_THE_PAGE = {
    **ANSWERS,
    **{name: refusing(texts.NO_FILES) for name in WITH_FILES},
    "list": answer_list,  # shows only steps, not the source
    "commands": refusing(texts.NO_COMMANDS),
    "condition": refusing(texts.NO_CONDITIONS),
}


class OutputSender(Collecting):
    """Sends nrdb's output as text, in events."""

    def __init__(self, streams: EventListener):
        super().__init__()
        self._streams = streams

    def _send(self, of: str) -> None:
        if lines := self.take().splitlines():
            self._streams.tell("said", of=of, lines=lines)

    def echo(self, line: str) -> None:
        self.write(f"(netrev) {line}")
        self._send("echo")

    def reply(self, line: str, reply: Reply, words: str) -> None:
        super().reply(line, reply, words)
        self._send("reply")

    def place(self, place: SessionPosition) -> None:
        super().place(place)
        self._send("place")

    def note(self, text: str) -> None:
        super().note(text)
        self._send("note")

    def table(self, table: Table) -> None:
        super().table(table)
        self._send(table.topic)


@dataclass
class Shared(Session):
    """A session that answers lines of several users."""

    streams: EventListener = field(kw_only=True)
    user: str = ""
    part: str = ""  # the command of the line that is being answered
    last_position: Position | None = None
    last_marks: list[ListedMark] | None = None

    @classmethod
    def over(cls, session: Session, streams: EventListener) -> "Shared":
        """A session, in the form that the page uses."""
        shared = cls(
            **{attribute.name: getattr(session, attribute.name) for attribute in fields(session)}, streams=streams
        )
        shared.printer, shared.answers = OutputSender(streams), OF_THE_PAGE
        return shared

    def run_for(self, user: str, line: str) -> None:
        """Answers a line from a browser, and then checks the session's state."""
        self.user = user
        self.run(line)
        self.refresh()

    def guarded(self, answer: Callable[[str], bool], what: str) -> bool:
        """Answers a line. Ctrl-C stops it, as at the prompt, and ends the page."""
        goes_on = True
        with suppress(SearchInterruptedError), self.interrupts.held():
            goes_on = answer(what)
        self.interrupts.end_if_pressed()
        return goes_on

    def attempt_line(self, line: str) -> bool:
        self.part = line
        return super().attempt_line(line)

    def answer(self, line: str) -> bool:
        if whole_words(line.split())[0] == "quit":
            raise UsageError(texts.NO_QUIT)
        return super().answer(line)

    def arrive(self, position: int, numbers: Sequence[str] = (), marks_before: Sequence[ListedMark] = ()) -> None:
        self._report_move(self.user, self.part, position)
        super().arrive(position, numbers, marks_before)

    def report_others(self) -> None:
        self.refresh()

    def refresh(self) -> None:
        """Reads the session's position and marks. If the position has changed, another user has moved the session. If
        netrev lacks the memory for the query, the next check notices the change."""
        try:
            now = self.current_position()
            marks = self.netrev.marks()
        except LineRefusedError:
            return
        self._report_move(OTHERS, None, now.position)
        self.known_position = now.position
        if now != self.last_position:
            self.last_position = now
            self.streams.tell("stands", **now._asdict())
        if marks != self.last_marks:
            self.last_marks = marks
            listed = [{"mark": int(mark.number), "what": f"{mark.sort} {mark.what}"} for mark in marks]
            self.streams.tell("marks", marks=listed)

    def begin_anew(self, netrev: Netrev) -> None:
        """Continues with another netrev, at that netrev's position."""
        self.netrev, self.last_position, self.last_marks = netrev, None, None
        self.attached.pending.clear()
        self.begin(self.ask("info position"))
        self.refresh()

    def _report_move(self, user: str, line: str | None, position: int) -> None:
        """Reports a move if the position has changed."""
        if position == self.known_position:
            return
        self.streams.tell("moved", who=user, line=line, **{"from": self.known_position, "to": position})
        if self.last_position:
            self.last_position = self.last_position._replace(position=position)
            self.streams.tell("stands", **self.last_position._asdict())
