"""nrdb's output: events, as text for people or as lines of JSON for editors and scripts. netrev's replies are printed
unchanged. All other output begins with `|`."""

import json
import os
import sys
from abc import ABC, abstractmethod
from collections.abc import Callable, Iterator, Sequence
from contextlib import contextmanager
from dataclasses import dataclass
from enum import Enum
from typing import Any, TextIO

from netrev.recording.answers import answer_text
from netrev.recording.recording import Step
from netrev.text.plain import plain
from netrev.text.wrapping import width_of, wrapped

from .netrev import Reply

Values = dict[str, Any]  # the values of a row by name, as in JSON


@dataclass(frozen=True)
class SessionPosition:
    """The session's position, the number of steps, and the steps before and after the position, if known."""

    position: int
    steps: int
    last: Step | None
    next: Step | None

    def __str__(self) -> str:
        if self.position == 0:
            last = "(start)"
        else:
            answered = (
                f", answered {answer_text(self.last.answer)}"
                if self.last and self.last.answer not in (None, "done")
                else ""
            )
            last = f"last step {self.position}" + (f": {self.last}{answered}" if self.last else "")
        if self.position == self.steps:
            return f"{last}   (end)"
        then = f"next step {self.position + 1}"
        return f"{last}   {then}: {self.next}   (line {self.next.line})" if self.next else f"{last}   {then}"


class Style(Enum):
    """The style of a line on a terminal with colours; netrev's own replies have none."""

    PLAIN = ""
    ADDED = "36"  # cyan: text that nrdb adds
    ALARM = "1;31"  # red: a suspect


@dataclass(frozen=True)
class Row:
    """A row of a table: its values by name, and its line. A row without a line shares the line of the previous row. A
    row without values is a further line of the previous row."""

    values: Values
    text: str


@dataclass(frozen=True)
class Table:
    """Rows about a topic, and a line that says how much was omitted or that the table is empty."""

    topic: str
    rows: list[Row]
    rest: str = ""


def displays_table(cells: Sequence[str], values: Sequence[str], words_of: Callable[[str, str], str]) -> Table:
    """The table of displayed cells, each with its value and the meaning of the value."""
    rows = []
    for cell, value in zip(cells, values):
        words = words_of(cell, value)
        shown = f"{cell} = {value}" + (f"   ({words})" if words else "")
        rows.append(Row({"cell": cell, "value": value, "words": words or None}, shown))
    return Table("display", rows)


class Printer(ABC):
    """Prints each event before the next line is read. All text passes through `plain`, so that a terminal doesn't
    execute escape sequences from a recording or a server. `is_paged` says whether output pauses when the screen is
    full."""

    def __init__(self, out: TextIO | None = None):
        self.out = out if out is not None else sys.stdout
        self.is_paged = True
        self._flushes = True

    def write(self, text: str) -> None:
        """Writes a line."""
        self.put(plain(text))

    def put(self, text: str) -> None:
        """Writes a line as plain text or styled."""
        print(text, file=self.out, flush=self._flushes)

    @contextmanager
    def joined(self) -> Iterator[None]:
        """Context in which no line is read. All output is written at the end."""
        self._flushes = False
        try:
            yield
        finally:
            self._flushes = True
            self.out.flush()

    @abstractmethod
    def echo(self, line: str) -> None:
        """Prints a line that wasn't typed, as the prompt would show it."""

    @abstractmethod
    def reply(self, line: str, reply: Reply, words: str) -> None:
        """Prints netrev's reply to a line, and the meaning of the reply's value."""

    @abstractmethod
    def place(self, place: SessionPosition) -> None:
        """Prints the session's position."""

    @abstractmethod
    def note(self, text: str) -> None:
        """Prints a remark, of one line or several."""

    @abstractmethod
    def table(self, table: Table) -> None:
        """Prints a table."""

    @abstractmethod
    def end(self, status: int) -> None:
        """Reports that the session has ended."""


class TextPrinter(Printer):
    """Events as text, with colours on request."""

    def __init__(self, out: TextIO | None = None, is_coloured: bool = False):
        super().__init__(out)
        self.is_coloured = is_coloured

    def styled(self, text: str, style: Style) -> str:
        """The text in this style, with an escape for each invisible or control character."""
        is_styled = self.is_coloured and style is not Style.PLAIN
        return f"\x1b[{style.value}m{plain(text)}\x1b[0m" if is_styled else plain(text)

    def add(self, text: str, style: Style = Style.ADDED) -> None:
        """Prints a line of nrdb's own text. On a narrow terminal, the line is broken into several."""
        for line in wrapped(plain(text), width_of(self.out) - len("| ")):
            self.put(self.styled(f"| {line}", style))

    def echo(self, line: str) -> None:
        self.write(f"(netrev) {line}".rstrip())

    def reply(self, line: str, reply: Reply, words: str) -> None:
        added = self.styled(f"   | {words}", Style.ADDED) if words else ""
        self.put(plain(reply.first) + added)
        for entry in reply.entries:
            self.write(entry)

    def place(self, place: SessionPosition) -> None:
        self.add(str(place))

    def note(self, text: str) -> None:
        for line in text.split("\n"):
            self.add(line)

    def table(self, table: Table) -> None:
        for row in table.rows:
            if row.text:
                self.add(row.text, Style.ALARM if row.values and table.topic == "suspects" else Style.ADDED)
        if table.rest:
            self.add(table.rest)

    def end(self, status: int) -> None:
        """Reports that the session has ended."""


class JsonPrinter(Printer):
    """Events as lines of JSON, each an object with the key `event`."""

    def _event(self, event: str, **values: Any) -> None:
        text = json.dumps({"event": event, **values}, separators=(",", ":"))
        self.write(text.replace("\x7f", "\\u007f"))  # the only control character that JSON leaves unescaped

    def echo(self, line: str) -> None:
        """Does nothing, because the event of the reply contains the line."""

    def reply(self, line: str, reply: Reply, words: str) -> None:
        self._event("reply", line=line, reply=reply.lines, words=words or None)

    def place(self, place: SessionPosition) -> None:
        steps = {name: step and step._asdict() for name, step in (("last", place.last), ("next", place.next))}
        self._event("place", position=place.position, steps=place.steps, **steps)

    def note(self, text: str) -> None:
        self._event("note", text=text)

    def table(self, table: Table) -> None:
        self._event(
            "table", topic=table.topic, rows=[row.values for row in table.rows if row.values], rest=table.rest or None
        )

    def end(self, status: int) -> None:
        self._event("end", status=status)


def has_colours() -> bool:
    """Whether the output is a terminal with colours, and NO_COLOR isn't set (https://no-color.org)."""
    return sys.stdout.isatty() and os.environ.get("TERM", "dumb") != "dumb" and not os.environ.get("NO_COLOR")
