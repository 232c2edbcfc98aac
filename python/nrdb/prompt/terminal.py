"""The prompt: line editing, a history file, completion, and an empty line that repeats a step."""

import os
import sys
from pathlib import Path
from typing import TextIO, cast

from netrev.connection.errors import MismatchedRecordingError
from netrev.connection.netrev import NetrevEndedError
from netrev.connection.output import TextPrinter
from netrev.connection.scout import ScoutUnavailableError
from netrev.connection.shapes import StrangeReplyError
from netrev.recording.recording import NotARecordingError
from netrev.session.commands import COMMANDS, AmbiguousWordError, whole_words
from netrev.session.session import Session
from netrev.system.interrupts import SearchInterruptedError
from netrev.text.vocabulary import ObjectKind

from .completion import candidates, numbers_in, places_in
from .pager import Paged

try:
    import readline
except ImportError:  # without readline there is no line editing
    readline = None  # type: ignore[assignment]

PROMPT, TAKING = "(netrev) ", "> "  # the second one is for the lines of `commands`
FIRST = "what went wrong: info suspects; what hangs: info hangs; what failed: info errors; all commands: help"
MOST_STEPS = 200_000  # in a recording of up to this many steps, nrdb finds the causes within seconds
KEPT = 1000


def history_file() -> Path:
    """The path of the history file: NETREV_HISTORY, or .netrev_history in the home folder."""
    return Path(os.environ.get("NETREV_HISTORY") or Path.home() / ".netrev_history")


class Terminal:
    """The prompt at a terminal, with its history file: NETREV_HISTORY, or .netrev_history in the home folder."""

    def __init__(self, session: Session):
        self.session = session
        self._pager: Paged | None = None
        self._last = ""
        self._found: list[str] = []

    def run(self) -> None:
        """Reads and answers lines, until `quit` or the end of the input."""
        self._load()
        self._open()
        self.session.printer.note(FIRST)
        self._page()
        try:
            while self._turn():
                pass
        finally:
            self._save()

    def _open(self) -> None:
        """Prints what failed or hangs in the whole recording, regardless of the session's position."""
        recording = self.session.recording
        if recording is None or recording.length > MOST_STEPS:
            return
        from netrev.findings.causes import opening_words

        try:
            with self.session.interrupts.held():
                lines = opening_words(recording)
        except (
            SearchInterruptedError,
            ScoutUnavailableError,
            MismatchedRecordingError,
            NotARecordingError,
            StrangeReplyError,
        ):
            return  # (a command that needs the causes reports the reason)
        if lines:
            self.session.printer.note("\n".join(lines))

    def _page(self) -> None:
        """Lets output pause when the screen is full, if the output is a terminal that can pause."""
        printer = self.session.printer
        if isinstance(printer, TextPrinter) and printer.out.isatty() and os.environ.get("TERM") != "dumb":
            self._pager = Paged(printer.out, sys.stdin.readline, lambda: printer.is_paged)
            printer.out = cast(TextIO, self._pager)

    def _turn(self) -> bool:
        """Reads and answers one line. Returns False if the session has ended."""
        if self._pager is not None:
            self._pager.begins()
        try:
            if self.session.attached.taking is not None:
                return self.session.run(input(TAKING))
            line = input(PROMPT)
            if line.split():
                self._last = line if repeats(line) else ""
            return self.session.run(line if line.split() else self._last)
        except EOFError:
            print()
            return False
        except KeyboardInterrupt:
            print("^C")
            self.session.attached.taking = None
            return True

    def _load(self) -> None:
        if readline is None:
            return
        readline.set_completer(self._complete)
        readline.set_completer_delims(" ")
        readline.parse_and_bind("tab: complete")
        readline.set_history_length(KEPT)
        try:
            readline.read_history_file(history_file())
        except OSError:
            pass

    def _save(self) -> None:
        if readline is None:
            return
        try:
            readline.write_history_file(history_file())
        except OSError:
            pass

    def _complete(self, text: str, at: int) -> str | None:
        """The candidate with this number; None after the last one, as readline expects."""
        if at == 0:
            before = readline.get_line_buffer()[: readline.get_begidx()].split()
            with self.session.interrupts.held():
                every = candidates(before, self._numbers, lambda: places_in(self.session.recording))
            self._found = [f"{word} " for word in every if word.startswith(text)]
        return self._found[at] if at < len(self._found) else None

    def _numbers(self, of: ObjectKind) -> list[str]:
        """The numbers in use at the position."""
        try:
            return numbers_in(self.session, of)
        except (NetrevEndedError, SearchInterruptedError):  # (readline would discard the exception)
            return []


def repeats(line: str) -> bool:
    """Whether an empty line after this line repeats it. Only commands that make steps are repeated."""
    try:
        first = whole_words(line.split())[0]
    except AmbiguousWordError:
        return False
    return first in COMMANDS and COMMANDS[first].steps
