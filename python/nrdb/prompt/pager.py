"""The pager: when output has filled the screen, it waits for a key, as in GDB. `pagination off` turns it off."""

import io
import os
import signal
from collections.abc import Callable
from typing import TextIO

MORE = "--return for more, q to leave out the rest, c to go on without stopping--"
LEAST = 4  # on a screen with fewer lines, the pager doesn't stop


class Paged(io.TextIOBase):
    """Writes to a terminal, one screen at a time. `q` skips the rest of an answer, but doesn't stop the work in
    progress."""

    def __init__(self, out: TextIO, answer: Callable[[], str], is_on: Callable[[], bool]):
        self._out, self._answer, self._is_on = out, answer, is_on
        self._lines, self._is_left_out, self._goes_on = 0, False, False

    def begins(self) -> None:
        """Starts another answer."""
        self._lines, self._is_left_out, self._goes_on = 0, False, False

    def write(self, text: str) -> int:
        for line in text.splitlines(keepends=True):
            if not self._is_left_out:
                self._write(line)
        return len(text)

    def _write(self, line: str) -> None:
        """Writes a line, or the rest of a line. If the screen is full, first waits for a key."""
        rows, columns = self._screen()
        if rows >= LEAST and self._lines >= rows - 1 and not self._goes_on and self._is_on():
            self._ask()
        if self._is_left_out:
            return
        self._out.write(line)
        if line.endswith("\n"):
            self._lines += 1 + max(len(line) - 2, 0) // max(columns, 1)

    def _ask(self) -> None:
        """Waits for a key. Ctrl-C has the same effect as `q`."""
        self._out.flush()
        before = signal.signal(signal.SIGINT, signal.default_int_handler)
        try:
            self._out.write(MORE)
            self._out.flush()
            word = self._answer().strip().lower()
        except KeyboardInterrupt:
            self._out.write("\n")
            word = "q"
        finally:
            signal.signal(signal.SIGINT, before)
        self._lines = 0
        self._is_left_out, self._goes_on = word.startswith("q"), word.startswith("c")

    def _screen(self) -> tuple[int, int]:
        """The number of lines and columns of the terminal; no lines if their number is unknown."""
        try:
            size = os.get_terminal_size(self._out.fileno())
        except (OSError, ValueError):
            return 0, 0
        return size.lines, size.columns

    def flush(self) -> None:
        self._out.flush()

    def isatty(self) -> bool:
        return True

    def fileno(self) -> int:
        return self._out.fileno()
