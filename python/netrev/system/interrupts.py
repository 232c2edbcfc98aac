"""Ctrl-C. Ctrl-C during a query takes effect only after nrdb has read the whole reply. A long search checks for Ctrl-C
between two queries. A second Ctrl-C while netrev doesn't answer ends the session."""

import signal
from collections.abc import Callable, Iterator
from contextlib import contextmanager

from netrev.errors import NetrevError


class SearchInterruptedError(NetrevError):
    """Raised if Ctrl-C was pressed during a long search; the search then stops."""


class SessionAbandonedError(NetrevError):
    """Raised if Ctrl-C was pressed again while netrev didn't answer. The session can't continue, because a reply has
    been read only in part."""


class Interrupts:
    """Delays Ctrl-C in the context `held`."""

    def __init__(self) -> None:
        self._is_pressed = self._was_pressed = False
        self._is_given_up = False
        self._stops_at_once = False
        self._shields = 0
        self._first: Callable[[], None] = lambda: None

    @contextmanager
    def held(self, first: Callable[[], None] = lambda: None) -> Iterator[None]:
        """Context in which Ctrl-C is remembered and reported by `check`; a second Ctrl-C raises SessionAbandonedError.
        `first` is called at the first Ctrl-C."""
        self._is_pressed = self._was_pressed = False
        self._first = first
        before = signal.signal(signal.SIGINT, self._handle)
        try:
            yield
        finally:
            signal.signal(signal.SIGINT, before)

    @contextmanager
    def at_once(self) -> Iterator[None]:
        """Context for work without queries, in which Ctrl-C raises SearchInterruptedError at once, except inside
        `shielded`."""
        self.check()
        before, self._stops_at_once = self._stops_at_once, True
        try:
            yield
        finally:
            self._stops_at_once = before
        self.check()

    @contextmanager
    def shielded(self) -> Iterator[None]:
        """Context for work that must not be left half done, in which Ctrl-C is only remembered. A second Ctrl-C gives
        the session up."""
        self._shields += 1
        try:
            yield
        finally:
            self._shields -= 1

    def clear(self) -> None:
        """Forgets an earlier Ctrl-C after the interrupted work has ended."""
        self._is_pressed = False

    def end_if_pressed(self) -> None:
        """Raises KeyboardInterrupt if Ctrl-C was pressed in the last context `held`, even if `check` has reported it."""
        if self._was_pressed:
            raise KeyboardInterrupt

    def give_up(self) -> None:
        """Raises SessionAbandonedError, as does each later request."""
        self._is_given_up = True
        self.check_given_up()

    def press(self) -> None:
        """Handles a Ctrl-C."""
        if self._is_pressed:
            self._is_given_up = True
        self._is_pressed = self._was_pressed = True
        self.check_given_up()
        if self._stops_at_once and not self._shields:
            self.check()

    def _handle(self, *_: object) -> None:
        if not self._is_pressed:
            self._first()
        self.press()

    def check(self) -> None:
        """Raises SearchInterruptedError if Ctrl-C was pressed, and SessionAbandonedError if it was pressed twice."""
        self.check_given_up()
        if self._is_pressed:
            self._is_pressed = False
            raise SearchInterruptedError

    def check_given_up(self) -> None:
        """Raises SessionAbandonedError if the session was given up, even if an earlier SessionAbandonedError was
        caught."""
        if self._is_given_up:
            raise SessionAbandonedError
