"""Reads an editor's messages while nrdb works on a request. A thread reads the messages, so that `pause`, `cancel` and
`disconnect` take effect at once: a signal stops the work, which runs in the main thread."""

import signal
import threading
from collections.abc import Iterator
from contextlib import contextmanager
from queue import SimpleQueue
from threading import Condition
from typing import Protocol

from netrev.system.interrupts import Interrupts

from .view.messages import EditorStreams, MalformedMessageError, Request

ENDING = ("disconnect", "terminate")
CANCEL, PAUSE = "cancel", "pause"
# A pause stops only moves and lines typed in the console.
MOVES = ("continue", "reverseContinue", "next", "stepIn", "stepBack", "stepOut", "goto", "restart", "configurationDone")
PAUSED = (*MOVES, "evaluate")
SIGNAL = signal.SIGUSR1
MOST_HELD = 2**22  # the maximum number of bytes in waiting requests; above that, reading pauses


class Source(Protocol):
    """The source of an editor's requests."""

    def request(self) -> Request | None:
        """The next request; None if the editor has gone."""

    @contextmanager
    def work(self, request: Request, interrupts: Interrupts) -> Iterator[None]:
        """Context for the work on this request."""

    def ends(self, request: Request) -> bool:
        """Whether a request must not be started, because the editor is ending the session or has cancelled the
        request."""

    def close(self) -> None:
        """Ends the reading, because no more requests are needed."""


class Reading:
    """Reads each request only after the previous request has been answered."""

    def __init__(self, wire: EditorStreams):
        self.request = wire.request

    @contextmanager
    def work(self, request: Request, interrupts: Interrupts) -> Iterator[None]:
        yield

    def ends(self, request: Request) -> bool:
        return False

    def close(self) -> None:
        pass


class Hearing:
    """Reads requests in a thread. Everything else in this class runs in the main thread."""

    def __init__(self, wire: EditorStreams):
        self._wire = wire
        self._messages: "SimpleQueue[tuple[Request | Exception | None, int]]" = SimpleQueue()
        self._room, self._held, self._is_over = Condition(), 0, False
        self._urgent: list[Request] = []  # requests that have arrived and wait for their turn
        self._at_work: Request | None = None
        self._interrupts = Interrupts()
        self._is_interrupted = False
        signal.signal(SIGNAL, lambda *_: self._look())
        threading.Thread(target=self._read, daemon=True).start()

    def request(self) -> Request | None:
        message, size = self._messages.get()
        with self._room:
            self._held -= size
            self._room.notify()
        if isinstance(message, Exception):
            raise message
        if message in self._urgent:
            self._urgent.remove(message)
        return message

    @contextmanager
    def work(self, request: Request, interrupts: Interrupts) -> Iterator[None]:
        """Context for the work on this request. A message may stop the work through these interrupts: a pause or a
        cancel acts as Ctrl-C, and a disconnect ends the session."""
        interrupts.clear()
        self._interrupts, self._is_interrupted = interrupts, False
        try:
            self._at_work = request
            self._look()
            yield
        finally:
            self._at_work = None

    def ends(self, request: Request) -> bool:
        is_ending = request.command in ENDING
        return not is_ending and any(
            other.command in ENDING or is_cancelled_by(request, other) for other in self._urgent
        )

    def close(self) -> None:
        with self._room:
            self._is_over = True
            self._room.notify()

    def _look(self) -> None:
        """Stops the work if a message that stops it has arrived. The signal handler also calls this function, at any
        point of the work."""
        request = self._at_work
        if request is None or request.command in ENDING:
            return
        urgent = list(self._urgent)
        if any(other.command in ENDING for other in urgent):
            self._at_work = None
            self._interrupts.give_up()
        if not self._is_interrupted and any(stops(request, other) for other in urgent):
            self._is_interrupted = True
            self._interrupts.press()

    def _read(self) -> None:
        """Reads, in the thread, until the editor has gone or disconnects."""
        message: Request | Exception | None
        while not self._is_over:
            before = self._wire.received
            try:
                message = self._wire.request()
            except (MalformedMessageError, OSError) as wrong:
                message = wrong
            except ValueError:  # the stream was closed
                message = None
            self._hand_on(message, self._wire.received - before)
            if not isinstance(message, Request) or message.command == ENDING[0]:
                return

    def _hand_on(self, message: Request | Exception | None, size: int) -> None:
        """Passes on a message of this many bytes when the queue has room. An urgent message also signals the main
        thread at once."""
        is_urgent = isinstance(message, Request) and message.command in (*ENDING, CANCEL, PAUSE)
        if isinstance(message, Request) and is_urgent:
            self._urgent.append(message)
        with self._room:
            self._room.wait_for(lambda: self._held < MOST_HELD or self._is_over)
            self._held += size
        self._messages.put((message, size))
        if is_urgent:
            signal.pthread_kill(threading.main_thread().ident or 0, SIGNAL)


def stops(request: Request, message: Request) -> bool:
    """Whether an arrived message stops the work on a request."""
    return (message.command == PAUSE and request.command in PAUSED) or is_cancelled_by(request, message)


def is_cancelled_by(request: Request, message: Request) -> bool:
    """Whether a message cancels a request. The message names the request's number or its progress."""
    if message.command != CANCEL:
        return False
    named = message.arguments.get("requestId"), message.arguments.get("progressId")
    return named[0] == request.number or named[1] == progress_of(request)


def progress_of(request: Request) -> str:
    """The identifier of a request's progress reports."""
    return f"netrev-{request.number}"
