"""Time limits for long computations in the main thread."""

import signal
import threading
from collections.abc import Iterator
from contextlib import contextmanager

from netrev.errors import NetrevError

AGAIN = 1  # seconds after which the signal is repeated, in case a destructor swallowed the error


class LateError(NetrevError):
    """Raised if a computation exceeds its time limit."""


@contextmanager
def time_limit(seconds: float, message: str) -> Iterator[None]:
    """Context that raises LateError, with this message, after so many seconds. In another thread than the main one,
    the time isn't limited, because only the main thread handles signals."""
    if threading.current_thread() is not threading.main_thread():
        yield
        return

    def stop(*_: object) -> None:
        raise LateError(message.format(seconds=seconds))

    handler = signal.signal(signal.SIGALRM, stop)
    left, _ = signal.setitimer(signal.ITIMER_REAL, seconds, AGAIN)
    try:
        yield
    finally:
        signal.setitimer(signal.ITIMER_REAL, left)
        signal.signal(signal.SIGALRM, handler or signal.SIG_DFL)
