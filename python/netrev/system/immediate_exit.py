"""Begins and ends a program: a signal that ends it first ends the processes that it started and restores the terminal.
At the end, millions of small objects aren't freed one by one."""

import atexit
import os
import signal
import sys
from collections.abc import Callable
from contextlib import suppress
from types import FrameType
from typing import NoReturn

ENDING = (signal.SIGTERM, signal.SIGHUP, signal.SIGQUIT)
AGAIN = 1  # seconds after which the exception is raised again, in case readline or a destructor swallowed it


def ended_by(main: Callable[[], int]) -> None:
    """Runs a program, and ends the process with its status or by the signal that ended it."""
    statuses: list[int] = []
    atexit.register(leave, statuses)  # (registered first, so that it runs after everything else)
    received = heeded_signals()
    try:
        statuses.append(main())
    except KeyboardInterrupt:
        end_by(signal.SIGINT)
    finally:
        if received:
            end_by(received[0])
    sys.exit(statuses[0])


def heeded_signals() -> list[int]:
    """From here on, signals that end a program raise SystemExit, and Ctrl-C raises KeyboardInterrupt. Ignored signals
    stay ignored. Returns the list of signals that have come."""
    received: list[int] = []

    def end(number: int, _: FrameType | None) -> NoReturn:
        received.append(number)
        signal.signal(signal.SIGALRM, end)
        signal.setitimer(signal.ITIMER_REAL, AGAIN, AGAIN)
        raise SystemExit(128 + number)

    for number in (*ENDING, signal.SIGINT):
        if signal.getsignal(number) is signal.SIG_DFL:
            signal.signal(number, signal.default_int_handler if number == signal.SIGINT else end)
    return received


def end_by(number: int) -> None:
    """Ends the process by a signal."""
    signal.setitimer(signal.ITIMER_REAL, 0)
    with suppress(OSError, ValueError):
        flush()
    signal.signal(number, signal.SIG_DFL)
    signal.pthread_sigmask(signal.SIG_UNBLOCK, [number])
    os.kill(os.getpid(), number)


def flush() -> None:
    for stream in filter(None, (sys.stdout, sys.stderr)):
        stream.flush()


def leave(ended: list[int]) -> None:
    """Ends the process with a status at once: freeing the data of a million steps would take a second."""
    with suppress(OSError, ValueError):  # (Python reports output that couldn't be written, as usual)
        for status in ended:
            flush()
            os._exit(status)
