"""Ctrl-C for the fuzzer: a real signal, which may be sent at any time but arrives only while a session runs a line.
Within `confined`, the main thread blocks the signal, except in the call that `heard` makes. So no signal arrives while
the output is checked. None arrives after the end, because all threads that send signals have ended by then, and late
signals are dropped."""

import signal
import threading
from collections.abc import Callable, Iterator
from contextlib import contextmanager
from typing import TypeVar

CTRL_C = {signal.SIGINT}
MEANWHILE = "netrev is stopped"  # the name of threads that may send Ctrl-C

Result = TypeVar("Result")


def pressed() -> None:
    """Sends Ctrl-C to the main thread."""
    signal.pthread_kill(threading.main_thread().ident or 0, signal.SIGINT)


def nothing(*_: object) -> None:
    """The handler of a Ctrl-C that is ignored."""


@contextmanager
def confined() -> Iterator[None]:
    """In this context, a Ctrl-C interrupts only the call that `heard` makes. At any other time it does nothing."""
    before = signal.signal(signal.SIGINT, nothing)
    try:
        signal.pthread_sigmask(signal.SIG_BLOCK, CTRL_C)
        yield
    finally:
        settle()
        signal.signal(signal.SIGINT, nothing)  # (a session that was abandoned may have left its own handler)
        signal.pthread_sigmask(signal.SIG_UNBLOCK, CTRL_C)  # (signals that were sent late arrive now)
        signal.signal(signal.SIGINT, before)


def heard(run: Callable[[], Result]) -> Result:
    """The result of a call that a Ctrl-C may interrupt, for use within `confined`. It isn't a context manager, because
    the exception of a Ctrl-C could be raised in the manager's own code before it blocks the signal again."""
    try:
        signal.pthread_sigmask(signal.SIG_UNBLOCK, CTRL_C)
        return run()
    finally:
        signal.pthread_sigmask(signal.SIG_BLOCK, CTRL_C)


@contextmanager
def undisturbed() -> Iterator[None]:
    """In this context, no Ctrl-C reaches this thread; a Ctrl-C that is sent meanwhile arrives afterwards. An exception
    could leave a thread unstarted. If it is raised while a thread is joined, Python believes that the thread has
    ended."""
    before = signal.pthread_sigmask(signal.SIG_BLOCK, ())
    try:
        signal.pthread_sigmask(signal.SIG_BLOCK, CTRL_C)
        yield
    finally:
        signal.pthread_sigmask(signal.SIG_SETMASK, before)


def settle() -> None:
    """Waits until all threads that may send Ctrl-C have ended."""
    with undisturbed():
        for thread in threading.enumerate():
            if thread.name == MEANWHILE:
                thread.join()
