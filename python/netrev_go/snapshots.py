"""Makes recordings of a running server: at once, or when one of its calls has waited for a long time. Two small tables
of the log say which goroutines wait on sockets, and since when, so frequent checks are cheap."""

from __future__ import annotations

import argparse
import os
import pathlib
import time
from array import array
from collections.abc import Iterator
from dataclasses import replace
from typing import BinaryIO, NamedTuple

from netrev.messages import recorder as messages
from netrev.text.plain import plain

from .go_command.outputs import base_name, look, numbered
from .go_command.process_logs import ProcessEndedError, ProcessLog, log_of_process, mapped_log, start_of
from .go_command.status import ExitStatus
from .go_command.terminal import complain, say
from .go_command.toolchain import Go, RecorderError
from .go_command.trusted_files import opened_log
from .log.logfile import HEADER_BYTES, ROW_WORDS, WAITER_WORDS, WORD, Header, NotALogError, stack_at
from .log.notes import PARKED
from .log.points import Log
from .log.source_lines import Calls
from .log.tests_in_log import Tests
from .recordings import ReportPrinter, unwritten
from .steps.conversion import ReadLog, RecordingOptions, calls_of, convert, more_endings
from .steps.report import line_of
from .steps.where import own_line

LOOKS = 10  # checks within the time that a call may wait
OFTENEST, SELDOMEST = 0.05, 1.0  # seconds between two checks
# The words of a row in the table of descriptors: the lock word's address, and for each side the place, goroutine, stack
# and start of a wait.
AT_A_WORD, SIDES, SIDE_WORDS = 1, 2, 4
ACCEPTS = "internal/poll.(*FD).Accept"


class SocketWait(NamedTuple):
    """A goroutine that waits on a socket: Go's number, the side, the stack (0 if unknown), when the wait began by Go's
    clock, and the address of the socket's lock word."""

    goroutine: int
    what: str
    stack: int
    since: int
    word: int

    @property
    def is_reader(self) -> bool:
        """Whether it waits to read, as idle goroutines do."""
        return self.what == READS


READS, WRITES, LOCKS = "waits to read", "waits to write", "waits for a lock of a socket"


def waiting_in(file: BinaryIO, header: Header) -> Iterator[SocketWait]:
    """The goroutines that wait, from the tables of a log."""
    file.seek(header.rows_begin)
    rows, queue = array("Q"), array("Q")
    rows.frombytes(file.read(header.rows * ROW_WORDS * WORD))
    queue.frombytes(file.read(header.queue * WAITER_WORDS * WORD))
    for side, what in enumerate((READS, WRITES)):
        places, goroutines, stacks, begins = (
            rows[SIDES + SIDE_WORDS * side + word :: ROW_WORDS] for word in range(SIDE_WORDS)
        )
        for row, place in enumerate(places):
            word = rows[row * ROW_WORDS + AT_A_WORD]
            if place == PARKED and word:
                yield SocketWait(goroutines[row], what, stacks[row], begins[row], word)
    for place, address in enumerate(queue[::WAITER_WORDS]):
        if address:
            _, goroutine, stack, since = queue[place * WAITER_WORDS + 1 : place * WAITER_WORDS + 5]
            yield SocketWait(goroutine, LOCKS, stack, since, address // WORD * WORD - WORD)


class Watch:
    """Checks the log of a process for calls that have waited for a long time."""

    def __init__(self, log: pathlib.Path, file: BinaryIO, header: Header, go: Go | None) -> None:
        self._log, self._file, self._header, self._go = log, file, header, go
        self._calls: dict[int, Calls | None] = {}

    def calls(self, stack: int) -> Calls | None:
        """The calls of a stack."""
        if stack not in self._calls:
            found = None
            if stack and self._go and (addresses := stack_at(self._file, stack)):
                of = self._header
                log = Log([], {stack: addresses}, process=of.process, text=of.text, program=of.program)
                owner = os.fstat(self._file.fileno()).st_uid
                found = calls_of(ReadLog(self._log, log, Tests(), owner), {stack}, self._go).get(stack)
            self._calls[stack] = found
        return self._calls[stack]

    def is_meant(self, wait: SocketWait) -> bool:
        """Whether this is one of the program's calls that should not wait for long. Calls that accept don't count.
        Neither do reads in goroutines that run only Go's own code, such as those of idle connections, or whose lines
        are unknown."""
        calls = self.calls(wait.stack)
        if calls is None or not calls.calls:
            return not wait.is_reader
        if any(call.function == ACCEPTS for call in calls.calls):
            return False
        return own_line(calls) is not None or not wait.is_reader

    def stuck(self, longest: float, only_writes: bool) -> SocketWait | None:
        """The call that has waited longest, if that is longer than the limit."""
        now = time.clock_gettime_ns(time.CLOCK_MONOTONIC)
        for wait in sorted(waiting_in(self._file, self._header), key=lambda wait: wait.since):
            if now - wait.since < longest * 1e9:
                return None
            if not (only_writes and wait.is_reader) and self.is_meant(wait):
                return wait
        return None

    def words(self, wait: SocketWait) -> str:
        """The message about a call that has waited for a long time."""
        line, function = line_of(self.calls(wait.stack))
        now = time.clock_gettime_ns(time.CLOCK_MONOTONIC)
        return f"{line}: {function + ' ' if function else ''}{wait.what} since {(now - wait.since) / 1e9:.1f} s (goid {wait.goroutine})"


def snapshot(
    options: argparse.Namespace, go: Go | None, recording_options: RecordingOptions, known: list[object]
) -> int:
    """Makes a recording of a running process at once."""
    look(base_name(options.o, "snapshot"), options.o is not None, "")
    return record_now(log_of_process(options.pid), options, go, recording_options, known)


def record_now(
    log: ProcessLog,
    options: argparse.Namespace,
    go: Go | None,
    recording_options: RecordingOptions,
    known: list[object],
) -> int:
    """Makes a recording of a log that a process writes."""
    base, saying = base_name(options.o, "snapshot"), ReportPrinter(log.head())
    name = numbered(base, 1, options.o is not None, more_endings(recording_options))
    try:
        outcome = convert(log.path, name, go, recording_options, known, saying.hear, options.pid)
    except OSError as fault:
        complain(unwritten(name, fault))
        return ExitStatus.TROUBLE
    saying.rest(outcome.lines)
    return ExitStatus.DONE if outcome.taken else ExitStatus.REFUSED


def watch(options: argparse.Namespace, go: Go | None, recording_options: RecordingOptions, known: list[object]) -> int:
    """Makes a recording of a process when one of its calls has waited as long as --stuck says. If the process executes
    another program, its new log is watched."""
    log, start = log_of_process(options.pid), start_of(options.pid)
    look(base_name(options.o, "snapshot"), options.o is not None, "")
    if not log.fault:
        complain(messages.WATCHING.format(process=options.pid))
    try:
        while not log.fault:
            if found := first_stuck(options, log, go):
                recording_options = replace(recording_options, first=found.word, stuck=found.goroutine, failed=True)
                break
            log, began = log_of_process(options.pid), start_of(options.pid)
            if began != start:
                raise ProcessEndedError  # and another process has its number
            if not log.fault:
                complain(messages.PROGRAM_IS_REPLACED.format(process=options.pid, log=log.path))
    except ProcessEndedError:
        complain(messages.NO_LONG_WAIT.format(process=options.pid))
        return ExitStatus.DONE
    return record_now(log, options, go, recording_options, known)


def first_stuck(options: argparse.Namespace, log: ProcessLog, go: Go | None) -> SocketWait | None:
    """Waits until one of a process's calls has waited for too long; None if the process has another log now, or can't
    use this log any more."""
    pause = min(max(options.stuck / LOOKS, OFTENEST), SELDOMEST)
    try:
        with opened_log(log.path, options.pid, 0) as file:
            header = Header(file.read(HEADER_BYTES))
            if not header.rows:
                raise RecorderError(messages.NO_TABLE.format(log=plain(str(log.path))))
            watching = Watch(log.path, file, header, go)
            while mapped_log(options.pid) == log:
                found = watching.stuck(options.stuck, options.writes)
                if found:
                    say([plain(watching.words(found))])
                    return found
                time.sleep(pause)
            return None
    except (OSError, NotALogError) as fault:
        if mapped_log(options.pid) != log:
            return None
        why = fault.strerror if isinstance(fault, OSError) else fault
        raise RecorderError(messages.LOG_UNREADABLE.format(log=plain(str(log.path)), why=why)) from None
