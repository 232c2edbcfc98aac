"""Makes a recording from a log, adds the program's lines to it, and makes the report about it."""

from __future__ import annotations

import os
import pathlib
import re
from bisect import bisect_left
from contextlib import nullcontext, suppress
from dataclasses import dataclass, field
from functools import partial

from netrev.messages import recorder as messages
from netrev.text.files import check_beside, forget_where
from netrev.text.plain import plain
from netrev_go.go_command.line_reader import line_reader
from netrev_go.go_command.outputs import LINES, WORDS
from netrev_go.go_command.toolchain import Go
from netrev_go.go_command.trusted_files import opened_beside, opened_log, owners_of
from netrev_go.log.goroutines import Goroutines
from netrev_go.log.logfile import NotALogError, copy_of, log_of
from netrev_go.log.points import Log
from netrev_go.log.sockets import MOST_MEGABYTES, MOST_SOCKETS
from netrev_go.log.source_lines import Calls, SourceRoots, lines_of
from netrev_go.log.tests_in_log import Ran, Tests, of_log

from .goroutine_records import Everybody, kept
from .recording_builder import (
    NewRecording,
    NoSocketError,
    NothingRecordedError,
    Part,
    UnconvertibleError,
    make,
    write,
    write_words,
)
from .report import Conversion, Hear, report, unheard
from .scopes_of_tests import goroutines_of, sockets_of
from .where import STEPS_A_LINE, write_where

FAILED_COPY = re.compile(r"\.failed\.([0-9]{3})")


@dataclass(frozen=True)
class RecordingOptions:
    """The recording that is requested from a log."""

    sockets: int = MOST_SOCKETS
    megabytes: int = MOST_MEGABYTES
    words: bool = False
    all_bytes: bool = False
    failed: bool = False  # Go's command failed, or a call hangs: the report begins with the causes
    first: int = 0  # the address of the lock word of a socket to keep before all others if not all fit
    stuck: int = 0  # Go's number of a goroutine that waits on that socket, with which the report begins


def more_endings(options: RecordingOptions) -> list[str]:
    """The endings of the files beside a recording, other than NAME.where."""
    return [WORDS] if options.words else []


def program_of(path: pathlib.Path, log: Log) -> pathlib.Path:
    """The copy of the program beside its log, whose name ends with the process, or with other numbers if it was renamed."""
    endings = (rf"\.{log.process}(\.\d+)?(\.snapshot)?\Z", r"(\.\d+){1,2}(\.snapshot)?\Z")
    bases = (re.sub(ending, "", path.name) for ending in endings)
    base = next((base for base in bases if base != path.name), path.name)
    return path.with_name(f"{base}.program.{log.program}")


@dataclass
class ReadLog:
    """A log that is read once for the recordings of all its tests. Only its owner's files beside it are used, and new
    recordings get its permissions."""

    path: pathlib.Path
    log: Log
    tests: Tests
    owner: int = field(default_factory=os.geteuid)
    permissions: int = 0o600


def read_whole(path: pathlib.Path, process: int | None = None, tests: Tests | None = None) -> ReadLog:
    """Reads a log of this user, or the log that a process is writing, which is copied first. `tests` are its tests if
    they are known. Raises NotALogError."""
    try:
        with opened_log(path, process) as file:
            status = os.fstat(file.fileno())
            log = log_of(file) if process is None else log_of(copy_of(file), True)
    except OSError as fault:
        raise NotALogError(uncopied(path) or messages.UNREADABLE.format(why=fault.strerror)) from None
    known = of_log(path, status.st_uid) if tests is None else tests
    return ReadLog(path, log, known, status.st_uid, status.st_mode & 0o666 | 0o600)


def uncopied(path: pathlib.Path) -> str:
    """Why a program of this user couldn't copy its log to this path; empty if it did, or didn't try."""
    with suppress(OSError), os.scandir(path.parent) as entries:
        for entry in entries:
            failed = FAILED_COPY.fullmatch(entry.name.removeprefix(path.name))
            if failed and entry.stat(follow_symlinks=False).st_uid in owners_of():
                return messages.UNCOPIED.format(why=os.strerror(int(failed[1])))
    return ""


def convert(
    log: pathlib.Path,
    name: pathlib.Path,
    go: Go | None,
    options: RecordingOptions,
    known: list[object] | None = None,
    hear: Hear = unheard,
    process: int | None = None,
) -> Conversion:
    """Makes the recording NAME from a log, and NAME.where beside it if Go is installed to look up lines. `known` keeps
    the data, because freeing the data takes a long time. `hear` receives the report's lines as soon as they are known.
    A log that a process is still writing is copied first."""
    try:
        return converted(read_whole(log, process), name, go, options, known=known, hear=hear)
    except (NotALogError, MemoryError) as fault:
        return Conversion(False, [f"{plain(str(log))}: {str(fault) or messages.OUT_OF_MEMORY}"])


def converted(
    read: ReadLog,
    name: pathlib.Path,
    go: Go | None,
    options: RecordingOptions,
    test: Ran | None = None,
    known: list[object] | None = None,
    hear: Hear = unheard,
) -> Conversion:
    """Makes the recording NAME from a log that was read, or from one of its tests."""
    log = read.log
    part: Part | None = None
    if test is not None:
        part = partial(sockets_of, test, tests=read.tests.ran)
    try:
        recording = make(log, options.sockets, options.megabytes, options.all_bytes, part, options.first)
    except (NothingRecordedError, UnconvertibleError) as fault:
        return Conversion(False, [f"{plain(str(read.path))}: {fault}"], isinstance(fault, NoSocketError))
    if known is not None:
        known += (read, recording)
    for ending in (LINES, *more_endings(options)):
        check_beside(name.with_suffix(ending))
    found = recording.everybody
    if test is not None:
        found = goroutines_of(test, found, read.tests.ran, recording.numbers)
    calls = calls_of(read, set(recording.stacks) | found.stacks(), go) if go else {}
    has_lines = any(known.calls for known in calls.values())
    more = of_tests(recording, read.tests)

    def write_others() -> None:
        lines = name.with_suffix(LINES)
        if options.words:
            write_words(recording, name.with_suffix(WORDS), read.permissions)
        if not (has_lines or recording.orders is not None or more or recording.times):
            forget_where(lines)
            return
        everybody, tags = everybody_of(recording, found, calls), [{"tags": 1}] if recording.has_tags else []
        facts = recording.orders, recording.beside, [*more, *tags], recording.times, everybody
        write_where(lines, recording.stacks, calls, *facts, permissions=read.permissions)

    write(recording, name, write_others, read.permissions)
    if any(recording.stacks) and not has_lines:
        recording.notes.append(messages.NO_LINES)
    return report(recording, name, calls, options.failed, hear, options.stuck)


def calls_of(read: ReadLog, used: set[int], go: Go) -> dict[int, Calls]:
    """The calls of the used stacks, from the copy of the program beside the log."""
    roots = SourceRoots(go.sources(), pathlib.Path.cwd())
    with opened_beside(program_of(read.path, read.log), read.owner) or nullcontext() as program:
        return lines_of(read.log, used, program, line_reader(go), roots)


def everybody_of(recording: NewRecording, found: Goroutines, calls: dict[int, Calls]) -> Everybody | None:
    """All goroutines, as NAME.where has them; None if the log has no data about their waits and uses."""
    if not (found.parks or found.uses):
        return None
    last = [recording.stacks[step - 1] if step else 0 for step in recording.last_steps]
    stacks = {goid: last[number] for goid, number in recording.numbers.items()}
    return Everybody(found, kept(found, recording.numbers, calls), recording.numbers, stacks)


def of_tests(recording: NewRecording, tests: Tests) -> list[dict[str, object]]:
    """More lines for NAME.where: the greatest number of bytes that a read or a write counts, and the steps between
    which each test ran."""
    more: list[dict[str, object]] = [] if recording.bytes is None else [{"bytes": recording.bytes}]
    if recording.prelude:
        more.append({"prelude": recording.prelude})
    for first in range(0, len(recording.taken), STEPS_A_LINE):
        more.append({"taken": recording.taken[first : first + STEPS_A_LINE]})
    built = recording.made
    for test in tests.ran:
        first = bisect_left(built, (test.began,))
        last = bisect_left(built, (test.ended,)) if test.ended is not None else len(built)
        if first < last:
            steps = [built[first][2], built[last - 1][2]]
            more.append({"test": test.name, "package": test.package, "steps": steps})
    return more
