"""Makes recordings from a run's logs, and keeps the logs, with a message, if it can't make one."""

from __future__ import annotations

import pathlib
import shlex
from dataclasses import replace
from typing import TextIO

from netrev.messages import recorder as messages
from netrev.system.command_lines import command
from netrev.text.plain import plain
from netrev.text.plurals import counted

from .go_command.outputs import numbered
from .go_command.run_folders import release, remove, unrecorded
from .go_command.running import LOGS, logs_in, process_of, still_written
from .go_command.terminal import complain, say
from .go_command.toolchain import Go
from .log.tests_in_log import forget
from .steps.conversion import RecordingOptions, convert, more_endings


class ReportPrinter:
    """Prints the facts about a recording below a heading, as soon as they are known."""

    def __init__(self, head: list[str], indent: str = "", stream: TextIO | None = None) -> None:
        self._head, self._indent, self._stream = head, indent, stream
        self._count = 0  # how many lines were printed

    def hear(self, lines: list[str]) -> None:
        """Prints the next lines."""
        if lines:
            say([*self._head, *(self._indent + line for line in lines)], self._stream)
            self._head = []
            self._count += len(lines)

    def rest(self, lines: list[str]) -> None:
        """Prints the lines that haven't been printed yet."""
        self.hear(lines[self._count :])


def words_for(folder: pathlib.Path, logs: list[pathlib.Path]) -> str:
    """The logs of a folder, for a shell."""
    return shlex.quote(str(logs[0])) if len(logs) == 1 else f"{shlex.quote(str(folder))}/{LOGS}"


def convert_hint(folder: pathlib.Path, logs: list[pathlib.Path]) -> str:
    """A hint on how to convert the kept logs."""
    return messages.NOTHING_IS_LOST.format(netrev_go=command("netrev-go"), logs=words_for(folder, logs))


def unwritten(name: pathlib.Path, fault: OSError | MemoryError) -> str:
    """The reason why a recording is missing."""
    if isinstance(fault, MemoryError):
        return f"{name}: {messages.OUT_OF_MEMORY}"
    return f"{fault.filename or name}: {fault.strerror or fault}"


def report_no_log(folder: pathlib.Path) -> bool:
    """Prints why no log exists; returns whether none exists."""
    if logs_in(folder):
        return False
    if not folder.is_dir():
        complain(messages.LOGS_ARE_GONE.format(folder=folder))
    elif not unrecorded(folder):
        complain(messages.NOTHING_RAN)
    return True


def report_unrecorded(folder: pathlib.Path) -> bool:
    """Prints which processes couldn't be recorded; returns whether any such process exists."""
    lines = unrecorded(folder)
    for line in lines:
        complain(line)
    return bool(lines)


def leave(folder: pathlib.Path, keep: bool, is_whole: bool, running: list[pathlib.Path]) -> None:
    """Removes a run's logs, unless the user wants them, a recording is missing, or some of these programs are still
    running."""
    logs = logs_in(folder)
    if keep or logs and not is_whole:
        release(folder, not keep)
        say([messages.LOGS_ARE_IN.format(folder=plain(str(folder)))])
        if logs and not is_whole:
            complain(convert_hint(folder, logs))
        return
    if not any(log in logs for log in running):
        remove(folder)
        return
    for log in logs:
        if log not in running:
            forget(log)
            continue
        words = {"process": process_of(log), "netrev_go": command("netrev-go"), "log": shlex.quote(str(log))}
        complain(messages.STILL_RUNS.format(**words))


class RecordingMaker:
    """Makes the recordings of a folder's logs."""

    def __init__(
        self,
        folder: pathlib.Path,
        base: pathlib.Path,
        go: Go | None,
        options: RecordingOptions,
        count: int = 0,
        is_typed: bool = False,
    ) -> None:
        self._is_typed = is_typed  # whether the user typed the name of the recordings
        self._folder, self._base, self._go, self._wish = folder, base, go, options
        self._times = 0
        self._is_whole = False  # whether the logs can be removed without losing anything
        self._running: list[pathlib.Path] = []
        self.count = count  # how many recordings have this name so far
        self.all_taken = False
        self.trouble = False  # whether a recording couldn't be written
        self.suspected = False

    def so_far(self) -> None:
        """Makes recordings of the logs so far, while the program keeps running."""
        self._times += 1
        self._make(self._base.with_name(f"{self._base.name}-so-far-{self._times}"), self._wish, 0)

    def all(self, failed: bool) -> None:
        """Makes recordings after the program has ended."""
        self.trouble = False
        self._running = still_written(self._folder)
        if report_no_log(self._folder):
            self.trouble = not self._folder.is_dir()
        else:
            wish = replace(self._wish, failed=failed)
            self.all_taken, self.count = self._make(self._base, wish, self.count, self._is_typed)
            self._is_whole = self.all_taken
        if report_unrecorded(self._folder):
            self.all_taken = False

    def leave(self, keep: bool) -> None:
        """Removes the logs, unless there is a reason to keep them."""
        leave(self._folder, keep, self._is_whole, self._running)

    def _make(
        self, base: pathlib.Path, options: RecordingOptions, count: int, is_typed: bool = False
    ) -> tuple[bool, int]:
        """Makes a recording of each log in which sockets were opened; returns whether netrev accepts all, and how many
        recordings have this name."""
        ok, before, without = True, count, 0
        for log in logs_in(self._folder):
            name = numbered(base, count + 1, is_typed, more_endings(options))
            saying = ReportPrinter([])
            try:
                outcome = convert(log, name, self._go, options, hear=saying.hear)
            except OSError as fault:
                complain(unwritten(name, fault))
                ok, self.trouble = False, True
                continue
            if outcome.is_empty:
                without += 1
                continue
            count += 1
            ok = ok and outcome.taken
            self.suspected = self.suspected or bool(outcome.suspects)
            saying.rest(outcome.lines)
        if without and count == before:
            say([messages.NOTHING_TO_RECORD])
        elif without:
            say([messages.OPENED_NONE.format(processes=counted(without, "more process", "more processes"))])
        return ok, count
