"""`netrev-go test`: runs Go's command, once or repeatedly, and reports on all runs together."""

from __future__ import annotations

import argparse
import contextlib
import itertools
import os
import pathlib
import re
import sys
import time
from collections.abc import Callable, Iterator
from dataclasses import dataclass, replace

from netrev.messages import recorder as messages
from netrev.system.command_lines import command as tool
from netrev.text.files import written_whole
from netrev.text.plain import plain
from netrev.text.plurals import counted

from .go_command.build_errors import CopiedErrors
from .go_command.linking import kept
from .go_command.outputs import base_name, check_folder
from .go_command.run_folders import claim
from .go_command.running import (  # fmt: skip
    SHORT_GRACE,
    GoRunner,
    limits_of,
    logs_folder,
    logs_in,
    relative_to_folder,
    shell_status,
    still_written,
    stop_at_once,
)
from .go_command.terminal import complain, say
from .go_command.toolchain import Go
from .go_test_results import Recordings
from .recordings import RecordingMaker, leave, report_no_log, report_unrecorded
from .steps import forms
from .steps.conversion import RecordingOptions

SO_FAR = "test"  # the base name of the recordings made while a run is in progress
FOLDER = "recordings"
STANDARD_OUTPUT = "-"
UNTESTED = re.compile(r"--?(?:test\.)?(?:bench|fuzz)(?:=.|\Z)")  # flags that run functions other than tests


@dataclass
class TestResults:
    """The result of all runs."""

    status: int = 0  # the first exit status that isn't 0, in a shell's form
    suspected: bool = False
    possible: bool = False
    all_recorded: bool = True
    runs: int = 0


@dataclass(frozen=True)
class Round:
    """One run: its number from 0, the number of processors if one is set, and the seed of the delays (0 for none)."""

    number: int
    processors: int | None
    delays: int

    def words(self) -> str:
        """A description of the run."""
        how = [f"GOMAXPROCS={self.processors}"] if self.processors else []
        how += [f"--delays {self.delays}"] if self.delays else []
        return f"run {self.number + 1}" + (f" ({', '.join(how)})" if how else "")


def most_runs(options: argparse.Namespace) -> int | None:
    """The greatest number of runs, if limited."""
    return options.runs or (None if options.until_failure or options.seconds is not None else 1)


def rounds(options: argparse.Namespace) -> Iterator[Round]:
    """The requested runs; fewer may be made."""
    most = most_runs(options)
    end = time.monotonic() + options.seconds if options.seconds is not None else None
    processors = (None, *sorted({1, 2, os.cpu_count() or 1, 2 * (os.cpu_count() or 1)}))
    for number in itertools.count():
        if number == most or (number and end is not None and time.monotonic() >= end):
            return
        changed = processors[number % len(processors)] if options.procs is None else options.procs
        yield Round(number, changed, options.delays + number if options.delays else 0)


def record_tests(
    options: argparse.Namespace, go: Go, command: list[str], recording_options: RecordingOptions
) -> TestResults:
    """Runs the tests as often as requested, and makes recordings of failing tests."""
    base = base_name(options.o, FOLDER)
    check_folder(base)
    recordings = Recordings(base, go, recording_options, options.all or options.explore is not None, options.html)
    results = TestResults()
    with kept(go, options.words_of_go, most_runs(options) != 1) as more:
        run_all(
            options, go, [*command[:2], *relative_to_folder(command[2:], more)], recording_options, recordings, results
        )
    if any(UNTESTED.match(word) for word in options.words_of_go):
        complain(messages.ONLY_TESTS.format(netrev_go=tool("netrev-go")))
    results.all_recorded = results.all_recorded and recordings.all_recorded
    results.suspected = recordings.suspected
    try:
        if options.explore is not None and not results.status:
            stop_at_once()
            results.possible = recordings.explore(options.explore)
    finally:
        tell(options, recordings, results)
    return results


def run_all(
    options: argparse.Namespace,
    go: Go,
    command: list[str],
    recording_options: RecordingOptions,
    recordings: Recordings,
    results: TestResults,
) -> None:
    """Makes all runs of Go's command."""
    for test_round in rounds(options):
        run = GoRun(options, go, command, recording_options, recordings)
        status = run.once(test_round)
        results.runs += 1
        results.status = results.status or status
        results.all_recorded = results.all_recorded and run.has_recorded
        if run.is_last or status and options.until_failure:
            break


class GoRun:
    """One run of Go's command, and its logs."""

    def __init__(
        self,
        options: argparse.Namespace,
        go: Go,
        command: list[str],
        recording_options: RecordingOptions,
        recordings: Recordings,
    ) -> None:
        self._options, self._go, self._command, self._wish = options, go, command, recording_options
        self._recordings = recordings
        self.is_last = False  # it was cancelled, or no program ran
        self.has_recorded = True

    def once(self, test_round: Round) -> int:
        """Makes the run, and returns Go's status. The logs stay if they can't be converted."""
        folder = claim(logs_folder(self._options.points))
        limits = replace(limits_of(self._options), processors=test_round.processors)
        is_whole, running = False, list[pathlib.Path]()
        try:
            is_read = self._options.json or self._options.junit or self._options.github
            errors = CopiedErrors() if is_read else None
            runner = GoRunner(self._command, folder, limits, test_round.delays, errors)
            status = shell_status(runner.wait(self._so_far(folder)))
            printed = errors.text(SHORT_GRACE) if errors else ""
            if status and test_round.words() != "run 1":
                say([messages.RUN_FAILED.format(run=test_round.words())])
            running = still_written(folder)
            is_whole = self._take(folder, status != 0)
            if printed and status:
                self._recordings.take_errors(printed, bool(logs_in(folder)))
            self.is_last = self.is_last or runner.is_cancelled()
            return status
        finally:
            leave(folder, self._options.keep, is_whole, running)

    def _so_far(self, folder: pathlib.Path) -> Callable[[], None]:
        def make() -> None:
            with contextlib.suppress(OSError):  # then each recording has an error
                self._recordings.base.mkdir(parents=True, exist_ok=True)
            making.so_far()

        making = RecordingMaker(folder, self._recordings.base / SO_FAR, self._go, self._wish)
        return make

    def _take(self, folder: pathlib.Path, failed: bool) -> bool:
        """Makes the recordings; returns whether the logs can be removed."""
        self.has_recorded = not report_unrecorded(folder)
        if report_no_log(folder):
            self.is_last, self.has_recorded = True, False
            return True
        before, self._recordings.all_recorded = self._recordings.all_recorded, True
        self._recordings.take(folder, failed)
        is_whole = self._recordings.all_recorded
        self._recordings.all_recorded = before and is_whole
        return is_whole


def tell(options: argparse.Namespace, recordings: Recordings, results: TestResults) -> None:
    """Prints how many tests failed in how many runs, and writes the machine-readable output."""
    tests = list(recordings.told.values())
    red = [test for test in tests if test.is_red()]
    is_kept = any(test.recording for test in tests)
    if results.runs > 1 or red or is_kept:
        lines = [f"netrev-go: {counted(len(tests), 'test')}, {counted(results.runs, 'run')}; {len(red)} failed"]
        if results.runs > 1:
            lines += [
                plain(f"  {test.package} {test.test}: failed in {test.failed} of {counted(test.runs, 'run')}")
                for test in red
            ]
        lines += [plain(f"  recordings are in {recordings.base}")] if is_kept else []
        say(lines)
    tests += recordings.unbuilt.values()
    if options.json:
        put(options.json, forms.json_lines(tests), results)
    if options.junit:
        put(options.junit, forms.junit(tests), results)
    if options.github and (annotations := forms.github_lines(tests)):
        say(annotations, sys.stdout)


def put(name: str, text: str, results: TestResults) -> None:
    """Writes a machine-readable file; - means standard output."""
    if name == STANDARD_OUTPUT:
        say([text.rstrip("\n")], sys.stdout)
        return
    try:
        written_whole(pathlib.Path(name), text.encode("utf-8", "replace"))
    except OSError as fault:
        complain(f"{name}: {fault.strerror or fault}")
        results.all_recorded = False
