"""`netrev-go test`: the name and result of each test, and recordings of failing tests."""

from __future__ import annotations

import json
import os
import pathlib
import re
import signal
import subprocess
import sys
from collections.abc import Iterable
from dataclasses import replace
from itertools import count

from netrev.connection.errors import unexpected
from netrev.errors import NetrevError
from netrev.messages import recorder as messages
from netrev.system.command_lines import PACKAGES, file_word
from netrev.system.program_path import BUILT, netrev_program
from netrev.text.plain import plain

from .go_command.build_errors import NO_PACKAGE, unbuilt_in
from .go_command.outputs import LONGEST_ENDING, PAGE, numbered, of_test
from .go_command.running import logs_in, shell_status
from .go_command.terminal import complain, say
from .go_command.toolchain import Go
from .log.logfile import NotALogError
from .log.tests_in_log import Ran, Tests, of_log
from .recordings import ReportPrinter, unwritten
from .steps.conversion import ReadLog, RecordingOptions, converted, more_endings, read_whole
from .steps.forms import TestResult, unbuilt
from .steps.report import Conversion, Hear, unheard

MAJOR = re.compile(r"v\d+\Z")
UNFIT = re.compile(r"[^A-Za-z0-9_.-]+")
LONGEST_NAME = 255 - len(LONGEST_ENDING)
OTHER = "process"  # the name of a process without tests
FOUND = 4  # nrdb's status if a schedule ends badly
GRACE = 60  # seconds for reducing the findings
INDENT = "  "


def short_name(package: str) -> str:
    """The package name in its test program: the last element that isn't a major version."""
    words = package.split("/")
    return words[-2] if len(words) > 1 and MAJOR.match(words[-1]) else words[-1]


def file_name(*words: str) -> str:
    """A name for a file: slashes in a test's name become dots, and unsuitable characters become _."""
    return UNFIT.sub("_", ".".join(word.replace("/", ".") for word in words).lstrip("."))[:LONGEST_NAME]


def head_of(test: Ran) -> str:
    """A test's outcome, and the line at which it failed if known."""
    at = f", at {test.place[0]}:{test.place[1]}" if test.place else ""
    return plain(f"{test.went().value.upper()} {test.package} {test.name}{at}")


class Recordings:
    """The recordings of tests, below a folder, and the result of each test over all runs."""

    def __init__(
        self, base: pathlib.Path, go: Go, options: RecordingOptions, keeps_all: bool, is_page_wanted: bool
    ) -> None:
        self.base, self._go, self._wish, self._keeps_all = base, go, options, keeps_all
        self._is_page_wanted = is_page_wanted
        self._more = [PAGE] * is_page_wanted + more_endings(options)
        self.told: dict[tuple[str, str], TestResult] = {}
        self.unbuilt: dict[str, TestResult] = {}  # the packages that Go couldn't build
        self._names: set[pathlib.Path] = set()  # the file names of the recordings
        self._short: dict[str, str] = {}  # the package to which each short name belongs
        self.all_recorded = True  # whether everything was recorded that should be
        self.trouble = False  # whether a recording couldn't be written
        self.suspected = False

    def take(self, folder: pathlib.Path, failed: bool) -> None:
        """Makes the requested recordings of a run's logs."""
        logs = [(log, of_log(log)) for log in logs_in(folder)]
        self.count(test for _, tests in logs for test in tests.ran)
        is_known = any(tests.to_keep() for _, tests in logs)
        for log, tests in logs:
            if failed and not is_known:
                self.whole(log, tests)
            self.of_each(log, tests, self.wanted(tests))

    def take_errors(self, text: str, has_run: bool) -> None:
        """Stores which packages Go couldn't build in a run, from its standard error. `has_run` is whether a test
        program ran."""
        ran = {package for package, _ in self.told} | ({NO_PACKAGE} if has_run else set())
        for package, lines in unbuilt_in(text).items():
            if package not in ran:
                result = self.unbuilt.setdefault(package, unbuilt(package, lines))
                result.runs, result.failed = result.runs + 1, result.failed + 1

    def count(self, tests: Iterable[Ran]) -> None:
        for test in tests:
            self.of(test).add(test)

    def of(self, test: Ran) -> TestResult:
        return self.told.setdefault((test.package, test.name), TestResult(test.package, test.name))

    def wanted(self, tests: Tests) -> list[Ran]:
        """The tests whose recordings are kept: for a test that fails in several runs, the first such run."""
        red = {test.name: test for test in reversed(tests.to_keep()) if self.of(test).recording is None}
        return list(dict.fromkeys([*reversed(red.values()), *(tests.leaves() if self._keeps_all else ())]))

    def name_of(self, package: str, test: str) -> pathlib.Path:
        """The name of a recording. If two packages have the same last element, the second gets its whole path."""
        short = short_name(package)
        if self._short.setdefault(short, package) != package:
            short = package.replace("/", "_")
        name = self.base / file_name(short, test) if test else self.base / file_name(short)
        names = (numbered(name, number, False, self._more, of_test(package, test)) for number in count(1))
        free = next(path for path in names if path not in self._names)
        self._names.add(free)
        return free

    def whole(self, log: pathlib.Path, tests: Tests) -> None:
        """Makes the recording of a process that failed although none of its tests is known to have failed."""
        name = self.name_of(tests.package or OTHER, "")
        saying = ReportPrinter([messages.NO_TEST_FAILED.format(process=plain(tests.package or OTHER))])
        outcome = self.made(self.read(log, tests), name, None, saying.hear)
        if outcome is not None and not outcome.is_empty:
            saying.rest(outcome.lines)

    def of_each(self, log: pathlib.Path, tests: Tests, kept: list[Ran]) -> None:
        """Makes the recordings of a process's tests."""
        read = self.read(log, tests) if kept else None
        for test in kept:
            result, name, head = self.of(test), self.name_of(test.package, test.name), head_of(test)
            saying = ReportPrinter([head] if test.is_red() else [], INDENT)
            outcome = self.made(read, name, test, saying.hear if test.is_red() else unheard)
            if outcome is None:
                continue
            if not outcome.is_empty:
                self.keep(result, name, outcome, saying)
                continue
            self._names.discard(name)
            if test.is_red():
                say([messages.TEST_USED_NONE.format(test=head)])

    def keep(self, result: TestResult, name: pathlib.Path, outcome: Conversion, saying: ReportPrinter) -> None:
        """Prints the report about a recording, and stores it for the machine-readable output."""
        result.report(outcome)
        if name.exists():
            result.recording = str(name)
        self.suspected = self.suspected or bool(result.suspects)
        if result.is_red() or result.suspects or not outcome.taken:
            saying.rest(outcome.lines)
        if self._is_page_wanted and outcome.taken:
            result.page = page_of(name, outcome)

    def read(self, log: pathlib.Path, tests: Tests) -> ReadLog | None:
        try:
            return read_whole(log, tests=tests)
        except (NotALogError, MemoryError) as fault:
            self.all_recorded = False
            complain(f"{log}: {str(fault) or messages.OUT_OF_MEMORY}")
            return None

    def made(self, read: ReadLog | None, name: pathlib.Path, test: Ran | None, hear: Hear) -> Conversion | None:
        """The result of a recording; None, with a message, if it can't be written. `hear` receives the lines as soon as
        they are known."""
        if read is None:
            return None
        failed = test is None or test.is_red()
        try:
            name.parent.mkdir(parents=True, exist_ok=True)
            outcome = converted(read, name, self._go, replace(self._wish, failed=failed), test, hear=hear)
        except (OSError, MemoryError) as fault:
            complain(unwritten(name, fault))
            self.all_recorded, self.trouble = False, True
            return None
        self.all_recorded = self.all_recorded and (outcome.taken or outcome.is_empty)
        return outcome

    def explore(self, seconds: float) -> bool:
        """Runs other schedules of the recordings, for this many seconds in total; returns whether there are findings. A
        finding is a possible failure: it didn't occur in any run."""
        recorded = [result for result in self.told.values() if result.recording and result.accepted]
        for result in recorded:
            result.possible = findings(str(result.recording), seconds / len(recorded))
            if result.possible:
                say(
                    [
                        plain(f"possible, {result.package} {result.test}:"),
                        *(f"  {plain(line)}" for line in result.possible),
                    ]
                )
        return any(result.possible for result in recorded)


def page_of(name: pathlib.Path, outcome: Conversion) -> str | None:
    """Writes the timeline of a recording as a page beside it. Returns the page's name, or None if that fails."""
    from netrev.timeline.page import write_page_beside

    try:
        return write_page_beside(netrev_program() or str(BUILT), file_word(name), outcome.read)
    except (NetrevError, OSError) as fault:
        why = str(fault)
    except Exception as error:
        why = unexpected(error)
    complain(messages.NO_PAGE.format(page=name.with_suffix(".html"), why=why))
    return None


def nrdb_environment() -> dict[str, str]:
    program = netrev_program()
    return os.environ | ({"NETREV": program} if program else {})


def notes_in(printed: str) -> list[str]:
    """The lines of the notes that `nrdb --json` has printed. If it was killed, its last line may be incomplete."""
    events = (json.loads(line) for line in printed.splitlines(keepends=True) if line.endswith("\n"))
    return [plain(line) for event in events if event["event"] == "note" for line in event["text"].split("\n")]


def findings(recording: str, seconds: float) -> list[str]:
    """nrdb's findings in other schedules within this many seconds, line by line. If the search fails or doesn't end,
    the result says so."""
    words = [sys.executable, str(PACKAGES), "nrdb", "--json", "--explore", file_word(recording)]
    with subprocess.Popen(
        words, env=nrdb_environment(), text=True, stdin=subprocess.DEVNULL, stdout=subprocess.PIPE,
        stderr=subprocess.DEVNULL,
    ) as running:  # fmt: skip
        try:
            output, _ = running.communicate(timeout=seconds)
        except KeyboardInterrupt:
            running.kill()
            raise
        except subprocess.TimeoutExpired:
            running.send_signal(signal.SIGINT)  # then it prints the findings so far
            try:
                output, _ = running.communicate(timeout=GRACE)
            except subprocess.TimeoutExpired:
                running.kill()
                output, _ = running.communicate()
    lines = notes_in(output)
    if running.returncode not in (0, FOUND):
        ended = messages.NRDB_ENDED.format(status=shell_status(running.returncode))
        complain(messages.NOT_EXPLORED.format(recording=recording, why=lines[-1] if lines else ended))
    return lines if running.returncode == FOUND else []
