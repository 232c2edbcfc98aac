"""`make real`: records Go's own tests, those of other projects and the samples, each in a process of its own, on one
processor and on four, and compares every answer and every lock word with netrev's.

    python3 python dev.recorder.real [--go 1.27 | --go all] [--processors 1,4] [--seconds N] [--only WORD,..]
                                  [--tests WORD] [--small] [--record | --check]
    python3 python dev.recorder.real --gate

The default is the `go` on the PATH. --go chooses one of Debian's releases, and fetches it if it is missing
(dev.recorder.fetching). --seconds limits the time for each release. The words of --only and --tests are regular
expressions, for example `--only '^net$' --tests '^TestUnix'`. The recordings stay in out/real/RELEASE, with a line of
JSON for each test's process in results.jsonl; --check compares existing recordings and makes none. --small omits most
tests. --gate is --small with the releases in GATE, or with the `go` on the PATH if neither is installed; if there is no
Go, it says so and does nothing.
"""

from __future__ import annotations

import argparse
import gc
import os
import pathlib
import re
import shutil
import subprocess
import sys
import time
from dataclasses import replace

from netrev.messages import recorder as messages
from netrev.system.program_path import netrev_program
from netrev_go.go_command.running import LOG, logs_folder
from netrev_go.go_command.toolchain import Go, RecorderError, find_go, is_tried
from netrev_go.log.logfile import NotALogError, read_log
from netrev_go.steps.analysis import Analysis, check
from netrev_go.steps.compare import differing
from netrev_go.steps.recording_builder import (
    NoSocketError,
    NothingRecordedError,
    UnconvertibleError,
    make,
    write,
    write_words,
)

from . import suites
from .building import built, built_sample, environment, source_folder, tests_of
from .fetching import SUITES, chosen, is_here
from .readiness import Readiness, read_standing, standing_of
from .results import Result, keep, read_results, say, summary, table
from .suites import ROOT, SAMPLES, Sample, Suite

GATE = ("1.19", "1.27")
TEST_SECONDS = 40
LOG_POINTS = 2**20


def went(command: list[str], folder: pathlib.Path, settings: dict[str, str]) -> str:
    """Runs one test, and returns how it ended."""
    try:
        run = subprocess.run(
            command, cwd=folder, env=settings, capture_output=True, text=True, errors="replace",
            stdin=subprocess.DEVNULL, timeout=TEST_SECONDS + 20, check=False,
        )  # fmt: skip
    except subprocess.TimeoutExpired:
        return "timeout"
    if run.returncode != 0:
        return "failed"
    return "skipped" if "--- SKIP" in run.stdout else "passed"


def recorded(log: pathlib.Path, result: Result, name: pathlib.Path) -> bool:
    """Makes the recording of a log, if sockets were opened."""
    try:
        recording = make(read_log(log))
    except NoSocketError:
        return False
    except (NotALogError, NothingRecordedError, UnconvertibleError) as fault:
        result.said = f"not made: {fault}"
        with log.open("rb") as file:
            return any(file.read(8))  # otherwise the process was killed before its log began
    write(recording, name)
    write_words(recording, name.with_suffix(".words"))
    result.steps, result.words = len(recording.lines), len(recording.words)
    result.count(map(str, recording.lines))
    result.recording = str(name)
    return True


def compared(netrev: str, result: Result) -> None:
    """Stores netrev's answer about a recording, and how many of Go's lock words differ in it. For a healthy program,
    also stores nrdb's suspects."""
    name = pathlib.Path(result.recording)
    try:
        taken, result.said = check(netrev, name)
    except OSError as fault:
        taken, result.said = False, str(fault.strerror)
    if taken:
        _, differ = differing(netrev, name)
        result.differ = len(differ)
        if differ:
            result.said += "; " + differ[0]
        if result.is_healthy:
            with Analysis(netrev, name) as analysis:
                analysis.outcome()
                found = analysis.suspects().findings
            result.suspects = [f"{at}. {finding.sentences[0]}" for at, finding in enumerate(found, 1)]


class Recorder:
    """Records all requested runs of one Go, until its time limit."""

    def __init__(self, go: Go, name: str, options: argparse.Namespace) -> None:
        self.go, self.name, self.options = go, name, options
        self.processors = tuple(int(word) for word in options.processors.split(","))
        self.end = time.monotonic() + options.seconds
        self.results: list[Result] = []
        self.left_out = 0
        self.missing: list[str] = []
        self.unbegun: list[str] = []
        self.out = options.out / name
        self.programs = self.out / "programs"
        self.programs.mkdir(parents=True, exist_ok=True)

    def run(self, command: list[str], folder: pathlib.Path, result: Result, is_of_others: bool = False) -> None:
        """Makes one run, and a result for each of its processes that opened sockets."""
        if time.monotonic() > self.end:
            self.left_out += 1
            return
        out = self.out / result.suite.replace("/", "_")
        out.mkdir(parents=True, exist_ok=True)
        place = logs_folder(LOG_POINTS)
        settings = {"NETREV_LOG": str(place / "log"), "GOMAXPROCS": str(result.processors), "NETREV_LINES": "0"}
        result.went = went(command, folder, environment(is_of_others, **settings))
        for number, log in enumerate(sorted(path for path in place.iterdir() if LOG.match(path.name)), 1):
            process_result = result.again()
            if recorded(log, process_result, out / f"{process_result.test}-{process_result.processors}-{number}.jsonl"):
                self.results.append(process_result)
            log.unlink()
        for path in place.iterdir():
            path.unlink()
        place.rmdir()
        keep(self.results, self.out)

    def suite(self, suite: Suite) -> None:
        """Runs each test of a package in a process of its own. If the package isn't here (another project's may be
        missing), adds it to `missing`."""
        folder = source_folder(self.go, suite)
        if not folder.is_dir():
            self.missing.append(suite.package)
            return
        if time.monotonic() > self.end:
            self.unbegun.append(suite.package)
            return
        program = built(self.go, suite, self.programs)
        tests = tests_of(program, folder, replace(suite, tests=self.options.tests or suite.tests)) if program else []
        for processors in self.processors:
            for test in tests:
                flags = [
                    "-test.run",
                    suites.PARTS.get(test, f"^{test}$"),
                    "-test.short",
                    f"-test.timeout={TEST_SECONDS}s",
                ]
                result = Result(self.name, suite.package, test, processors)
                self.run([str(program), *flags], folder, result, suite.is_of_others)

    def sample(self, sample: Sample) -> None:
        """Runs a sample program."""
        program = built_sample(self.go, sample.source, self.programs)
        for processors in sample.processors if program else ():
            for at, words in enumerate(sample.runs, 1):
                result = Result(self.name, f"samples/{sample.name}", f"{words[0]}-{at}", processors)
                result.is_healthy = sample.is_healthy
                self.run([str(program), *words], SAMPLES, result)

    def is_wanted(self, name: str) -> bool:
        """Whether a word of --only is in the name."""
        return any(re.search(word, name) for word in self.options.only.split(","))

    def all(self) -> None:
        """Runs everything that was requested: first the samples, then the packages."""
        small = self.options.small
        for sample in suites.SMALL_SAMPLES if small else suites.OF_SAMPLES:
            if self.is_wanted(f"samples/{sample.name}"):
                self.sample(sample)
        for suite in suites.SMALL_TESTS if small else (*suites.OF_GO, *suites.OF_OTHERS):
            if self.is_wanted(suite.package):
                self.suite(suite)
        if self.missing:
            say(f"{self.name}: not here: {', '.join(self.missing)} (apt-get install {suites.WANTED})")
        if self.left_out:
            say(f"{self.name}: the time was over: {self.left_out} runs were left out")
        if self.unbegun:
            say(f"{self.name}: the time was over before {', '.join(self.unbegun)}")


def of_release(name: str, options: argparse.Namespace, netrev: str | None) -> list[Result]:
    """The results of one Go: recorded, and compared if netrev is installed."""
    if options.check:
        results = read_results(options.out / (name or find_go().version))
    else:
        go = chosen(name)
        state = "tested before" if is_tried(go.version) else "not tested before"
        readiness = standing_of(go)
        say(f"{go.version} ({state}): {readiness.trial}")
        if not readiness.is_good:
            raise RecorderError(messages.RELEASE_UNRECORDED.format(release=go.version, why=readiness.trial))
        recorder = Recorder(go, name or go.version, options)
        readiness.keep(recorder.out)
        recorder.all()
        results = recorder.results
    if netrev and not options.record:
        for result in results:
            if result.recording:
                compared(netrev, result)
        keep(results, options.out / (name or find_go().version))
    return results


def options_of(arguments: list[str] | None) -> argparse.Namespace:
    parser = argparse.ArgumentParser(description=__doc__, formatter_class=argparse.RawDescriptionHelpFormatter)
    parser.add_argument("--go", default="", choices=("", "all", *SUITES), metavar="RELEASE")
    parser.add_argument("--processors", default="1,4")
    parser.add_argument("--out", type=pathlib.Path, default=ROOT / "out/real", help="where the recordings are left")
    parser.add_argument("--seconds", type=float, default=3600.0)
    parser.add_argument("--only", default="", help="which samples and packages")
    parser.add_argument("--tests", default="", help="which tests of them")
    parser.add_argument("--small", action="store_true")
    parser.add_argument("--gate", action="store_true")
    parser.add_argument("--check", action="store_true")
    parser.add_argument("--record", action="store_true", help="makes recordings, and doesn't ask netrev")
    return parser.parse_args(arguments)


def names_for(options: argparse.Namespace) -> list[str]:
    """The requested releases; "" is the `go` on the PATH."""
    if not options.gate:
        return list(SUITES) if options.go == "all" else [options.go]
    options.small = True
    return [name for name in GATE if is_here(name)] or ([""] if shutil.which("go") else [])


def main(arguments: list[str] | None = None) -> int:
    options = options_of(arguments)
    gc.disable()  # as in cli.py
    netrev = netrev_program()
    if netrev is None and not options.record:
        say("netrev is missing: run `make netrev`, or set NETREV")
        return 3
    names = names_for(options)
    if not names:
        say("no Go is on this machine, so recording was left out (python3 python dev.recorder.fetching 1.27)")
        return 0
    results: list[Result] = []
    standings: dict[str, Readiness | None] = {}
    path = os.environ["PATH"]
    try:
        for name in names:
            os.environ["PATH"] = path
            results += (some := of_release(name, options, netrev))
            standings |= {result.release: read_standing(options.out / result.release) for result in some[:1]}
    except (RecorderError, OSError) as trouble:
        say(str(trouble))
        return 3
    if options.record:
        return 0
    good = table(results)
    summary(results, standings)
    return 0 if good else 1


if __name__ == "__main__":
    sys.exit(main())
