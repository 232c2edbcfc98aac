"""Runs schedules on all processors. Each of several processes runs its share of the schedules and reports its findings.
The result is the same as with one process."""

import os
import pickle
import subprocess
import sys
import time
from collections.abc import Callable, Iterator
from contextlib import ExitStack, suppress
from itertools import islice
from selectors import EVENT_READ, DefaultSelector
from typing import IO, NamedTuple

from netrev.recording.where import SourceLines

from .schedules import Schedule, schedules
from .script import Script
from .search import Key, Search

# several processes are used only if all schedules together have at least this many steps; each schedule is assumed to
# have as many steps as the recording
WORTH_IT = 100_000
SECONDS = 0.2  # seconds between two messages
LENGTH = 8  # the number of bytes that encode a message's length
CODE = f"import sys; sys.path[:0] = {sys.path!r}; from netrev.explore.workers import work; work()"


class Best(NamedTuple):
    """The simplest schedule with a finding, its index among all schedules, and the index of the first schedule with
    that finding."""

    measure: tuple[int, int]
    at: int
    first: int
    schedule: Schedule

    def with_other(self, other: "Best") -> "Best":
        return min(self, other)._replace(first=min(self.first, other.first))


class Report(NamedTuple):
    """The findings of a process since its last report, and whether this is its final report."""

    is_final: bool
    tried: int
    impossible: int
    seed: int
    times: dict[Key, int]
    best: dict[Key, Best]


class Share(NamedTuple):
    """The share of a process: one schedule in `of`, beginning with number `which`."""

    script: Script
    lines: SourceLines
    most: int
    which: int
    of: int

    def run(self, search: Search, best: dict[Key, Best], skipped: int = 0) -> Iterator[None]:
        """Runs the schedules of the share, except the first `skipped` schedules, and keeps the simplest schedule of
        each finding. Yields after each schedule."""
        mine = islice(enumerate(schedules(search.delays, self.most)), self.which + skipped * self.of, None, self.of)
        for at, schedule in mine:
            for key in search.try_schedule(schedule):
                candidate = Best(schedule.measure(), at, at, schedule)
                best[key] = candidate.with_other(best.get(key, candidate))
            yield


def processors() -> int:
    return len(os.sched_getaffinity(0))


def run_all(search: Search, share: Share, tell: Callable[[], None]) -> None:
    """Runs the schedules of the whole share, on all processors if that is worth it, and calls `tell` now and then. If a
    process ends early, for example for lack of memory, the rest of its share runs here."""
    if share.of < 2 or share.script.length * share.most < WORTH_IT:
        search.run(share.most, tell)
        return
    best: dict[Key, Best] = {}
    with ExitStack() as stack:
        stack.callback(_keep_best, search, best)  # (even if Ctrl-C ends the work)
        selector = stack.enter_context(DefaultSelector())
        workers = [stack.enter_context(Worker()) for _ in range(share.of)]
        for which, worker in enumerate(workers):
            worker.send(share._replace(which=which))
            selector.register(worker.output, EVENT_READ, worker)
        while selector.get_map():
            for key, _ in selector.select(SECONDS):
                if not key.data.receive(search, best):
                    selector.unregister(key.fileobj)
            tell()
        for worker in workers:
            if not worker.is_done:
                search.taken_over += 1
                for _ in worker.share.run(search, best, worker.tried):
                    tell()


def _keep_best(search: Search, best: dict[Key, Best]) -> None:
    """Runs the simplest schedule of each finding again."""
    search.found.clear()
    for key, simplest in sorted(best.items(), key=lambda item: item[1].first):
        search.keep(key, simplest.schedule)


class Worker:
    """A process that runs a share of the schedules. The end of the `with` block kills it."""

    def __init__(self) -> None:
        words = [sys.executable, "-c", CODE]
        self.process = subprocess.Popen(words, stdin=subprocess.PIPE, stdout=subprocess.PIPE, start_new_session=True)
        assert self.process.stdin and self.process.stdout
        self.input, self.output = self.process.stdin, self.process.stdout
        self.tried = 0
        self.is_done = False

    def send(self, share: Share) -> None:
        """Sends the process its share. By then all processes have been started."""
        self.share = share
        with suppress(BrokenPipeError), self.input as to:
            to.write(pickle.dumps(share))

    def receive(self, search: Search, best: dict[Key, Best]) -> bool:
        """Reads a report. Returns False if the process has ended, perhaps in the middle of a report."""
        head = self.output.read(LENGTH)
        size = int.from_bytes(head, "big")
        data = self.output.read(size) if len(head) == LENGTH else b""
        if not size or len(data) < size:
            return False
        report: Report = pickle.loads(data)
        self.is_done = report.is_final
        self.tried += report.tried
        search.tried += report.tried
        search.impossible += report.impossible
        search.seed = max(search.seed, report.seed)
        search.times.update(report.times)
        for key, candidate in report.best.items():
            best[key] = candidate.with_other(best.get(key, candidate))
        return True

    def __enter__(self) -> "Worker":
        return self

    def __exit__(self, *_: object) -> None:
        self.process.kill()
        self.output.close()
        self.input.close()
        self.process.wait()


# ---- in the worker process


def work() -> None:
    """Runs the share that arrives on standard input, and reports on standard output. Ends when no process reads the
    output any more."""
    try:
        share: Share = pickle.load(sys.stdin.buffer)
        run_share(share, sys.stdout.buffer)
    except (BrokenPipeError, EOFError):
        os._exit(1)


def run_share(share: Share, to: IO[bytes]) -> None:
    """Runs a share, and reports the findings."""
    search = Search(share.script, share.lines.words)
    following = time.monotonic() + SECONDS
    best: dict[Key, Best] = {}
    for _ in share.run(search, best):
        if time.monotonic() >= following:
            _report(to, search, best, False)
            following = time.monotonic() + SECONDS
    _report(to, search, best, True)


def _report(to: IO[bytes], search: Search, best: dict[Key, Best], is_final: bool) -> None:
    """Reports the findings since the last report."""
    report = Report(is_final, search.tried, search.impossible, search.seed, dict(search.times), dict(best))
    data = pickle.dumps(report)
    to.write(len(data).to_bytes(LENGTH, "big") + data)
    to.flush()
    search.tried = search.impossible = 0
    search.times.clear()
    best.clear()
