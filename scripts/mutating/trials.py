"""Tries mutants: each in a copy of the repository, against the tests that call the changed function."""

from __future__ import annotations

import json
import os
import random
import shutil
import signal
import subprocess
import sys
import tempfile
import time
from collections.abc import Iterable, Iterator
from dataclasses import dataclass
from pathlib import Path
from queue import Empty, SimpleQueue
from threading import Lock, Thread

from .changes import KINDS, NOT_PUT_IN, TOO_LONG, Mutant, can_compile, mutants_of
from .go_changes import go_mutants_of
from .topics import Test, Topics

ROOT = Path(__file__).resolve().parent.parent.parent
PACKAGES = ("python/netrev", "python/nrdb", "python/netrev_go")
UNTOUCHED = (
    "messages",  # texts
    "machine", "model",  # the tests compare netrev with them
)  # fmt: skip
FOUND, SURVIVED, UNTESTED, UNBUILT = "found", "survives", "no test calls it", "can't be compiled"
FAILS_ANYWAY = "its test fails without it too"
PATIENCE, GO_PATIENCE = 600, 1_800  # seconds
COMPILING = "from netrev_go.go_command.toolchain import find_go, overlay; overlay(find_go())"
LONGEST, TIMES = 30.0, 20.0  # a test may take LONGEST seconds, plus TIMES its recorded time


@dataclass
class Verdict:
    """The result of trying a mutant."""

    mutant: Mutant
    answer: str
    by: str = ""  # the test that found it
    seconds: float = 0.0


def copied(root: Path, room: Path) -> None:
    """A copy of the repository: copies of its Python folder, of the tools that start it and of the files at its top,
    and links to all other folders."""
    room.mkdir(parents=True)
    for path in root.iterdir():
        if path.is_file():
            shutil.copy2(path, room)
        elif path.name in ("python", "tools"):
            shutil.copytree(path, room / path.name, ignore=shutil.ignore_patterns("__pycache__"))
        elif path.name not in (".git", "out"):
            (room / path.name).symlink_to(path)


def all_mutants(root: Path, parts: Iterable[str] = PACKAGES) -> Iterator[Mutant]:
    """The mutants of these files and folders."""
    for part in parts:
        place = root / part
        paths = [place] if place.is_file() else sorted(place.rglob("*"))
        for path in paths:
            if any(name in path.with_suffix("").parts for name in UNTOUCHED):
                continue
            if path.suffix == ".py":
                yield from mutants_of(root, path)
            elif path.suffix == ".go" and not path.name.endswith("_test.go"):
                yield from go_mutants_of(root, path)


def drawn(mutants: Iterable[Mutant], count: int, seed: int) -> list[Mutant]:
    """This many mutants, with the same number of each kind; fewer if not enough exist."""
    dice = random.Random(seed)
    piles: dict[str, list[Mutant]] = {kind: [] for kind in KINDS}
    for mutant in mutants:
        piles[mutant.kind].append(mutant)
    for pile in piles.values():
        dice.shuffle(pile)
    chosen: list[Mutant] = []
    while len(chosen) < count and any(piles.values()):
        for pile in piles.values():
            while pile and len(chosen) < count:
                mutant = pile.pop()
                path = ROOT / mutant.file
                if path.suffix == ".go" or can_compile(mutant, path.read_text(encoding="utf-8")):
                    chosen.append(mutant)
                    break
    return chosen


def pytest_by(python: str) -> list[str]:
    """The command that starts pytest."""
    return [python, "-m", "pytest", "-q"]


class Server:
    """A pytest process that loads all tests once, and then runs some of them for each mutant."""

    def __init__(self, room: Path, python: str, files: list[str]) -> None:
        requests, self._requests = os.pipe()
        self._replies, replies = os.pipe()
        environment = {**os.environ, "PYTHONHASHSEED": "0", "NETREV_MUTANTS": f"{requests},{replies}"}
        environment["PYTHONPATH"] = str(room / "scripts")
        self.output = tempfile.TemporaryFile()
        self.process = subprocess.Popen(
            [*pytest_by(python), "-p", "mutating.server", *files], cwd=room, env=environment, stdin=subprocess.DEVNULL,
            stdout=self.output, stderr=subprocess.STDOUT, pass_fds=(requests, replies), start_new_session=True,
        )  # fmt: skip
        os.close(requests)
        os.close(replies)
        self._lines = open(self._replies, encoding="utf-8")
        if not self._lines.readline():
            self.output.seek(0)
            raise RuntimeError(f"pytest didn't load the tests: {self.output.read().decode()[-2_000:]}")

    def first_failed(self, file: Path, before: str, behind: str, tests: list[Test]) -> str:
        """The first of the tests that fails with a mutant; empty if no test fails."""
        patient = [(test.name, LONGEST + TIMES * test.seconds) for test in tests]
        request = {"file": str(file), "before": before, "behind": behind, "tests": patient}
        os.write(self._requests, f"{json.dumps(request)}\n".encode())
        return str(json.loads(self._lines.readline())["failed"])

    def end(self) -> None:
        os.close(self._requests)
        self.process.wait()


class Worker:
    """A copy of the repository in which one mutant after another is tried."""

    def __init__(self, room: Path, topics: Topics, python: str) -> None:
        self.room, self.topics, self.python = room, topics, python
        self.passing: dict[str, bool] = {}
        self.time = int(time.time())
        self._server: Server | None = None

    def put(self, file: str, text: str) -> None:
        """Writes a file, with a modification time that none of its compiled modules has."""
        path = self.room / file
        path.write_text(text, encoding="utf-8")
        self.time += 2
        os.utime(path, (self.time, self.time))

    def run_anew(self, tests: list[str], patience: float) -> str:
        """The first of the tests, or test files, that fails in a new pytest process; empty if no test fails."""
        process = subprocess.Popen(
            [*pytest_by(self.python), "-x", *tests], cwd=self.room, env={**os.environ, "PYTHONHASHSEED": "0"},
            stdin=subprocess.DEVNULL, stdout=subprocess.PIPE, stderr=subprocess.STDOUT, start_new_session=True,
        )  # fmt: skip
        try:
            output = process.communicate(timeout=patience)[0].decode(errors="replace")
        except subprocess.TimeoutExpired:
            os.killpg(process.pid, signal.SIGKILL)
            process.communicate()
            return TOO_LONG
        failed = [line.split(" ", 1)[1] for line in output.splitlines() if line.startswith(("FAILED ", "ERROR "))]
        if process.returncode in (0, 5):
            return ""
        return failed[0].partition(" - ")[0] if failed else f"pytest ended with {process.returncode}"

    def server(self) -> Server:
        """The pytest that has loaded the tests."""
        if self._server is None:
            files = sorted({test.name.partition("::")[0] for test in self.topics.tests})
            self._server = Server(self.room, self.python, files)
        return self._server

    def first_failed(self, mutant: Mutant, text: str, tests: list[Test]) -> str:
        """The first of a mutant's tests that fails."""
        behind = mutant.applied(text)
        server = self.server() if mutant.is_inside else None
        self.put(mutant.file, behind)
        try:
            if server:
                failed = server.first_failed(self.room / mutant.file, text, behind, tests)
                if failed != NOT_PUT_IN:
                    return failed
            return self.run_anew([test.name for test in tests], PATIENCE)
        finally:
            self.put(mutant.file, text)

    def passes(self, name: str) -> bool:
        """Whether a test passes in the unchanged copy; checked only once."""
        if name not in self.passing:
            tests = [test for test in self.topics.tests if test.name == name]
            self.passing[name] = not self.server().first_failed(self.room, "", "", tests)
        return self.passing[name]

    def verdict(self, mutant: Mutant) -> Verdict:
        begin = time.monotonic()
        text = (self.room / mutant.file).read_text(encoding="utf-8")
        if mutant.file.endswith(".go"):
            return self.verdict_of_go(mutant, text, begin)
        tests = self.topics.tests_of(mutant)
        if not tests:
            return Verdict(mutant, UNTESTED)
        failed = self.first_failed(mutant, text, tests)
        took = time.monotonic() - begin
        if not failed:
            return Verdict(mutant, SURVIVED, "", took)
        if failed in {test.name for test in tests} and not self.passes(failed):
            return Verdict(mutant, FAILS_ANYWAY, failed, took)
        return Verdict(mutant, FOUND, failed, took)

    def verdict_of_go(self, mutant: Mutant, text: str, begin: float) -> Verdict:
        """The verdict on a mutant of the recorder's Go, which runs in the programs that tests record."""
        files = self.topics.files_of(mutant.file)
        if not files:
            return Verdict(mutant, UNTESTED)
        self.put(mutant.file, mutant.applied(text))
        try:
            failed = self.run_anew(files, GO_PATIENCE)
        finally:
            self.put(mutant.file, text)
        took = time.monotonic() - begin
        if failed and self.is_unbuilt(mutant, text):
            return Verdict(mutant, UNBUILT, "", took)
        return Verdict(mutant, FOUND if failed else SURVIVED, failed, took)

    def end(self) -> None:
        if self._server:
            self._server.end()

    def is_unbuilt(self, mutant: Mutant, text: str) -> bool:
        """Whether the mutant fails to compile."""
        self.put(mutant.file, mutant.applied(text))
        path = os.pathsep.join([str(self.room / "python"), os.environ.get("PYTHONPATH", "")])
        environment = {**os.environ, "PYTHONPATH": path, "GO111MODULE": "off"}
        folder = (self.room / mutant.file).parent
        words = [self.python, "-c", COMPILING] if folder.name == "log" else ["go", "build", "-o", os.devnull, "."]
        process = subprocess.run(words, cwd=folder, env=environment, capture_output=True, check=False)
        self.put(mutant.file, text)
        return process.returncode != 0


def tried(mutants: list[Mutant], topics: Topics, room: Path, at_once: int, python: str) -> Iterator[Verdict]:
    """The verdicts, in the order in which they are reached."""
    queue: SimpleQueue[Mutant] = SimpleQueue()
    for mutant in mutants:
        queue.put(mutant)
    verdicts: SimpleQueue[Verdict | BaseException] = SimpleQueue()
    lock = Lock()

    def work(number: int) -> None:
        try:
            folder = room / str(number)
            with lock:
                copied(ROOT, folder)
            worker = Worker(folder, topics, python)
            try:
                while True:
                    verdicts.put(worker.verdict(queue.get_nowait()))
            except Empty:
                worker.end()
        except BaseException as error:
            verdicts.put(error)

    threads = [Thread(target=work, args=(number,), daemon=True) for number in range(at_once)]
    for thread in threads:
        thread.start()
    for _ in mutants:
        verdict = verdicts.get()
        if isinstance(verdict, BaseException):
            raise verdict
        yield verdict


def python_with_pytest() -> str:
    """A Python that has pytest, found as scripts/pytest.sh finds it."""
    for python in (sys.executable, "/usr/bin/python3"):
        if not subprocess.run([python, "-c", "import pytest"], stderr=subprocess.DEVNULL, check=False).returncode:
            return python
    raise SystemExit("mutants.py: no Python here has pytest (Debian: apt-get install python3-pytest)")
