"""The tests to try against a mutant: the tests that call the changed function, the fastest first.

One run of the tests records what each of them calls (`recorded_calls.py`); a test file that has changed since then is
run again. `topics.txt` names the tests of the recorder's Go, whose calls can't be recorded."""

from __future__ import annotations

import ast
import hashlib
import json
import os
import subprocess
from collections import defaultdict
from collections.abc import Iterable, Sequence
from dataclasses import dataclass, field
from fnmatch import fnmatch
from pathlib import Path

from .changes import Mutant

OVERRIDES = Path(__file__).with_name("topics.txt")
TESTS, PROGRAM, OF_NRDB = "python/tests", "python/tests/program", "python/tests/program/nrdb"
MOST = 60.0  # the most seconds that a mutant's tests may take
FEW = 4  # if no test called the function, MOST is divided by this


@dataclass(frozen=True)
class Test:
    """A test, how long it took when its calls were recorded, and the functions that it calls, each as `FILE|NAME`."""

    name: str
    seconds: float
    functions: frozenset[str]

    @property
    def group(self) -> str:
        """The test's class, or the test's file if it has no class. Tests of a class share what is slow to set up."""
        return self.name.partition("[")[0].rpartition("::")[0]


@dataclass
class Topics:
    """The tests of each function. The tests of one mutant take at most `most` seconds in total."""

    tests: Sequence[Test] = ()
    most: float = MOST
    overrides: list[tuple[str, list[str]]] = field(default_factory=list)

    def __post_init__(self) -> None:
        self._of_functions: dict[str, list[Test]] = defaultdict(list)
        self._of_files: dict[str, list[Test]] = defaultdict(list)
        for test in self.tests:
            for function in test.functions:
                self._of_functions[function].append(test)
            for file in {function.partition("|")[0] for function in test.functions}:
                self._of_files[file].append(test)

    def tests_of(self, mutant: Mutant) -> list[Test]:
        """The tests for a mutant of Python code, the fastest group first. If no test called the function, perhaps
        because it is new, these are a few tests of its file. Tests that `topics.txt` names for the file come first."""
        files = self.files_of(mutant.file)
        named = [test for test in self.tests if test.name.partition("::")[0] in files]
        called = self._of_functions[f"{mutant.file}|{mutant.code}"] if mutant.is_inside else []
        if called:
            return [*named, *quickest(called, self.most)]
        most = self.most / FEW if mutant.is_inside else self.most
        return [*named, *quickest(self._of_files[mutant.file], most)]

    def files_of(self, file: str) -> list[str]:
        """The test files that `topics.txt` names."""
        return next((tests for pattern, tests in self.overrides if fnmatch(file, pattern)), [])


def quickest(tests: Iterable[Test], most: float) -> list[Test]:
    """Tests that take at most `most` seconds in total, group by group, the fastest group first."""
    groups: dict[str, list[Test]] = defaultdict(list)
    for test in tests:
        groups[test.group].append(test)
    chosen: list[Test] = []
    left = most
    for group in sorted(groups.values(), key=lambda group: sum(test.seconds for test in group)):
        for test in sorted(group, key=lambda test: test.seconds):
            if test.seconds <= left:
                chosen.append(test)
                left -= test.seconds
    return chosen


def digest(path: Path) -> str:
    """The digest of a module's code, without comments and docstrings."""
    tree = ast.parse(path.read_text(encoding="utf-8"))
    for node in ast.walk(tree):
        if isinstance(node, (ast.Module, ast.ClassDef, ast.FunctionDef)) and ast.get_docstring(node) is not None:
            del node.body[0]
    return hashlib.sha256(ast.dump(tree).encode()).hexdigest()


def read_topics(notes: Path, most: float = MOST) -> Topics:
    """The topics of the tests whose calls are recorded."""
    rows = [json.loads(line) for line in notes.read_text(encoding="utf-8").splitlines()] if notes.exists() else []
    tests = [Test(row["test"], row["seconds"], frozenset(row["functions"])) for row in rows if "test" in row]
    return Topics(tests, most, read_overrides(OVERRIDES.read_text(encoding="utf-8")))


def files_of_tests(root: Path) -> list[str]:
    """The files with the tests whose calls are recorded: all but the tests of the built program, except those of nrdb."""
    paths = sorted((root / TESTS).rglob("test_*.py"))
    return [
        str(path.relative_to(root))
        for path in paths
        if root / PROGRAM not in path.parents or root / OF_NRDB in path.parents
    ]


def note_calls(root: Path, notes: Path, python: str) -> None:
    """Records what the tests call, for the test files that have changed since the last time."""
    rows = [json.loads(line) for line in notes.read_text(encoding="utf-8").splitlines()] if notes.exists() else []
    digests = {row["file"]: row["digest"] for row in rows if "file" in row}
    files = {file: digest(root / file) for file in files_of_tests(root)}
    changed = [file for file, now in files.items() if digests.get(file) != now]
    if not changed:
        return
    notes.parent.mkdir(parents=True, exist_ok=True)
    kept = [row for row in rows if _file_of(row) in files and _file_of(row) not in changed]
    fresh = notes.with_suffix(".new")
    fresh.write_text("".join(f"{json.dumps(row)}\n" for row in kept), encoding="utf-8")
    starting = [str(root / "scripts"), str(root / "scripts/mutating/starting")]
    environment = {**os.environ, "NETREV_CALLS": str(fresh), "PYTHONPATH": os.pathsep.join(starting)}
    words = [python, "-m", "pytest", "-q", "-p", "mutating.recorded_calls", "-m", "not alone", *changed]
    status = subprocess.run(words, cwd=root, env=environment, stdin=subprocess.DEVNULL, check=False).returncode
    if status not in (0, 1):
        raise SystemExit(f"mutants.py: pytest ended with {status}, and no calls are noted")
    with open(fresh, "a", encoding="utf-8") as file:
        for name in changed:
            print(json.dumps({"file": name, "digest": files[name]}), file=file)
    fresh.rename(notes)


def _file_of(row: dict[str, str]) -> str:
    return row.get("file") or row["test"].partition("::")[0]


def read_overrides(text: str) -> list[tuple[str, list[str]]]:
    """The lines `PATTERN: TEST ..` of a text. The first line whose pattern matches a file's name applies to that
    file."""
    lines = [line for line in text.splitlines() if line.strip() and not line.startswith("#")]
    return [(pattern.strip(), tests.split()) for pattern, _, tests in (line.partition(":") for line in lines)]
