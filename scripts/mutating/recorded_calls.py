"""A pytest plugin that records which functions each test calls, also in the processes that it starts.

For each test it writes a line of JSON to the file that NETREV_CALLS names: the test, its seconds, and the functions,
each as `FILE|NAME` with the file relative to the current folder. Functions that are called while a module's first test
is set up count for all tests of the module."""

from __future__ import annotations

import atexit
import functools
import gc
import json
import os
import sys
import tempfile
import threading
import time
from collections import defaultdict
from collections.abc import Generator
from pathlib import Path
from types import CodeType, FrameType

import pytest

PACKAGES = ("python/netrev/", "python/nrdb/", "python/netrev_go/")


class Tracer:
    """Collects the code objects that are called."""

    def __init__(self) -> None:
        self.codes: dict[int, CodeType] = {}  # by identity, because a code object's own hash covers everything in it

    def __call__(self, frame: FrameType, event: str, argument: object) -> None:
        code = frame.f_code
        self.codes[id(code)] = code

    def begin(self) -> None:
        threading.settrace(self)
        sys.settrace(self)

    def end(self) -> None:
        sys.settrace(None)
        threading.settrace(None)  # type: ignore[arg-type]

    def functions(self, root: str) -> set[str]:
        """The functions of the packages below a folder."""
        return {name for code in list(self.codes.values()) if (name := name_of(code, root))}


def name_of(code: CodeType, root: str) -> str:
    """A function of the packages as `FILE|NAME`; empty for other functions."""
    file = code.co_filename
    if not file.startswith(root) or not file.startswith(PACKAGES, len(root)):
        return ""
    name = qualified(getattr(code, "co_qualname"))
    return f"{file[len(root):]}|{name}"


def qualified(name: str) -> str:
    """A function's qualified name (from Python 3.11 on), without the parts for lambdas and comprehensions in it."""
    parts = name.split(".")
    while parts and parts[-1].startswith("<"):
        parts.pop()
    return ".".join(parts)


def note_process(folder: str) -> None:
    """Records what this process calls, in a file that is written to the folder when the process ends."""
    tracer, root = Tracer(), os.environ["NETREV_CALLED_ROOT"]

    def write() -> None:
        tracer.end()
        descriptor, _ = tempfile.mkstemp(dir=folder)
        with open(descriptor, "w", encoding="utf-8") as file:
            json.dump(sorted(tracer.functions(root)), file)

    leave = os._exit

    def leave_noted(status: int) -> None:
        write()
        leave(status)

    os._exit = leave_noted  # type: ignore[assignment]
    atexit.register(write)
    tracer.begin()


class Notes:
    """Writes to a file which functions the tests call."""

    def __init__(self) -> None:
        self.root = f"{os.getcwd()}/"
        self.tracer = Tracer()
        self.set_up: dict[Path, set[str]] = defaultdict(set)
        self.folder = tempfile.mkdtemp(prefix="called-")
        os.environ.update(NETREV_CALLED=self.folder, NETREV_CALLED_ROOT=self.root)
        self.file = open(os.environ["NETREV_CALLS"], "a", encoding="utf-8")
        self.caches: list[functools._lru_cache_wrapper[object]] = []

    def find_caches(self) -> None:
        self.caches = [thing for thing in gc.get_objects() if isinstance(thing, functools._lru_cache_wrapper)]

    @pytest.hookimpl(hookwrapper=True)
    def pytest_runtest_protocol(self, item: pytest.Item) -> Generator[None, None, None]:
        if not self.caches:
            self.find_caches()
        for cache in self.caches:
            if (getattr(cache, "__module__", None) or "").startswith(("netrev", "nrdb", "tests")):
                cache.cache_clear()
        self.tracer.codes.clear()
        begin = time.monotonic()
        self.tracer.begin()
        yield
        self.tracer.end()
        seconds = time.monotonic() - begin
        functions = self.tracer.functions(self.root) | self.set_up[item.path] | self.of_processes()
        row = {"test": item.nodeid, "seconds": round(seconds, 3), "functions": sorted(functions)}
        print(json.dumps(row), file=self.file, flush=True)

    @pytest.hookimpl(hookwrapper=True)
    def pytest_runtest_setup(self, item: pytest.Item) -> Generator[None, None, None]:
        yield
        self.set_up[item.path] |= self.tracer.functions(self.root)

    def of_processes(self) -> set[str]:
        """The functions that were called by processes that have ended."""
        found: set[str] = set()
        for path in Path(self.folder).iterdir():
            try:
                found |= set(json.loads(path.read_text(encoding="utf-8")))
            except ValueError:
                continue  # (it is still being written)
            path.unlink()
        return found


def pytest_configure(config: pytest.Config) -> None:
    config.pluginmanager.register(Notes())
