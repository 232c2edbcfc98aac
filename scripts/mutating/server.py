"""A pytest plugin that tries one mutant after another, each in a separate process that starts with all tests loaded.

It reads requests, a line of JSON each, from the first of the two descriptors in NETREV_MUTANTS: the file, its text
before and after the change, and the tests, each with its time limit in seconds. It writes the result to the second
descriptor: the test that failed, nothing, or "too long" and the test. Meanwhile the mutant's file is on disk, for
processes that tests start; in this process, the loaded function gets the changed code.
"""

from __future__ import annotations

import gc
import io
import json
import os
import select
import signal
import sys
from collections.abc import Iterator
from types import CodeType, FunctionType
from typing import Any

import pytest
from _pytest.runner import runtestprotocol

from .changes import NOT_PUT_IN, TOO_LONG


def codes_in(code: CodeType) -> Iterator[CodeType]:
    """A code object and all code objects inside it, in the order of the source."""
    yield code
    for constant in code.co_consts:
        if isinstance(constant, CodeType):
            yield from codes_in(constant)


def key(code: CodeType) -> tuple[str, int, str]:
    return code.co_filename, code.co_firstlineno, code.co_name


def changed_codes(file: str, before: str, behind: str) -> dict[tuple[str, int, str], CodeType]:
    """The changed code objects of a mutant, by the places of the original code objects. A change may not add lines."""
    old, new = (list(codes_in(compile(text, file, "exec", dont_inherit=True))) for text in (before, behind))
    named: dict[tuple[str, int, str], CodeType] = {key(code): code for code in new}
    return {key(code): named[key(code)] for code in old if key(code) in named and named[key(code)] != code}


def put_in(file: str, before: str, behind: str) -> bool:
    """Gives the loaded functions the mutant's code. Returns True if a function got it, or if the module isn't loaded
    yet."""
    if not any(getattr(module, "__file__", None) == file for module in list(sys.modules.values())):
        return True
    changed = changed_codes(file, before, behind)
    is_put_in = False
    for function in gc.get_objects():
        if type(function) is FunctionType:
            code = changed.get(key(function.__code__))
            if code is not None and code.co_freevars == function.__code__.co_freevars:
                function.__code__ = code
                is_put_in = True
    return is_put_in


def run_until_one_fails(items: list[pytest.Item], begun: int) -> str:
    """Runs tests until a test fails, and returns its name. Writes a line to a descriptor when each test begins."""
    for item, following in zip(items, [*items[1:], None]):
        os.write(begun, b"\n")
        reports = runtestprotocol(item, log=False, nextitem=following)
        if any(report.failed for report in reports):
            return item.nodeid
    return ""


def tried(request: dict[str, Any], items: list[tuple[pytest.Item, float]]) -> str:
    """The first of these tests that fails in a separate process. Each test is given with the seconds that it may
    take."""
    reading, writing = os.pipe()
    process = os.fork()
    if process == 0:
        failed = "pytest ended"
        try:
            os.close(reading)
            os.setpgid(0, 0)
            if request["before"] == request["behind"] or put_in(request["file"], request["before"], request["behind"]):
                failed = run_until_one_fails([item for item, _ in items], writing)
            else:
                failed = NOT_PUT_IN
        finally:
            os.write(writing, f"{failed}.\n".encode())
            os._exit(0)
    os.close(writing)
    with open(reading, "rb", buffering=0) as lines:
        failed = what_failed(lines, items)
    try:
        os.killpg(process, signal.SIGKILL)
    except ProcessLookupError:
        pass
    os.waitpid(process, 0)
    return failed


def what_failed(lines: io.FileIO, items: list[tuple[pytest.Item, float]]) -> str:
    """The last line that the process writes, unless a test takes too long."""
    text, begun = b"", 0
    while not text.strip():
        item, patience = items[max(begun - 1, 0)]
        if not select.select([lines], [], [], patience)[0]:
            return f"{TOO_LONG}: {item.nodeid}"
        part = lines.read(65_536)
        if not part:
            return item.nodeid  # (it ended the process)
        text += part
        begun = text.count(b"\n")
    return text.strip().decode().removesuffix(".")


def pytest_runtestloop(session: pytest.Session) -> bool:
    """Runs the tests of each request instead of all tests."""
    requests, answers = (int(number) for number in os.environ["NETREV_MUTANTS"].split(","))
    items = {item.nodeid: item for item in session.items}
    with open(requests, encoding="utf-8") as lines, open(answers, "w", encoding="utf-8", buffering=1) as replies:
        print("ready", file=replies)
        for line in lines:
            request = json.loads(line)
            wanted = [(items[name], patience) for name, patience in request["tests"] if name in items]
            print(json.dumps({"failed": tried(request, wanted) if wanted else ""}), file=replies)
    return True
