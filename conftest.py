"""pytest's settings for these tests: options, fixtures, the order of the tests, and the list of skipped tests."""

import os
import random
import signal
import tempfile
from collections.abc import Iterator
from contextlib import ExitStack
from functools import cache
from pathlib import Path
from typing import Any

import pytest

from tests.program.support.sharing import NETREV, is_program

pytest.register_assert_rewrite("tests.support")

ROOT = Path(__file__).resolve().parent
PLAYED = ROOT / "python/tests/program"
IS_BUILT = is_program(NETREV)
UNBUILT = f"{NETREV} is no program: `make netrev` builds it, and NETREV=FILE names another"


def pytest_addoption(parser: pytest.Parser) -> None:
    parser.addoption(
        "--seed",
        type=int,
        default=1,
        help="of the random lines in program/loopback.py, and the first of the random cases in program/agree.py",
    )
    parser.addoption(
        "--random", type=int, default=50, help="how many random cases program/changes.py and program/agree.py play"
    )


def pytest_configure() -> None:
    # A shell's background jobs ignore SIGINT and SIGQUIT, and so do the processes that they start. Without these lines,
    # the tests of Ctrl-C and Ctrl-\ would then fail.
    signal.signal(signal.SIGINT, signal.default_int_handler)
    signal.signal(signal.SIGQUIT, signal.SIG_DFL)


def pytest_collection_modifyitems(config: pytest.Config, items: list[pytest.Item]) -> None:
    """Long tests come first, and then modules whose tests run together: the other tests fill the time in which
    processes would wait for them. Tests that need the built program are skipped if it isn't built. Tests that must run
    alone are skipped under `-n`."""
    items.sort(key=lambda item: [item.get_closest_marker(name) is None for name in ("long", "together")])
    for item in items:
        if PLAYED in item.path.parents and not IS_BUILT:
            item.add_marker(pytest.mark.skip(reason=UNBUILT))
        elif hasattr(config, "workerinput") and item.get_closest_marker("alone"):
            item.add_marker(pytest.mark.skip(reason="nothing may run beside it, so it wants pytest without -n"))


@pytest.hookimpl(optionalhook=True)
def pytest_xdist_make_scheduler(config: pytest.Config, log: Any) -> Any:
    """With `-n`, any process that is free runs a test, but one process runs all tests of a module with
    `pytestmark = pytest.mark.together`, because they share an object that takes long to make."""
    from xdist.scheduler import LoadScopeScheduling

    @cache
    def is_together(module: str) -> bool:
        return "pytest.mark.together" in (ROOT / module).read_text(encoding="utf-8")

    class Scheduling(LoadScopeScheduling):
        def _split_scope(self, nodeid: str) -> str:
            module = nodeid.partition("::")[0]
            return module if is_together(module) else nodeid

    return Scheduling(config, log)


def pytest_terminal_summary(terminalreporter: Any) -> None:
    """Prints a line for each skipped test, and one line for all tests that need the built program."""
    skipped = [(report.nodeid, report.longrepr[2]) for report in terminalreporter.stats.get("skipped", ())]
    named = [(name, why.removeprefix("Skipped: ")) for name, why in skipped]
    unbuilt = sum(why == UNBUILT for _, why in named)
    named = [(name, why) for name, why in named if why != UNBUILT]
    for name, why in named + [(f"{unbuilt} tests that play the built program", UNBUILT)] * bool(unbuilt):
        terminalreporter.write_line(f"left out: {name}: {why}")


@pytest.fixture(scope="session", autouse=True)
def logs_of_their_own() -> Iterator[None]:
    """In these tests, netrev-go puts logs into a new folder, so that it doesn't offer logs of other runs."""
    with tempfile.TemporaryDirectory(prefix="netrev-logs-") as name, pytest.MonkeyPatch.context() as patch:
        patch.setenv("NETREV_LOGS", name)
        yield


@pytest.fixture(autouse=True)
def logs_of_this_test(logs_of_their_own: None, monkeypatch: pytest.MonkeyPatch) -> Iterator[None]:
    """Nor does it name logs that another test kept."""
    with tempfile.TemporaryDirectory(dir=os.environ["NETREV_LOGS"], ignore_cleanup_errors=True) as name:
        monkeypatch.setenv("NETREV_LOGS", name)
        yield


@pytest.fixture
def folder() -> Iterator[Path]:
    """A temporary folder for the test, which is removed after the test."""
    with tempfile.TemporaryDirectory() as name:
        yield Path(name)


@pytest.fixture
def dice(request: pytest.FixtureRequest) -> random.Random:
    """Random numbers from a seed. If the test fails, pytest shows the seed."""
    seed = request.config.getoption("--seed")
    print(f"--seed {seed}")
    return random.Random(seed)


@pytest.fixture
def cleanups() -> Iterator[ExitStack]:
    """What is entered and called back here ends after the test, the last first."""
    with ExitStack() as stack:
        yield stack
