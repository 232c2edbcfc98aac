"""What netrev-go gets from netrev and from the library, with stand-ins for netrev: programs that are killed, missing or
slow, and a library that fails."""

import threading
import time
from pathlib import Path
from types import SimpleNamespace
from typing import Any

import pytest

from netrev.findings.causes import first_output
from netrev.findings.suspects import table
from netrev.recording.recording import Recording
from netrev.run import changes
from netrev.system.time_limits import LateError, time_limit
from netrev_go.steps import analysis, report
from netrev_go.steps.analysis import Analysis, check
from netrev_go.steps.report import Conversion
from tests.support.examples import EXAMPLES
from tests.support.stubs import raising

CAUSED = EXAMPLES.parent / "python/tests/caused"
BAD = CAUSED / "pool-bad.jsonl"


class StandIn:
    """A stand-in for netrev, which by default lists the changes as netrev does."""

    def __init__(self, folder: Path) -> None:
        self.program = folder / "netrev"
        self.listed = self.program.with_name("changes")
        self.listed.write_text("\n".join(changes._lines(Recording.read(str(BAD)))) + "\n")
        self.netrev(f"test $1 = changes && cat {self.listed}")

    def netrev(self, line: str) -> str:
        """Sets the stand-in's behaviour."""
        self.program.write_text(f'#!/bin/sh\necho "$@" >> {self.program}.calls\n{line}\n')
        self.program.chmod(0o755)
        return str(self.program)

    def calls(self) -> list[str]:
        """The commands for which the stand-in was started."""
        return [line.split()[0] for line in self.program.with_name("netrev.calls").read_text().splitlines()]

    def report(self, failed: bool = True) -> Conversion:
        """The report about a recording without lines."""
        recording = Recording.read(str(BAD))
        steps: Any = SimpleNamespace(
            prelude=0, goroutines=3, sockets=4, notes=[], lines=[""] * recording.length,
            last_steps=[recording.length] * 3, stacks=[0] * recording.length,
        )  # fmt: skip
        with pytest.MonkeyPatch.context() as patch:
            patch.setattr(report, "netrev_program", lambda: str(self.program))
            return report.report(steps, BAD, {}, failed)


@pytest.fixture
def stand_in(folder: Path) -> StandIn:
    return StandIn(folder)


def test_one_that_was_killed_has_checked_nothing(stand_in: StandIn) -> None:
    for name, number in (("SIGKILL", 9), ("SIGTERM", 15)):
        with pytest.raises(OSError) as raised:
            check(stand_in.netrev(f"kill -{number} $$"), Path("a.jsonl"))
        assert raised.value.strerror == f"ended by {name}"


def test_one_that_ends_by_itself_has(stand_in: StandIn) -> None:
    for line, outcome in (
        ("echo ok 3 steps", (True, "ok 3 steps")),
        ("echo wrong; exit 1", (False, "wrong")),
        ("echo 1 lock 0 = 8; echo step 2: wrong; exit 1", (False, "step 2: wrong")),
        ("echo 1 lock 0 = 8; echo why >&2; exit 3", (False, "why")),
        ("echo why >&2; exit 1", (False, "why")),
    ):
        assert check(stand_in.netrev(line), Path("a.jsonl")) == outcome


def test_netrev_is_started_twice_at_most(stand_in: StandIn) -> None:
    outcome = stand_in.report()
    assert outcome.taken and outcome.lines[0].startswith("cause:  Read at main.go:55"), outcome.lines
    assert "ok 119 steps; 3 goroutines, 4 sockets" in "\n".join(outcome.lines)
    assert stand_in.calls() == ["changes", "suspects"]
    assert (outcome.read and outcome.read.length, outcome.suspects) == (119, [])


def test_netrev_that_is_killed_or_missing_has_checked_nothing(stand_in: StandIn) -> None:
    stand_in.netrev("kill -9 $$")
    for why in ("ended by SIGKILL", "No such file or directory"):
        outcome = stand_in.report()
        assert not outcome.taken
        assert outcome.lines[0].startswith("cause:  Read at main.go:55"), outcome.lines
        assert outcome.lines[-1] == f"  not checked: {stand_in.program}: {why}"
        stand_in.program.unlink(missing_ok=True)


def test_a_refused_recording_has_no_suspects(stand_in: StandIn) -> None:
    stand_in.netrev("echo step 2: refused; exit 1")
    outcome = stand_in.report()
    assert (outcome.taken, outcome.suspects, outcome.read) == (False, [], None)
    assert "the causes above may be wrong" in outcome.lines[-1]


def test_if_netrev_is_slow_the_causes_are_the_models_and_the_rest_is_netrevs(
    monkeypatch: pytest.MonkeyPatch, stand_in: StandIn
) -> None:
    expected = stand_in.report().lines
    stand_in.netrev(f"test $1 = changes && sleep 1; cat {stand_in.listed}")
    monkeypatch.setattr(changes, "AT_LEAST", 0.1)
    monkeypatch.setattr(changes, "A_STEP", 0)
    outcome = stand_in.report()
    assert outcome.lines == expected
    assert outcome.read is not None


def test_a_library_that_fails_loses_nothing_else(stand_in: StandIn, monkeypatch: pytest.MonkeyPatch) -> None:
    for module, name, kept in (
        (first_output, "first_findings", "no suspect; 1 call ended with a timeout"),
        (table, "suspect_findings", "cause:  Read at main.go:55"),
    ):
        for fault, says in ((KeyError(7), "KeyError: 7"), (RecursionError("deep"), "RecursionError: deep")):
            with monkeypatch.context() as patch:
                patch.setattr(module, name, raising(fault))
                outcome = stand_in.report()
            lines = "\n".join(outcome.lines)
            assert outcome.taken
            assert f"  error in nrdb, not in the recording: {says} (set NRDB_TRACEBACK=1" in lines
            assert kept in lines
            assert "ok 119 steps" in lines


def test_what_takes_too_long_is_said_and_the_rest_is_computed(
    monkeypatch: pytest.MonkeyPatch, stand_in: StandIn
) -> None:
    def slow(*_: object) -> Any:
        time.sleep(60)

    for module, name, limit, says, kept in (
        (first_output, "first_findings", "OF_CAUSES", "for the causes: `", "no suspect"),
        (table, "suspect_findings", "PATIENCE", "for the suspects: `", "cause:  Read"),
    ):
        with monkeypatch.context() as patch:
            patch.setattr(module, name, slow)
            patch.setattr(analysis, limit, 0.2)
            lines = "\n".join(stand_in.report().lines)
        assert f"  nrdb needs more than 0.2 s {says}" in lines
        assert kept in lines


def test_what_was_interrupted_is_computed_from_new_tables(stand_in: StandIn, monkeypatch: pytest.MonkeyPatch) -> None:
    with Analysis(str(stand_in.program), BAD) as found:
        found.values()
        before = found.recording
        with monkeypatch.context() as patch, pytest.raises(LateError):
            patch.setattr(first_output, "first_findings", raising(LateError))
            found.causes()
        assert found.recording is None
        found.values()
        assert found.recording is not before
        assert stand_in.calls() == ["changes"]


def test_a_limit_ends_the_computation_and_its_own_signal() -> None:
    with pytest.raises(LateError, match="more than 0.1 s"), time_limit(0.1, "more than {seconds} s"):
        time.sleep(60)
    with time_limit(0.1, ""):
        pass
    time.sleep(0.3)


def test_in_another_thread_there_is_no_limit() -> None:
    ended = list[bool]()

    def work() -> None:
        with time_limit(0.05, ""):
            time.sleep(0.2)
        ended.append(True)

    thread = threading.Thread(target=work)
    thread.start()
    thread.join()
    assert ended == [True]
