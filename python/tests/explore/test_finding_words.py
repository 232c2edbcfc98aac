"""The text about findings in terms of calls, and the target of a finding's reduced recording and of a report."""

from collections import Counter
from typing import Any

import pytest

from netrev.connection.output import Row, Table
from netrev.explore import commands
from netrev.explore.commands import FindingFiles
from netrev.explore.schedules import Delay
from netrev.explore.script import script_of
from netrev.explore.sentences import FindingSentences, summary
from netrev.findings.suspects.suspect import Suspect, Weight
from netrev.reduce import report
from netrev.reduce.reduced import Reduced, Wanted
from netrev.reduce.units import UnitKind
from netrev.run.index import run_of
from tests.support.stubs import stub
from tests.suspects.test_suspects import COMES, OPEN, READ, Steps, recording_of

READS: Steps = [*READ, ["rwunlock", 1, 0, "r"]]
SETS: Steps = [["incref", 0, 0], ["setdeadline", 0, 0, "r", 5], ["decref", 0, 0]]
# steps 1 to 3, 4, 5 to 8, 9 to 11, 12, 13 and 14, 15 to 17
INSIDE: Steps = [*OPEN, ["incref", 1, 0], *READS, *SETS, ["decref", 1, 0], *COMES, *READ]


def telling_of(steps: Steps) -> FindingSentences:
    recording = recording_of(steps)
    return FindingSentences(recording, run_of(recording), script_of(recording))


@pytest.mark.parametrize(
    ("g", "number", "wanted"),
    [
        (0, 2, None), (0, 3, ("Open", 3)), (0, 4, None), (1, 3, None), (1, 4, ("Control", 4)), (1, 5, ("Read", 5)), (1, 8, ("Read", 5)), (0, 8, None),
        (1, 9, ("Control", 4)), (0, 9, ("SetReadDeadline", 9)), (0, 11, ("SetReadDeadline", 9)), (0, 12, None), (1, 12, ("Control", 4)), (1, 13, None),
        (1, 15, ("Read", 15)), (1, 17, ("Read", 15)), (2, 9, None),
    ],
)  # fmt: skip
def test_the_innermost_call_around_a_step(g: int, number: int, wanted: tuple[str, int] | None) -> None:
    call = telling_of(INSIDE).call_of(g, number)
    assert (call and (call.name, call.first)) == wanted


@pytest.mark.parametrize(
    ("before", "until", "says"),
    [
        (5, 11, "goroutine 1 pauses before Read on socket 0 (step 5) until goroutine 0 has made decref in SetReadDeadline on socket 0 (step 11)"),
        (7, 12, "goroutine 1, in Read on socket 0, pauses before sysread (step 7) until goroutine 1 has made decref in Control on socket 0 (step 12)"),
        (9, 13, "goroutine 0 pauses before SetReadDeadline on socket 0 (step 9) until after arrive 0 6869 (step 13)"),
        (10, 17, "goroutine 0, in SetReadDeadline on socket 0, pauses before setdeadline (step 10) until goroutine 1 has made sysread in Read on socket 0 (step 17)"),
        (16, 18, "goroutine 1, in Read on socket 0, pauses before pollreset (step 16) until its deadline has passed"),
    ],
)  # fmt: skip
def test_a_delay_is_described_by_its_calls(before: int, until: int, says: str) -> None:
    assert telling_of(INSIDE).delay(Delay(before, until)) == says


@pytest.mark.parametrize(
    ("played", "delays", "seed", "taken_over", "left", "found", "stopped", "says"),
    [
        (5, 8, 0, 0, 0, 0, False, "5 schedules near the recorded one in 1.5 s (one delay: 5 of 8); nothing found"),
        (1, 1, 0, 0, 0, 1, False, "1 schedule near the recorded one in 1.5 s (one delay: 1 of 1); 1 finding"),
        (9, 8, 3, 0, 2, 2, True, "stopped: 9 schedules near the recorded one in 1.5 s (one delay: 8 of 8; two and three: seeds 1 to 3); in 2 of them a step didn't apply; 2 findings"),
        (9, 9, 0, 1, 0, 0, False, "9 schedules near the recorded one in 1.5 s (one delay: 9 of 9); 1 of the processes that played them ended early, and nrdb played the rest; nothing found"),
    ],
)  # fmt: skip
def test_the_summary_of_all_schedules(
    played: int, delays: int, seed: int, taken_over: int, left: int, found: int, stopped: bool, says: str
) -> None:
    exploring = stub(tried=played, delays=[None] * delays, seed=seed, taken_over=taken_over, impossible=left)
    exploring.found = dict.fromkeys(range(found))
    assert summary(exploring, 1.5, stopped) == says


# ---- the target of the reduced recording


def suspect(rule: str, is_shown: bool = True, goroutine: int | None = None, socket: int | None = None) -> Suspect:
    return Suspect(4, Weight.SHOWN if is_shown else Weight.DOUBTFUL, ["it says"], goroutine, None, socket, rule=rule)


FOUND = [suspect("a", False), suspect("b"), suspect("b", socket=1), suspect("c", goroutine=2)]


@pytest.mark.parametrize(
    ("one", "number"),
    [(FOUND[1], 1), (FOUND[2], 2), (FOUND[3], 3), (FOUND[0], 1), (suspect("c", goroutine=3), 1), (suspect("d"), 1)],
)
def test_a_suspect_is_reduced_by_its_number(monkeypatch: pytest.MonkeyPatch, one: Suspect, number: int) -> None:
    """The number counts only the shown suspects of the finding's own recording. A suspect that isn't among them gets 1."""
    monkeypatch.setattr(commands, "suspects_of", lambda *_, **__: stub(suspects=FOUND))
    wanted = FindingFiles(stub(), stub())._wanted(stub(length=9), stub(suspect=one))
    assert wanted == Wanted(number, "", "", 9)


def test_a_hang_is_reduced_with_its_steps(monkeypatch: pytest.MonkeyPatch) -> None:
    schedule = stub(places=[0, 1, 2, 3], steps=object())
    finding, sentences = stub(suspect=None, hangs=3, run=schedule), stub(script=object())
    calls: list[tuple[Any, ...]] = []
    monkeypatch.setattr(commands, "moved_by", lambda *arguments: (calls.append(arguments), (4, 5))[1])  # type: ignore[func-returns-value]
    assert FindingFiles(stub(), sentences)._wanted(stub(length=9), finding) == Wanted(0, "", "", 9, 3, (4, 5))
    assert calls == [(sentences.script, 3, 3, schedule.steps)]


# ---- reports


def table_of(*rules: str) -> Table:
    """A table with a line after each suspect."""
    rows = [
        row
        for at, rule in enumerate(rules, 1)
        for row in (
            Row({"rule": rule, "says": f"{rule} at {at}", "netrev": [f"answer {at}"], "lines": ["main.go:7"][at - 1 :]}, rule),
            Row({}, "the next command"),
        )
    ]  # fmt: skip
    return Table("suspects", rows)


@pytest.mark.parametrize(
    ("number", "head"),
    [
        (1, ["# one", "One at 3.", "- netrev: `answer 3`", "In the whole recording: one at 1."]),
        (2, ["# two", "Two at 2.", "- netrev: `answer 2`", "In the whole recording: two at 2."]),
        (3, ["# three", "Three at 1.", "- netrev: `answer 1`", "- main.go:7", "In the whole recording: three at 3."]),
    ],
)
def test_a_report_begins_with_its_own_suspect(monkeypatch: pytest.MonkeyPatch, number: int, head: list[str]) -> None:
    """The reduced recording may show the suspects in another order."""
    session = stub(looks=stub, text=stub)
    monkeypatch.setattr(report, "suspects_table", lambda *_, **__: table_of("one", "two", "three"))
    found = report._of_suspect(session, table_of("three", "two", "one"), Wanted(number, "", "", 9))
    assert [line.replace("\\", "") for line in found] == head


@pytest.mark.parametrize(
    ("left_out", "is_done", "says"),
    [
        ({}, True, "x.jsonl: 3 of 9 steps, accepted by netrev; nothing could be left out"),
        ({UnitKind.CALL: 1}, True, "x.jsonl: 3 of 9 steps, accepted by netrev; left out 1 call"),
        ({UnitKind.TICK: 2, UnitKind.CALL: 0, UnitKind.SOCKET: 1}, False, "x.jsonl: 3 of 9 steps, accepted by netrev; left out 1 socket, 2 ticks; stopped early, so reduce what is left once more"),
    ],
)  # fmt: skip
def test_what_a_reduction_removed(left_out: dict[UnitKind, int], is_done: bool, says: str) -> None:
    assert Reduced(b"", "", [1, 2, 5], Counter(left_out), is_done).words("x.jsonl", 9) == says
