"""A recording that ends while a goroutine is in a system call: a lock that Go gives up afterwards isn't a suspect, but
a lock that no goroutine gives up is a suspect. A listener's wait in Go's own Accept isn't a lost wake-up."""

import json
from typing import Any

from netrev.findings.suspects.ranking import suspects_of
from netrev.recording.where import SourceLines

from .test_suspects import COMES, OPEN, PARK, READ, WHILE, Steps, recording_of

TAKES: Steps = [["rwlock", 1, 0, "w"]]
RESETS: Steps = [*TAKES, ["pollreset", 1, 0, "w"]]
WRITES: Steps = [*RESETS, ["syswrite", 1, 0, "00"]]
SLEEPS: Steps = [["rwlock", 0, 0, "w"], ["acquire", 0]]
OTHERS: Steps = [["increfclose", 1, 0]]
POLL = "internal/poll."


def found(steps: Steps, functions: list[str] | None, others: str = "main.main") -> list[object]:
    """The rules that find suspects if the steps of goroutine 1 come from these functions of internal/poll, one after
    another; without functions, no lines are known."""
    recording = recording_of(OPEN + steps + WHILE)
    if functions is not None:
        recording.lines = lines_of(OPEN + steps + WHILE, functions, others)
    return [suspect.rule for suspect in suspects_of(recording).suspects if suspect.is_shown]


def lines_of(steps: Steps, functions: list[str], others: str) -> SourceLines:
    names = [others, *(POLL + name for name in functions)]
    result: list[Any] = [{"where": 1, "steps": len(steps)}]
    for number, name in enumerate(names, 1):
        result.append({"call": number, "function": name, "file": "a.go", "line": number, "of": "go"})
        result.append({"stack": number, "calls": [number]})
    own = [at for at, step in enumerate(steps) if at >= len(OPEN) and step[0] not in ("tick", "spawn") and step[1] == 1]
    stacks = [1] * len(steps)
    for place, at in enumerate(own):
        stacks[at] = 2 + min(place, len(functions) - 1)
    result.append({"step": 1, "stacks": stacks})
    lines = SourceLines("\n".join(map(json.dumps, result)), len(steps))
    assert lines and not lines.fault, lines.fault
    return lines


def test_a_call_that_the_end_cut_off_is_not_suspected() -> None:
    for steps in (TAKES, WRITES):
        for name in ("(*FD).Write", "(*FD).Writev", "SendFile", "(*FD).Accept"):
            assert found(steps, [name]) == [], (name, len(steps))
    assert found(TAKES + SLEEPS, ["(*FD).Write"]) == []


def test_without_lines_it_is() -> None:
    for steps in (TAKES, WRITES):
        assert found(steps, None) == ["leaked reference"]
    assert found(TAKES + SLEEPS, None) == ["lock held"]


def test_without_lines_it_is_not_behind_a_pollreset() -> None:
    for steps in (RESETS, RESETS + SLEEPS):
        assert found(steps, None) == []
        assert found(steps, ["(*FD).RawWrite"]) != []
    for before in ([["incref", 1, 0]], [["rwlock", 1, 0, "r"]]):
        assert found(before + RESETS, None) == ["leaked reference"]


def test_one_in_which_the_program_runs_is() -> None:
    for name in ("(*FD).RawWrite", "(*FD).RawControl", "(*FD).Fsync"):
        assert found(TAKES, [name]) == ["leaked reference"], name


def test_one_that_was_left_with_the_lock_is() -> None:
    assert found(WRITES, ["(*FD).Write", "(*FD).Write", "(*FD).Close"]) == ["leaked reference"]


def test_a_reference_without_a_lock_is() -> None:
    for name in ("(*FD).Write", "(*FD).RawControl"):
        assert found([["incref", 1, 0]], [name]) == ["leaked reference"]


def test_one_in_a_shutdown_that_the_end_cut_off_is_not() -> None:
    assert found([["incref", 1, 0]], ["(*FD).Shutdown"]) == []
    assert found([["incref", 1, 0]], None) == ["leaked reference"]


def test_a_listener_that_waits_in_accept_has_lost_no_wake_up() -> None:
    waits = COMES + READ[:2] + PARK
    assert found(waits, ["(*FD).Accept"]) == []
    for functions in (["(*FD).RawRead"], None):
        assert found(waits, functions) == ["lost wake-up"]
