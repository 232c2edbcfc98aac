"""The trace for Perfetto: its events have the right form, slices of a thread are nested or consecutive, and each flow
leads from one slice to another; statuses equal the model's."""

import gzip
import json
import random
from collections.abc import Sequence
from functools import lru_cache
from itertools import chain
from pathlib import Path
from typing import Any

import pytest

from dev.fuzz.generators.injections import Traffic
from dev.fuzz.generators.random_steps import Author
from netrev.connection.scout import Scout
from netrev.findings.suspects.ranking import all_suspects_of
from netrev.machine.machine import World
from netrev.machine.steps import apply
from netrev.recording.recording import Recording
from netrev.recording.step_changes import RecordedChanges
from netrev.run.index import run_of
from netrev.text.writer import write_plain
from netrev.timeline.other_trace_events import beside
from netrev.timeline.searched_cells import DEADLINES_AND_CLOCK, STATUSES, searched
from netrev.timeline.trace import AT_ONCE, Tracing, packed, together, write_events
from tests.support.model_sessions import changes_in

pytestmark = pytest.mark.together

EXAMPLES = Path(__file__).resolve().parents[3] / "examples"
REQUIRED = {
    "M": {"pid", "name", "args"},
    "X": {"pid", "tid", "ts", "dur", "name"},
    "s": {"pid", "tid", "ts", "id", "name", "cat"},
    "f": {"pid", "tid", "ts", "id", "name", "cat", "bp"},
    "i": {"pid", "tid", "ts", "name", "s"},
    "C": {"pid", "tid", "ts", "name", "args"},
}
Event = dict[str, Any]


@lru_cache
def traffic() -> Traffic:
    """Some traffic over connections."""
    return Traffic(31, None, 1_500).run()


def slices_of(events: list[Event]) -> dict[tuple[int, int], list[Event]]:
    """The slices of each thread, sorted by their beginnings; of two that begin together, the longer slice comes
    first."""
    threads: dict[tuple[int, int], list[Event]] = {}
    for event in events:
        if event["ph"] == "X":
            threads.setdefault((event["pid"], event["tid"]), []).append(event)
    for slices in threads.values():
        slices.sort(key=lambda item: (item["ts"], -item["dur"]))
    return threads


def faults_of(events: list[Event]) -> list[str]:
    """Violations of the trace's form."""
    faults = [f"lacks a field: {event}" for event in events if not REQUIRED[event["ph"]] <= set(event)]
    threads = slices_of(events)
    for slices in threads.values():
        ends: list[int] = []
        for slice in slices:
            while ends and ends[-1] <= slice["ts"]:
                ends.pop()
            if slice["dur"] < 1 or (ends and slice["ts"] + slice["dur"] > ends[-1]):
                faults.append(f"neither within nor behind: {slice}")
            ends.append(slice["ts"] + slice["dur"])
    flows: dict[int, list[Event]] = {}
    for event in events:
        if event["ph"] in "sf":
            flows.setdefault(event["id"], []).append(event)
            around = threads.get((event["pid"], event["tid"]), ())
            if not any(item["ts"] <= event["ts"] < item["ts"] + item["dur"] for item in around):
                faults.append(f"in no slice: {event}")
    faults += [f"no pair: {pair}" for pair in flows.values() if [item["ph"] for item in pair] != ["s", "f"]]
    faults += [f"goes back: {pair}" for pair in flows.values() if pair[0]["ts"] > pair[-1]["ts"]]
    return faults


def traced(recording: Recording) -> list[Event]:
    """The events of the trace of a recording, parsed from JSON."""
    changes = changes_in(recording.data)
    events = chain(
        Tracing(recording, changes).events("run.jsonl", lambda: None),
        beside(recording, changes, Looking(changes)),
    )
    return [json.loads(event) for event in events]


class Looking(Scout):
    """Compares the trace with the changes."""

    def __init__(self, changes: RecordedChanges) -> None:
        self._changes = changes

    def values(self, position: int, cells: Sequence[str]) -> list[str]:
        return [self._changes.value(cell, position) for cell in cells]


def statuses_of(events: list[Event], length: int) -> list[dict[int, str]]:
    """For each position, the statuses of the goroutines that aren't idle."""
    found: list[dict[int, str]] = [{} for _ in range(length + 1)]
    for event in events:
        if event.get("cat") == "status":
            for position in range(event["ts"], event["ts"] + event["dur"]):
                assert event["tid"] not in found[position]
                found[position][event["tid"]] = event["name"]
    return found


def test_has_the_form_and_the_statuses_of_the_model() -> None:
    for seed in range(8):
        recording, worlds = Author(random.Random(f"trace-{seed}")).recording(200)
        events = traced(Recording(write_plain(recording)))
        assert faults_of(events) == []
        reports = statuses_of(events, len(recording.steps))
        for position, world in enumerate(worlds):
            busy = {g: status for g, status in enumerate(world.goroutines) if status[0] not in ("idle", "gone")}
            assert reports[position] == {g: " ".join(map(str, status)) for g, status in busy.items()}


def test_of_examples_and_traffic() -> None:
    recordings = [Recording.read(str(path)) for path in sorted(EXAMPLES.glob("real/*.jsonl"))]
    recordings.append(Recording(traffic().text()))
    for recording in recordings:
        events = traced(recording)
        assert faults_of(events) == []
        steps = [event for event in events if event.get("cat") == "step"]
        assert [event["args"]["step"] for event in steps] == list(range(1, recording.length + 1))
        assert [event["name"].split()[0] for event in steps] == [values[0] for values in recording.arrays()]


def test_begins_where_the_recording_does() -> None:
    recording = Recording.read(str(EXAMPLES / "real/hijacked.jsonl"))
    whole, length = traced(recording), recording.length
    for begins in (1, 40, 200, length - 1):
        recording.lines.prelude = begins
        events = traced(recording)
        assert faults_of(events) == []
        steps = [event["args"] for event in events if event.get("cat") == "step"]
        assert [step["step"] for step in steps] == list(range(begins + 1, length + 1))
        of_whole = [event["args"] for event in whole if event.get("cat") == "step"]
        assert steps == of_whole[begins:]
        assert statuses_of(events, length) == [{}] * begins + statuses_of(whole, length)[begins:]
        assert min(event["ts"] for event in events if "ts" in event) == begins
        ends = [call["ts"] + call["dur"] for call in whole if call.get("cat") == "call"]
        later = [call["ts"] + call["dur"] for call in events if call.get("cat") == "call"]
        assert sorted(later) == sorted(end for end in ends if end > begins)


def test_each_wake_up_is_a_flow() -> None:
    events, world = traced(Recording(traffic().text())), World(traffic().limits)
    woken = []
    for number, (kind, *rest) in enumerate(traffic().steps, 1):
        of_bytes = kind in ("arrive", "syswrite")
        before, (world, _) = world, apply(
            world, (kind, *rest[:-1], bytes.fromhex(rest[-1])) if of_bytes else (kind, *rest)
        )
        for g, (old, new) in enumerate(zip(before.goroutines, world.goroutines)):
            if (old[0], new[0]) in (("parked", "swapping"), ("queued", "acquiring")):
                woken.append((number, g))
    assert woken
    assert sorted((event["ts"], event["tid"]) for event in events if event["ph"] == "f") == woken


def test_lines_of_the_program_stand_at_steps() -> None:
    recording = Recording.read(str(EXAMPLES / "real/hijacked.jsonl"))
    lines = {
        event["args"]["step"]: event["args"].get("line", "")
        for event in traced(recording)
        if event.get("cat") == "step"
    }
    assert lines == {number: recording.lines.words(number) for number in lines}
    assert "main.go:34 net.(*conn).SetReadDeadline" in lines.values()


def test_calls_deadlines_the_clock_and_suspects_are_there() -> None:
    for path in sorted(EXAMPLES.glob("real/*.jsonl")):
        recording = Recording.read(str(path))
        events = traced(recording)
        changes = changes_in(recording.data)
        calls = [(event["tid"], event["ts"] + 1, event["dur"]) for event in events if event.get("cat") == "call"]
        book = [call for call in run_of(recording).calls if call.last != call.first]
        end = recording.length + 1
        assert calls == [(item.goroutine, item.first, (item.last or end) - item.first + 1) for item in book]
        clock = [(event["ts"], str(event["args"]["ns"])) for event in events if event["ph"] == "C"]
        assert clock == changes.changes_of("clock")
        for one in (event for event in events if event.get("cat") == "deadline"):
            (title,) = [
                name["args"]["name"]
                for name in events
                if name["ph"] == "M" and name["pid"] == one["pid"] and name.get("tid") == one["tid"]
            ]
            cell = f"{title[0]}d {title.split()[-1]}"
            values = {
                changes.value(cell, position) for position in (one["ts"], min(one["ts"] + one["dur"] - 1, end - 1))
            }
            assert len(values) == 1
            assert (one["name"] == "has passed") == values.pop().startswith("-")
        reports = [event for event in events if event["ph"] == "i"]
        found = [suspect for suspect in all_suspects_of(recording).suspects if suspect.is_shown]
        for suspect in found:
            names = {item["ts"]: item["name"] for item in reports if item["args"]["says"] == suspect.sentence()}
            assert sorted({suspect.step, *suspect.steps}) == sorted(names)
        assert reports, path.stem


def test_the_first_line_of_each_piece_is_found_too() -> None:
    pieces = [
        b"1 gor 0 = idle\n1 lock 0 = 2\n",
        b"2 gor 0 = parked 0 r\n3 rd 0 = -1\n",
        b"4 clock = 7\nok 4 steps\n",
    ]
    changes = RecordedChanges.read(pieces)
    assert list(searched(changes, STATUSES)) == [("1", "gor 0", "idle"), ("2", "gor 0", "parked 0 r")]
    assert list(searched(changes, DEADLINES_AND_CLOCK)) == [("3", "rd 0", "-1"), ("4", "clock", "7")]


@pytest.mark.parametrize(("name", "is_packed"), [("x.json", False), ("x.json.gz", True), ("x.gz", True), ("gz", False)])
def test_a_trace_is_compressed_if_its_name_says_so(name: str, is_packed: bool, tmp_path: Path) -> None:
    with packed(str(tmp_path / name), "other.jsonl") as file:
        write_events(file, iter([["1", "2"], ["3"]]))
    data = (tmp_path / name).read_bytes()
    assert data.startswith(b"\x1f\x8b") == is_packed
    assert json.loads(gzip.decompress(data) if is_packed else data)["traceEvents"] == [1, 2, 3]


@pytest.mark.parametrize(("length", "groups"), [(0, []), (1, [1]), (AT_ONCE, [AT_ONCE]), (AT_ONCE + 1, [AT_ONCE, 1])])
def test_events_are_written_in_groups(length: int, groups: list[int]) -> None:
    events = [str(number) for number in range(length)]
    found = list(together(iter(events)))
    assert [len(group) for group in found] == groups and [item for group in found for item in group] == events
