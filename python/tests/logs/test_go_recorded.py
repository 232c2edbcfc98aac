"""Compares the recorder's log of the program go_recorded.go, which runs on one processor, with go_recorded.txt: each
point of the program's goroutines, the mutexes that are locked at the end, and the notes of open descriptors. The
recordings of the whole log and of its second half are checked too. The test needs the Go 1.27 that
dev.recorder.fetching fetches.

    /usr/bin/python3 python tests.logs.test_go_recorded    stores the new text"""

import io
import os
import subprocess
import tempfile
from collections.abc import Iterator
from contextlib import contextmanager
from itertools import groupby
from pathlib import Path

import pytest

from dev.recorder.fetching import is_here
from netrev_go.go_command.running import logs_in
from netrev_go.go_command.toolchain import Go, overlay, quiet_go
from netrev_go.log.logfile import Header, points_of, read_log
from netrev_go.log.points import Log, Point, PointKind
from netrev_go.release_check import tried_in
from netrev_go.steps.compare import by_the_model
from netrev_go.steps.recording_builder import make, write, write_words
from tests.trials.go_untouched import go_of

RELEASE = "1.27"
SOURCE = Path(__file__).with_name("go_recorded.go")
STORED = SOURCE.with_suffix(".txt")
BETWEEN, SECOND = 10, 10**9  # seconds to which times are rounded
LOW = 2**32 - 1
GREAT = 2**40  # greater numbers are addresses, times and hashes
MANY_TIMES = 100  # greater counts differ: the log also has events, whose number differs from run to run
SELECT = 3  # in the lowest byte of what a goroutine waits for
OTHER_GOROUTINE = (PointKind.READY, PointKind.MET, PointKind.HANDED)
TIMES = {
    PointKind.SET_DEADLINE: "b",
    PointKind.DEADLINE_CALL: "b",
    PointKind.NOTED_DEADLINES: "ab",
    PointKind.TIMER: "a",
    PointKind.PARKS: "b",
}
needs_go = pytest.mark.skipif(
    not is_here(RELEASE), reason=f"Go {RELEASE} isn't here (python3 python dev.recorder.fetching {RELEASE})"
)


class Names:
    """Short names for values that differ in each run, in the order of their first occurrence."""

    def __init__(self) -> None:
        self._names: dict[tuple[str, int], str] = {}

    def of(self, sort: str, value: int) -> str:
        count = sum(known == sort for known, _ in self._names)
        return self._names.setdefault((sort, value), f"{sort}{count + 1}") if value else "0"


def address_of(value: int, names: Names) -> str:
    """An address with its port, as the recorder packs them."""
    return f"{value >> 56}/{value >> 16 & 2**40 - 1:x}/{names.of('port', value & 0xFFFF)}"


def cell(point: Point, field: str, value: int, begin: int, names: Names) -> str:
    """The text of one of a point's three values."""
    kind = point.kind
    if kind in OTHER_GOROUTINE and field == "a":
        return names.of("g", value)
    if kind in (PointKind.INIT, PointKind.OPEN) and field == "a":
        return f"{names.of('fd', value & LOW)}/{value >> 32}"
    if kind == PointKind.PARKS and field == "b" and point.a & 255 == SELECT:
        return names.of("@", value)
    if field in TIMES.get(PointKind(kind), "") and abs(value) > SECOND:
        since = value if kind in (PointKind.SET_DEADLINE, PointKind.DEADLINE_CALL) else value - begin
        return f"{round(since / SECOND / BETWEEN) * BETWEEN}s" if since > 0 else "past"
    if kind in (PointKind.NAMED, PointKind.NOTED_NAMED) and field != "c" and point.c in (1, 2):
        return address_of(value, names) if value else "0"
    if kind in (PointKind.NAMED, PointKind.NOTED_NAMED) and field != "c" and point.c == 0:
        return names.of("end", value)
    if kind in (PointKind.SET_DEADLINE, PointKind.DEADLINE_CALL) and field == "b" and value > 1:
        return "soon"
    if kind == PointKind.DIAL_FAILED and field == "b" and value:
        return f"{value:x}"
    if kind == PointKind.NOTED_POLL and value > MANY_TIMES:
        return "many"
    return names.of("@", value) if abs(value) > GREAT and not (kind == PointKind.NAMED and point.c == 3) else str(value)


def lines_of(points: list[Point], log: Log, names: Names) -> Iterator[str]:
    """A line for each point of one of the program's goroutines, each note, and each timer that fires."""
    for point in points:
        is_noted = PointKind.NOTED <= point.kind <= PointKind.NOTED_NAMED
        if point.goroutine or is_noted or point.kind == PointKind.FIRE:
            values = [cell(point, field, getattr(point, field), log.begin, names) for field in "abc"]
            calls = f" stack of {len(log.stacks[point.stack].calls)}" if point.stack else ""
            yield f"{names.of('g', point.goroutine)} {PointKind(point.kind).name} {names.of('@', point.at)} {' '.join(values)}{' timed' * bool(point.time)}{calls}"


def text_of(log: Log, points: list[Point]) -> str:
    """The log from the first socket on, as text; repeated lines are counted."""
    names = Names()
    first = next(place for place, point in enumerate(points) if point.kind == PointKind.INIT)
    lines = []
    for line, same in groupby(lines_of(points[first:], log, names)):
        count = len(list(same))
        lines.append(f"{line} times {count if count <= MANY_TIMES else 'many'}" if count > 1 else line)
    lines += sorted(
        {f"event {point.a} {point.b}{' tagged' * bool(point.c)}" for point in points if point.kind == PointKind.EVENT}
    )
    held = (
        (names.of("g", holder.goroutine), holder.is_reader, len(log.stacks[holder.stack].calls))
        for holder in log.holders or ()
    )
    lines += sorted(f"{g} holds a mutex{' for reading' * is_reader}: stack of {calls}" for g, is_reader, calls in held)
    return "".join(f"{line}\n" for line in lines)


def raw_points(path: Path) -> list[Point]:
    """A log's points with the times as they were logged."""
    text = path.read_bytes()
    header = Header(text).counted(io.BytesIO(text))
    assert header.passed <= header.points
    return points_of(text[header.ring : header.ring + 64 * header.passed], 0)


@contextmanager
def recorded(go: Go) -> Iterator[tuple[Path, Path]]:
    """The log of a run of the program, and a folder."""
    with tempfile.TemporaryDirectory(prefix="recorded-") as name:
        folder = Path(name)
        run = quiet_go(go, folder, "build", "-overlay", str(overlay(go)), "-o", "program", str(SOURCE))
        assert run.returncode == 0, run.stderr
        settings = {"NETREV_LOG": str(folder / "log"), "NETREV_POINTS": str(2**14), "GOMAXPROCS": "1"}
        subprocess.run([folder / "program"], cwd=folder, env=os.environ | settings, timeout=60, check=True)
        (log,) = logs_in(folder)
        yield log, folder


def said_of(log: Log, name: Path) -> str:
    """The fault that the model finds in the recording of a log."""
    recording = make(log)
    write(recording, name)
    write_words(recording, name.with_suffix(".words"))
    good, output = by_the_model(name)
    return "" if good else output


@needs_go
def test_the_log_has_what_the_program_did() -> None:
    with recorded(go_of(RELEASE)) as (path, folder):
        log = read_log(path)
        assert text_of(log, raw_points(path)) == STORED.read_text()
        assert said_of(log, folder / "whole.jsonl") == ""
        assert log.stacks and all(all(stack.calls) for stack in log.stacks.values())  # (each call has an address)
        log.points, log.from_the_start = log.points[len(log.points) // 2 :], False
        del log.kinds
        assert said_of(log, folder / "noted.jsonl") == ""


@needs_go
def test_the_trial_of_the_doctor_is_recorded() -> None:
    with tempfile.TemporaryDirectory(prefix="trial-") as folder:
        tried = tried_in(go_of(RELEASE), Path(folder))
    assert tried.good, tried.said


if __name__ == "__main__":
    with recorded(go_of(RELEASE)) as (folder_of_log, _):
        STORED.write_text(text_of(read_log(folder_of_log), raw_points(folder_of_log)))
