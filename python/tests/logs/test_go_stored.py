"""A stored log with each kind of point (of go_recorded.go) becomes the stored recording, NAME.where and report: whole,
and in randomly chosen parts, of which only checksums are stored. Logs of random programs are tested in the same way.
Neither Go nor netrev is needed.

    /usr/bin/python3 python tests.logs.test_go_stored             stores all new results
    /usr/bin/python3 python tests.logs.test_go_stored PART ..     prints what is made from parts, such as log-7 or program-7
"""

import hashlib
import io
import json
import random
import sys
import tempfile
from collections.abc import Iterator
from contextlib import contextmanager
from dataclasses import dataclass, replace
from pathlib import Path

import pytest

from dev.fuzz.generators.random_logs import log_of, program_of
from netrev_go.go_command.toolchain import Go
from netrev_go.log.points import Log, LoggedHolder, Point, PointKind, PointStack
from netrev_go.log.source_lines import SourceRoots, lines_of
from netrev_go.log.tests_in_log import Ran, Tests
from netrev_go.steps import conversion, report
from netrev_go.steps.conversion import ReadLog, RecordingOptions, converted
from netrev_go.steps.recording_builder import NothingRecordedError, make

HERE = Path(__file__).parent
LOG = HERE / "go_recorded.log"
STORED, SUMS = HERE / "go_stored.txt", HERE / "go_stored.json"
LOGS, PROGRAMS = 120, 100  # the number of random parts of each kind
SOURCES = Path("/usr/lib/go-1.27/src")
Symbols = dict[int, tuple[str, str, int]]


def stored_log() -> tuple[Log, Symbols]:
    """The log, and the lines of addresses."""
    log, symbols = Log([], has_orders=True, holders=[]), Symbols()
    assert log.holders is not None
    for line in map(json.loads, LOG.read_text().splitlines()):
        if isinstance(line, list):
            log.points.append(Point(*line))
        elif "stack" in line:
            log.stacks[line["stack"]] = PointStack(line["made"], line["started"], tuple(line["calls"]))
        elif "address" in line:
            symbols[line["address"]] = (line["function"], line["file"], line["line"])
        elif "mutex" in line:
            log.holders.append(
                LoggedHolder(line["mutex"], line["goroutine"], line["reads"], line["passed"], line["of"])
            )
        else:
            log.begin, log.text = line["begin"], line["text"]
    return log, symbols


@dataclass
class Drawn:
    """A part of the log, and the options for its conversion."""

    log: Log
    wish: RecordingOptions
    test: Ran | None
    tests: Tests
    has_lines: bool


def drawn(log: Log, number: int) -> Drawn:
    """A part of the log: number 0 is all of it."""
    dice, points = random.Random(number), log.points
    if not number:
        return Drawn(log, RecordingOptions(words=True), None, Tests(), True)
    if number % 2:
        first = dice.choice((0, 0, dice.randrange(len(points)), dice.randrange(len(points) // 3)))
        points = points[first : dice.choice((len(points), dice.randrange(first + 1, len(points) + 1)))]
    if number % 5 == 0:
        left_out = dice.choice([*{point.goroutine for point in points}])
        points = [point for point in points if point.goroutine != left_out or not left_out]
    if number % 7 == 0:
        points = [point._replace(time=0) for point in points]
    if number % 6 == 0:
        points = [point for point in points if dice.random() > 0.01]
    kinds = {point.kind for point in points}
    part = replace(
        log,
        points=points,
        from_the_start=bool(points) and points[0].number == 0,
        has_orders=number % 9 > 0 and PointKind.PARKS in kinds,
    )
    part.holders = None if number % 4 == 3 else [holder for holder in log.holders or () if dice.random() < 0.8]
    sockets, megabytes = dice.choice((1, 2, 3, 5, 9, 256)), dice.choice((1, 1_024))
    recording_options = RecordingOptions(
        sockets,
        megabytes,
        dice.random() < 0.2,
        dice.random() < 0.5,
        dice.random() < 0.5,
        dice.choice((0, points[0].at if points else 0)),
    )
    tests, test = Tests(), None
    if number % 3 == 0:
        begun = sorted(dice.sample(range(len(log.points)), 4))
        names, goroutines = ("TestA", "TestA/part", "TestB"), [
            point.goroutine for point in points if point.goroutine
        ] or [1]
        for name, began in zip(names, begun):
            ended = dice.choice((None, began + 100, began + 300))
            tests.ran.append(Ran("example.org/p", name, dice.choice(goroutines), began, 10**6 * began, ended=ended))
        test = dice.choice((None, *tests.ran))
    return Drawn(part, recording_options, test, tests, dice.random() < 0.8)


@contextmanager
def looked_up(symbols: Symbols) -> Iterator[None]:
    """In this context, lines come from the symbols, and netrev is missing."""

    def found(log: Log, used: set[int], *_: object) -> dict[int, conversion.Calls]:
        with pytest.MonkeyPatch.context() as patch:
            patch.setattr("netrev_go.log.source_lines.shift", lambda *_, **__: 0)
            patch.setattr("netrev_go.log.source_lines.looked_up", lambda *_, **__: symbols)
            return lines_of(log, used, io.BytesIO(), ["go"], SourceRoots(SOURCES, Path("/samples")))

    with pytest.MonkeyPatch.context() as patch:
        patch.setattr(conversion, "lines_of", found)
        patch.setattr(conversion, "line_reader", lambda _: ["go"])
        with pytest.MonkeyPatch.context() as patch:
            patch.setattr(report, "netrev_program", lambda: None)
            patch.setattr(report, "how_to_get_netrev", str)
            yield


def made_of(drawn_part: Drawn, symbols: Symbols) -> str:
    """Everything that is made from a part: the files and the report."""
    drawn = drawn_part
    with tempfile.TemporaryDirectory() as name, looked_up(symbols):
        folder = Path(name)
        go = Go("go", SOURCES.parent, "go1.27.3", "linux/amd64", "") if drawn.has_lines else None
        outcome = converted(
            ReadLog(Path("log.1"), drawn.log, drawn.tests), folder / "made.jsonl", go, drawn.wish, drawn.test
        )
        files = "".join(f"{path.name}:\n{path.read_text()}" for path in sorted(folder.iterdir()))
        text = "\n".join(outcome.lines).replace(f"{folder}/", "")
    return f"taken {outcome.taken}, empty {outcome.is_empty}\n{text}\n{files}"


def of_program(number: int) -> str:
    """The files made from a random program's log, except the answers: other tests compare these."""
    try:
        recording = make(log_of(program_of(str(number))), most=2 + number % 3, all_bytes=number % 2 == 0)
    except NothingRecordedError as fault:
        return str(fault)
    beside, everybody = recording.beside, recording.everybody
    parts = (
        recording.lines,
        recording.stacks,
        recording.notes,
        recording.times,
        recording.made,
        recording.ended,
        recording.words,
        recording.old_numbers,
        recording.numbers,
        recording.taken,
    )
    more = (
        recording.header,
        recording.goroutines,
        recording.sockets,
        recording.bytes,
        recording.prelude,
        recording.has_tags,
        recording.last_steps,
    )
    return "\n".join(map(str, (*more, *parts, beside.sizes, beside.errors, everybody.parks, everybody.held)))


def text_of(part: str) -> str:
    """Everything that is made from the part with this name."""
    sort, _, number = part.partition("-")
    if sort == "program":
        return of_program(int(number))
    log, symbols = stored_log()
    return made_of(drawn(log, int(number)), symbols)


def sum_of(part: str) -> str:
    return hashlib.sha256(text_of(part).encode()).hexdigest()[:16]


def parts() -> list[str]:
    return [*(f"log-{number}" for number in range(1, LOGS + 1)), *(f"program-{number}" for number in range(PROGRAMS))]


def test_the_whole_log_becomes_what_is_stored() -> None:
    assert text_of("log-0").splitlines() == STORED.read_text().splitlines()


@pytest.mark.parametrize("part", parts())
def test_a_part_becomes_what_is_stored(part: str) -> None:
    assert sum_of(part) == json.loads(SUMS.read_text())[part]


def main(words: list[str]) -> None:
    for word in words:
        print(text_of(word))
    if not words:
        STORED.write_text(text_of("log-0"))
        SUMS.write_text(json.dumps({part: sum_of(part) for part in parts()}, indent=0) + "\n")


if __name__ == "__main__":
    main(sys.argv[1:])
