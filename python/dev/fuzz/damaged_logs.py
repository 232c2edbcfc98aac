"""Cases for the reader of logs: a real program's log with changed fields, in another order, mixed with another log, or
with damaged bytes, and with any lines of tests beside it. The result must be a recording or an error message, in a
process with little memory and time."""

import contextlib
import io
import json
import os
import random
import resource
import signal
import struct
import tempfile
from functools import lru_cache
from pathlib import Path
from xml.etree import ElementTree

from netrev.recording.where import SourceLines
from netrev_go.log.logfile import HEADER_BYTES, NotALogError, read_log
from netrev_go.log.points import KINDS, Log, Point
from netrev_go.log.tests_in_log import ENDING, Tests, of_log
from netrev_go.steps import forms, report
from netrev_go.steps.conversion import ReadLog, RecordingOptions, convert, converted
from netrev_go.steps.forms import TestResult
from netrev_go.steps.report import Conversion

from .generators.damage import damaged
from .generators.logs import STACKS, binary, from_text

EXAMPLES = Path(__file__).resolve().parents[3] / "examples"
MEMORY, SECONDS = 2 * 2**30, 40  # bytes of memory and seconds of processor time for a case
ASKED = 0.05  # netrev takes longest, so it runs in only this fraction of the cases
GREATEST = 100 * 2**20  # bytes in a recording
RING = HEADER_BYTES + STACKS * 256
SIDES = (ord("r"), ord("w"), ord("r") + ord("w"))
SMALL = (*range(11), 16, 100, 1_000, 5_000, 65_536, 100_000, 1_000_000, *SIDES)
LIMITS = (
    0,
    1,
    -1,
    255,
    4_096,
    65_535,
    65_536,
    2**20,
    2**24,
    2**30,
    2**31,
    2**40,
    2**53,
    2**62,
    2**63 - 1,
    -(2**63),
    *SIDES,
)
HEADER_WORDS = (*(value % 2**64 for value in LIMITS), 2**64 - 1, 2**14, 2**24 + 1, 2**20 + 1, 100)

WHAT = ("package", "runs", "runs", "ends", "fails", "fails", "skips", "sleeps", "")
NAMES = (
    "TestA",
    "TestA/part",
    "TestA/part/1",
    "TestB",
    "",
    "\x1b[2J",
    "\u202e",
    "</failure>",
    "::error::%0A",
    "a b",
    "\t",
    "x" * 300,
)
PLACES = ("a_test.go:7", "/else/a_test.go:31", "", ":", "a:b", "a,b:1.go:2", "\x1b:5", "a.go:99999999999")
TESTS = 3  # the number of tests of a case from which recordings are made

Points = list[Point]


@lru_cache(maxsize=1)
def logs() -> list[tuple[bytes, Log]]:
    """The stored logs of real programs."""
    found = []
    with tempfile.TemporaryDirectory() as folder:
        path = Path(folder, "log.1")
        for stored in sorted((*EXAMPLES.glob("real/*.log"), *EXAMPLES.glob("races/*.log"))):
            data, _ = from_text(stored.read_text(encoding="ascii"))
            path.write_bytes(data)
            found.append((data, read_log(path)))
    return found


def changed_fields(dice: random.Random, points: Points) -> Points:
    """Points whose fields have other values, with correct checksums."""
    values = dice.choice([SMALL, LIMITS])
    for _ in range(dice.choice([1, 1, 2, 3, 10])):
        at = dice.randrange(len(points))
        name = dice.choice(["kind", "goroutine", "at", "a", "b", "c", "time", "stack"])
        value = dice.choice(values)
        if name == "kind":
            value = dice.choice(sorted(KINDS))
        elif name == "stack":
            value = abs(value) % 2**32
        elif name == "at" and dice.random() < 0.8:
            value = dice.choice(points).at
        elif dice.random() < 0.3:
            value = max(-(2**63), min(getattr(points[at], name) + dice.choice([1, -1, 2]), 2**63 - 1))
        points[at] = points[at]._replace(**{name: value})
    return points


def other_order(dice: random.Random, points: Points) -> Points:
    """Points that were swapped, omitted, duplicated, moved or cut off."""
    for _ in range(dice.choice([1, 1, 2, 3])):
        at, other = dice.randrange(len(points)), dice.randrange(len(points))
        how = dice.randrange(5)
        if how == 0:
            points[at], points[other] = points[other], points[at]
        elif how == 1:
            points = points[:at] + points[at + dice.choice([1, 3, 20]) :] or points
        elif how == 2:
            points = [*points[:at], points[other], *points[at:]]
        else:
            points = points[at:] if how == 3 else points[: at + 1]
    return points


def mixed(dice: random.Random, points: Points) -> Points:
    """These points, mixed with points of another program."""
    at, others = dice.randrange(len(points)), dice.choice(logs())[1].points
    first = dice.randrange(len(others))
    return [*points[:at], *others[first : first + dice.choice([1, 5, 50])], *points[at:]]


def other_header(dice: random.Random, data: bytearray) -> bytearray:
    """A header with other values; the log may be cut off, or have holes after its end."""
    for _ in range(dice.choice([1, 1, 2, 3])):
        struct.pack_into("<Q", data, 8 * dice.randrange(12), dice.choice(HEADER_WORDS))
    return data[: dice.randrange(len(data))] if dice.random() < 0.2 else data


def damaged_bytes(dice: random.Random, data: bytearray) -> bytearray:
    """Bytes that were changed, zeroed, lost, inserted or moved."""
    for _ in range(dice.choice([1, 1, 2, 5, 30])):
        at, size = dice.randrange(len(data)), dice.choice([1, 8, 64, 512, 4_096])
        place, other = (RING + 64 * dice.randrange((len(data) - RING) // 64 or 1) for _ in range(2))
        how = dice.randrange(7)
        if how == 0:
            data[at] ^= 1 << dice.randrange(8)
        elif how == 1:
            data[at : at + size] = dice.choice([b"\0", b"\xff"]) * len(data[at : at + size])
        elif how == 2:
            del data[at : at + size]
        elif how == 3:
            data[at:at] = dice.randbytes(size)
        elif how == 4 and len(data) > RING + 64:
            data[place] ^= 1 << dice.randrange(8)
        elif how == 5:
            data[place : place + 64] = data[other : other + 64]
        if len(data) < RING + 200:
            break
    return data


OF_POINTS = (changed_fields, changed_fields, other_order, mixed)
OF_BYTES = (other_header, damaged_bytes)


def log_of(seed: str) -> bytes:
    """The log of a seed."""
    dice = random.Random(seed)
    data, log = dice.choice(logs())
    if dice.random() < 0.35:
        return bytes(dice.choice(OF_BYTES)(dice, bytearray(data)))
    points = dice.choice(OF_POINTS)(dice, list(log.points))
    numbered = [point._replace(number=number) for number, point in enumerate(points)]
    content = bytearray(binary(numbered, log.stacks, log.begin, room=len(numbered) + 5))
    struct.pack_into("<Q", content, 11 * 8, dice.randrange(2))  # whether the log has the program's orders
    return bytes(content)


def tests_of(seed: str) -> bytes:
    """The text of a LOG.tests file, made from a seed. Its lines are well formed, or some bytes are damaged."""
    dice = random.Random(f"{seed} tests")
    numbers = ("0", "1", "9", "20", "100", "1000", str(2**63), "9" * 30, "-1", "")
    lines = ["1 1 5 package example.org/p"] * dice.randrange(2)
    for _ in range(dice.choice([0, 1, 4, 30])):
        numbered = " ".join(dice.choice(numbers[: dice.choice([5, 5, 5, len(numbers)])]) for _ in range(3))
        place = f"\t{dice.choice(PLACES)}" * dice.randrange(2)
        lines.append(f"{numbered} {dice.choice(WHAT)} {dice.choice(NAMES)}{place}")
    data = "".join(f"{line}\n" for line in lines).encode()
    return damaged(dice, data) if lines and dice.random() < 0.3 else data


def wrong(seed: str, folder: Path) -> str:
    """The fault in the result of converting a seed's log; empty if the result is right."""
    reading, writing = os.pipe()
    process = os.fork()
    if process == 0:
        fault = "it ended by itself"
        try:
            os.close(reading)
            fault = confined(seed, folder)
        finally:
            os.write(writing, fault.encode())
            os._exit(0)
    os.close(writing)
    with open(reading, encoding="utf-8") as stream:
        fault = stream.read()
    status = os.waitstatus_to_exitcode(os.waitpid(process, 0)[1])
    return fault if status == 0 else f"it ended with status {status}: more than {SECONDS} s, or memory"


def confined(seed: str, folder: Path) -> str:
    """The fault, found in a separate process with little time and little additional memory."""
    held = int(Path("/proc/self/statm").read_text(encoding="utf-8").split()[0]) * resource.getpagesize()
    resource.setrlimit(resource.RLIMIT_AS, (held + MEMORY, held + MEMORY))
    resource.setrlimit(resource.RLIMIT_CPU, (SECONDS, SECONDS))
    signal.signal(signal.SIGXCPU, signal.SIG_DFL)
    if random.Random(f"{seed} netrev").random() > ASKED:
        report.netrev_program = lambda: None
    log, name = folder / "log.1", folder / "made.jsonl"
    try:
        log.write_bytes(log_of(seed))
        log.with_name(log.name + ENDING).write_bytes(tests_of(seed))
        with contextlib.redirect_stdout(io.StringIO()), contextlib.redirect_stderr(io.StringIO()):
            fault = recording_wrong(convert(log, name, None, RecordingOptions()), name)
            return fault or tests_wrong(log, of_log(log), folder)
    except BaseException as failed:
        return repr(failed) or "it failed"


def recording_wrong(outcome: Conversion, name: Path) -> str:
    """The fault of a recording, its lines, and its report."""
    if name.exists() and name.stat().st_size > GREATEST:
        return f"the recording has {name.stat().st_size} bytes"
    if not all(line.isprintable() for line in outcome.lines):
        return f"the output may contain terminal controls: {outcome.lines!r}"
    if name.exists() and (fault := SourceLines.beside(str(name), name.read_bytes().count(b"\n") - 1).fault):
        return f"nrdb doesn't take its lines: {fault}"
    return "" if outcome.lines else "nothing is said"


def tests_wrong(log: Path, tests: Tests, folder: Path) -> str:
    """The fault of the recordings of a log's tests, or of the machine-readable outputs."""
    results = [TestResult(test.package, test.name) for test in tests.ran]
    for result, test in zip(results, tests.ran):
        result.add(test)
    try:
        read = ReadLog(log, read_log(log), tests)
    except NotALogError:
        return ""
    for at, test in enumerate(tests.ran[:TESTS]):
        name = folder / f"test-{at}.jsonl"
        outcome = converted(read, name, None, RecordingOptions(), test)
        results[at].report(outcome)
        if fault := recording_wrong(outcome, name):
            return f"test {at}: {fault}"
    return forms_wrong(results)


def forms_wrong(results: list[TestResult]) -> str:
    """What is wrong with the machine-readable outputs: an output lacks a test or has it twice, or an annotation has the
    wrong form."""
    if [json.loads(line)["test"] for line in forms.json_lines(results).splitlines()] != [
        result.test for result in results
    ]:
        return "the lines of JSON aren't the tests"
    if sum(1 for _ in ElementTree.fromstring(forms.junit(results)).iter("testcase")) != len(results):
        return "the cases of JUnit aren't the tests"
    if not all(line.startswith("::error ") and line.isprintable() for line in forms.github_lines(results)):
        return "a GitHub annotation has more than one line, or the wrong form"
    return ""
