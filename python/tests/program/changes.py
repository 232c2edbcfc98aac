"""Tests `netrev changes` with the built program. The name of each case begins with its kind:

    stored     the changes of three recordings are compared with stored lines. If a recording has an answer that isn't the
               machine's, only the changes before that answer are printed
    refused    faults, usage errors and a missing file: the statuses equal those of `check`
    recording  the lines for each stored recording equal those of the fuzzer's model (python/netrev/machine), and, if the
               recording is short, those that follow from `print` for each cell at each position
    random     random recordings are tested in the same way; the option `--random N` of
               `pytest python/tests/program/changes.py` sets their number
"""

import random
from pathlib import Path

import pytest

from dev.fuzz.generators.random_steps import Author
from netrev.machine.observer import Observer
from netrev.model.program import printed
from netrev.text.contents import Contents
from netrev.text.parser import read_text
from netrev.text.vocabulary import CELLS, ObjectKind
from netrev.text.writer import write_plain

from .support.sharing import ROOT, expect
from .upgrades import RECORDINGS, USAGE, ended, played

SHORT = 300  # in recordings with at most this many steps, the cells are printed at each position
MADE_BY = {ObjectKind.GOROUTINE: "spawn", ObjectKind.SOCKET: "sockopen", ObjectKind.DESCRIPTOR: "pollopen"}

READS = ROOT / "scripts/recordings/woken-by-an-event.jsonl"
SHUT = ROOT / "examples/shut-write-side.jsonl"
OTHER = ROOT / "examples/other-answer.jsonl"

MADE = b"1 lock 0 = 0\n1 rsem 0 = 0\n1 wsem 0 = 0\n1 in 0 = 0\n1 out 0 = 0\n1 shut 0 = 0\n"
OPENED = (
    b"2 rg 0 = nil\n2 wg 0 = nil\n2 rd 0 = 0\n2 wd 0 = 0\n2 rseq 0 = 1\n2 wseq 0 = 1\n2 fdseq 0 = 1\n2 info 0 = 0\n"
)
PARKED = (
    b"3 lock 0 = 10\n4 gor 0 = entering 0 r\n5 gor 0 = armed 0 r\n5 rg 0 = wait\n6 gor 0 = parking 0 r\n7 waiters = 1\n"
    b"7 gor 0 = parked 0 r\n7 rg 0 = g0\n"
)
WOKEN = b"8 in 0 = 2\n9 waiters = 0\n9 gor 0 = swapping 0 r\n9 rg 0 = ready\n10 gor 0 = idle\n10 rg 0 = nil\n"
# a recording, the status, and the lines
STORED = (
    (SHUT, 0, MADE + b"2 out 0 = 2\n3 shut 0 = 1\n5 out 0 = 0\nok 5 steps\n"),
    (READS, 0, MADE + OPENED + PARKED + WOKEN + b"11 in 0 = 0\n12 lock 0 = 0\nok 12 steps\n"),
    (OTHER, 1, MADE + OPENED + PARKED + WOKEN + b"step 11: fault 109 answer\n"),
)

# the arguments, the status, standard output, and standard error
REFUSED = (
    ("no file named", ["changes"], 2, b"", USAGE),
    ("two files", ["changes", READS, READS], 2, b"", USAGE),
    ("an option of serve", ["changes", READS, "--port"], 2, b"", USAGE),
    ("a capital", ["Changes", READS], 2, b"", USAGE),
    ("no such file", ["changes", "no such file"], 3, b"", b""),
    ("a folder", ["changes", "/"], 3, b"", b""),
    ("nothing in it", ["changes", "/dev/null"], 1, b"line 1: fault 101 header\n", b""),
)


def cells_of(recording: Contents) -> list[str]:
    """The cells of all objects at the end, in the order of docs/reference/COMMANDS.md."""
    kinds = [step[0] for step in recording.steps]
    counts = {of: kinds.count(kind) + (of is ObjectKind.GOROUTINE) for of, kind in MADE_BY.items()}
    return [
        cell.name if cell.of is ObjectKind.ALL else f"{cell.name} {number}"
        for cell in CELLS.values()
        for number in range(1 if cell.of is ObjectKind.ALL else counts[cell.of])
    ]


def changes_by_prints(path: Path, recording: Contents) -> bytes:
    """The lines that follow from the printed values at each position, and the last line."""
    cells = cells_of(recording)
    prints = "".join(f"print {cell}\n" for cell in cells)
    script = prints + f"stepi\n{prints}" * len(recording.steps)
    status, output, errors = ended(["run", path], script.encode())
    expect("status and errors", (0, b""), (status, errors))
    lines = output.decode().splitlines()
    shown, changes = lines[: len(cells)], ""
    for step in range(1, len(recording.steps) + 1):
        at, *now = lines[step * (len(cells) + 1) - 1 : (step + 1) * (len(cells) + 1) - 1]
        expect("where it is", f"at {step}", at.removesuffix(" end"))
        changes += "".join(f"{step} {new}\n" for old, new in zip(shown, now) if old != new)
        shown = now
    return f"{changes}ok {len(recording.steps)} steps\n".encode()


def compare(path: Path) -> None:
    """Checks that the lines for a recording are the model's and that, for a short recording, they follow from the
    printed values."""
    text = path.read_bytes()
    right = printed("changes", text, b"", Observer())
    assert right is not None, "the model has an opinion on each recording that is here"
    played(["changes", path], right.status, right.output)
    recording = read_text(text)
    if right.status == 0 and len(recording.steps) <= SHORT:
        expect("the lines by prints", changes_by_prints(path, recording), right.output)


@pytest.mark.parametrize("path", [pytest.param(path, id=f"recording {path.relative_to(ROOT)}") for path in RECORDINGS])
def test_recording(path: Path) -> None:
    compare(path)


def test_random(folder: Path, request: pytest.FixtureRequest) -> None:
    """Random recordings, first with the least limits and then with larger limits."""
    for seed in range(request.config.getoption("--random")):
        dice = random.Random(f"changes {seed}")
        recording, _ = Author(dice).recording(dice.choice([3, 12, 40, 120]))
        path = folder / f"{seed}.jsonl"
        path.write_bytes(write_plain(recording))
        compare(path)


@pytest.mark.parametrize("path, status, right", [pytest.param(*row, id=f"stored: {row[0].stem}") for row in STORED])
def test_stored(path: Path, status: int, right: bytes) -> None:
    played(["changes", path], status, right)


@pytest.mark.parametrize(
    "words, status, output, errors", [pytest.param(*row, id=f"refused: {what}") for what, *row in REFUSED]
)
def test_refused(words: list[object], status: int, output: bytes, errors: bytes) -> None:
    played(words, status, output, errors)
