"""Tests `netrev suspects` with the built program. The name of each case begins with its kind:

    stored     the output for six recordings is compared with stored lines: the recordings of each hunt, a recording with an
               answer that isn't the machine's, and a recording with a faulty line
    refused    faults, usage errors and a missing file: the statuses equal those of `check`
    recording  the lines for each stored recording equal those of the naive implementation (netrev/model/suspects.py)
    row        the small recordings at the boundaries of the definitions (tests/machine/test_suspect_lines.py)
    bad        the recordings in hostile.py that netrev refuses: the only line equals that of `check`
    traffic    a recording of each bug that the fuzzer plants
    greatest   a million steps, most of which end a call, with the greatest numbers
    random     random recordings, many of which end while a goroutine is parked. The gate runs 300 of them; 2,000 take a few
               minutes:

        NETREV=FILE sh scripts/pytest.sh python/tests/program/suspects.py -k random --random 2000
"""

import random
from pathlib import Path

import pytest

from dev.fuzz.generators.injections import Bug, Traffic
from netrev.machine.observer import Observer
from netrev.model.program import printed
from netrev.model.suspects import HUNTS
from netrev.text.writer import write_plain
from tests.machine.test_suspect_lines import ALL as ROWS
from tests.machine.test_suspect_lines import random_recording, random_waits, text_of

from .agree import bad_texts
from .support.sharing import ROOT, expect
from .upgrades import RECORDINGS, USAGE, ended, played

IN_THE_GATE = 300  # how many random recordings the gate runs
LOST, LEAKED, STALE, FIRED, ANSWERS, OTHER = (
    ROOT / f"{name}.jsonl"
    for name in (
        "examples/lost-wakeup",
        "examples/leaked-reference",
        "examples/stale-deadline",
        "scripts/recordings/deadline-set-between-pop-and-fire",
        "examples/answers",
        "examples/other-answer",
    )
)
# a recording, the status, and the lines of one hunt
STORED = (
    (
        LOST,
        0,
        b"at 22 lost-wakeup gor 0 desc 0 r event 16 taken 18 by 0\nat 22 asleep gor 0 desc 0 r because bytes\nok 22 steps\n",
    ),
    (LEAKED, 0, b"at 19 held-reference sock 0 gor 2 count 1 since 5\nok 19 steps\n"),
    (
        STALE,
        0,
        b"at 22 passed-deadline desc 0 r set 17 by 0 r\nat 24 timeout gor 1 desc 0 r set 17 by 0 r\nok 25 steps\n",
    ),
    (FIRED, 0, b"at 9 passed-deadline desc 0 w set 3 by 0 rw moved 6 by 0\nok 9 steps\n"),
    (ANSWERS, 0, b"ok 12 steps\n"),
    (OTHER, 1, b"step 11: fault 109 answer\n"),
)
# the arguments, the status, the output, and the text on standard error
REFUSED = (
    ("no file named", ["suspects"], 2, b"", USAGE),
    ("two files", ["suspects", LOST, LOST], 2, b"", USAGE),
    ("an option of serve", ["suspects", LOST, "--port"], 2, b"", USAGE),
    ("a capital", ["Suspects", LOST], 2, b"", USAGE),
    ("the word's beginning", ["suspect", LOST], 2, b"", USAGE),
    ("no such file", ["suspects", "no such file"], 3, b"", b""),
    ("a folder", ["suspects", "/"], 3, b"", b""),
    ("nothing in it", ["suspects", "/dev/null"], 1, b"line 1: fault 101 header\n", b""),
)


def compare(path: Path) -> list[bytes]:
    """Checks that the output for a recording is that of the naive implementation, and returns the lines about
    suspects."""
    right = printed("suspects", path.read_bytes(), b"", Observer())
    assert right is not None, "the model has an opinion on each recording that is here"
    played(["suspects", path], right.status, right.output)
    return right.output.splitlines()[:-1]


@pytest.mark.parametrize("path", [pytest.param(path, id=f"recording {path.relative_to(ROOT)}") for path in RECORDINGS])
def test_recording(path: Path) -> None:
    compare(path)


@pytest.mark.parametrize("hunt", ROWS)
def test_row(folder: Path, hunt: str) -> None:
    path = folder / "recording.jsonl"
    for name, (steps, lines) in ROWS[hunt].items():
        print(f"{hunt}: {name}")
        path.write_bytes(text_of(steps))
        expect(
            "lines",
            [line.encode() for line in lines],
            [line for line in compare(path) if line.split()[2].decode() == hunt],
        )


def test_bad(folder: Path) -> None:
    path = folder / "bad.jsonl"
    for text in bad_texts():
        path.write_bytes(text)
        expect("what `check` prints", ended(["check", path]), ended(["suspects", path]))


@pytest.mark.parametrize("bug", [pytest.param(bug, id=f"traffic: {bug.value}") for bug in Bug])
def test_traffic(folder: Path, bug: Bug) -> None:
    path = folder / "traffic.jsonl"
    path.write_bytes(Traffic(100, bug, 800).run().text())
    compare(path)


@pytest.mark.long
def test_random(folder: Path, request: pytest.FixtureRequest) -> None:
    """Random recordings; their lines must include some lines of each hunt."""
    path, listed = folder / "random.jsonl", dict.fromkeys(HUNTS, 0)
    for seed in range(max(IN_THE_GATE, request.config.getoption("--random"))):
        print(f"seed {seed}")
        dice = random.Random(f"suspects {seed}")
        path.write_bytes(write_plain(random_waits(dice) if seed % 3 == 0 else random_recording(dice)))
        for line in compare(path):
            listed[line.split()[2].decode()] += 1
    assert min(listed.values()) > IN_THE_GATE // 20, listed


@pytest.mark.parametrize("path, status, right", [pytest.param(*row, id=f"stored: {row[0].stem}") for row in STORED])
def test_stored(path: Path, status: int, right: bytes) -> None:
    played(["suspects", path], status, right)


@pytest.mark.parametrize(
    "words, status, output, errors", [pytest.param(*row, id=f"refused: {what}") for what, *row in REFUSED]
)
def test_refused(words: list[object], status: int, output: bytes, errors: bytes) -> None:
    played(words, status, output, errors)


GREATEST = '{"buf":65536,"desc":256,"gor":4096,"netrev":1,"sock":256}\n'
MOST_STEPS = 1_000_000


@pytest.mark.long
def test_greatest_numbers(folder: Path) -> None:
    """The last possible goroutine, socket and descriptor are listed like any others, with steps up to the last possible
    step."""
    path = folder / "greatest.jsonl"
    steps = ['["spawn"]'] * 4_095 + ['["sockopen",16,16]'] * 256 + [f'["pollopen",0,{s}]' for s in range(256)]
    event = len(steps) + 1
    steps += ['["pollevent",255,1,"r",0]', '["pollreset",4095,255,"r"]', '["setdeadline",4094,255,"w",-1]']
    steps += [
        '["waitbegin",4095,255,"r"]',
        '["blockarm",4095]',
        '["blockcheck",4095]',
        '["parkcommit",4095]',
        '["peerclose",255]',
    ]
    steps += ['["incref",4094,255]', '["increfclose",4093,255]']
    held = len(steps)
    timeouts = range(held + 1, MOST_STEPS + 1)
    steps += ['["pollreset",4094,255,"w"]'] * len(timeouts)
    path.write_text(GREATEST + "\n".join(steps) + "\n")
    set_by = f"desc 255 w set {event + 2} by 4094 w"
    right = [f"at {n} timeout gor 4094 {set_by}" for n in timeouts]
    right += [
        f"at {MOST_STEPS} lost-wakeup gor 4095 desc 255 r event {event} taken {event + 1} by 4095",
        f"at {MOST_STEPS} asleep gor 4095 desc 255 r because end",
        f"at {MOST_STEPS} held-reference sock 255 gor 4093 count 1 since {held}",
        f"at {MOST_STEPS} held-reference sock 255 gor 4094 count 1 since {held - 1}",
        f"ok {MOST_STEPS} steps",
    ]
    played(["suspects", path], 0, "".join(f"{line}\n" for line in right).encode())
