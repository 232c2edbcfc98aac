"""Compares netrev with netrev_plain, whose world is made of lists, on the same recordings and lines: both must print
the same bytes. The name of each case begins with its kind:

    recording  each stored recording is checked, upgraded and walked in both directions
    bad        refused recordings, one for each fault in `tests/program/hostile.py`
    sizes      the greatest sizes of a recording, in few steps
    sides      a wait for writing without one for reading; and two firings, of which the second is run first, undone and run again
    random     random cases of the fuzzer: each cell at each position in both directions, random lines, damaged recordings, and
               upgrades. The options `--random N` and `--seed` of `pytest python/tests/program/agree.py` set the number of
               cases and the first seed

Both programs are proved against the same specification. These tests compare the compiled code of the two worlds: a
compiler's mistake in one of them shows as a difference.
"""

import os
import random
import re
import subprocess
from collections.abc import Sequence
from pathlib import Path

import pytest

from dev.fuzz.cases import SORTS, Made, large_buffers
from dev.fuzz.generators.lines import Speaker, every_cell
from netrev.text.contents import Step
from netrev.text.parser import read_text
from netrev.text.vocabulary import CELLS, KINDS

from .hostile import faulty_headers, faulty_lines, refused_steps, text_of, versions_and_answers
from .sizes import DESCRIPTORS, GOROUTINES, HEADER, PIECE, SOCKETS
from .support.sharing import NETREV, ROOT, expect, is_program
from .upgrades import RECORDINGS

PLAIN = os.path.abspath(os.environ.get("NETREV_PLAIN", ROOT / "crates/netrev_plain/out/netrev_plain"))
WAITS = 300  # seconds
SHORT = 300  # a recording with more steps isn't printed with its cells at each position
MANY = 1_000  # the number of random cases that have every kind of step and every cell
SHOWN = re.compile(rb"^(\w+)(?: \d+)? = ", re.MULTILINE)  # a line with a cell's value
RUN_ALONE = ("full_journal", "many_steps")  # kinds of cases that take long; program/sizes.py has them


def ended(program: str, words: Sequence[object], script: bytes) -> tuple[int, bytes]:
    """The status and the output of a program."""
    process = subprocess.run([program, *map(str, words)], input=script, capture_output=True, timeout=WAITS, check=False)
    return process.returncode, process.stdout


def agree(words: Sequence[object], script: bytes = b"") -> tuple[int, bytes]:
    """Checks that both programs print the same text and end with the same status, and returns both."""
    reply = ended(NETREV, words, script)
    expect("what the world of lists shows", reply, ended(PLAIN, words, script))
    return reply


def walk(steps: Sequence[Step], seed: str) -> bytes:
    """Lines that go to the end and back, followed by random lines."""
    return b"continue\nreverse-continue\n" + Speaker(random.Random(seed), steps).script(60)


@pytest.fixture(autouse=True)
def plain() -> None:
    """Fails, with the name of the missing program, unless both programs are built."""
    assert is_program(PLAIN), f"{PLAIN} is no program: `make agree` builds it, and NETREV_PLAIN=FILE names another"


@pytest.mark.parametrize("path", [pytest.param(path, id=f"recording {path.relative_to(ROOT)}") for path in RECORDINGS])
def test_recording(path: Path) -> None:
    status, _ = agree(["check", path])
    agree(["upgrade", path])
    if status:
        agree(["run", path], b"info position\n")
        return
    recording = read_text(path.read_bytes())
    agree(["run", path], walk(recording.steps, path.name))
    if len(recording.steps) <= SHORT:
        agree(["run", path], every_cell(recording.limits, len(recording.steps), True))


def bad_texts() -> list[bytes]:
    """The texts of the refused recordings in hostile.py."""
    rows = (*refused_steps(), *faulty_lines(), *faulty_headers(), *versions_and_answers())
    return [text_of(row.values[0]) for row in rows]


def test_bad(folder: Path) -> None:
    path = folder / "bad.jsonl"
    texts = bad_texts()
    assert len(texts) > 100
    for text in texts:
        path.write_bytes(text)
        for program in ("check", "upgrade", "run"):
            agree([program, path])


def sizes() -> list[str]:
    """Steps that open all sockets and descriptors, make goroutines up to the limit, set all deadlines, and fill the
    last socket's buffers and empty them."""
    last, full = SOCKETS - 1, "00" * PIECE
    steps = [f'["sockopen",{PIECE},{PIECE}]'] * SOCKETS + ['["spawn"]'] * (GOROUTINES - 1)
    steps += [f'["pollopen",0,{number}]' for number in range(DESCRIPTORS)]
    steps += [f'["setdeadline",0,{number},"rw",{number + 1}]' for number in range(DESCRIPTORS)]
    steps += [f'["arrive",{last},"{full}"]', f'["syswrite",0,{last},"{full}"]']
    return steps + [f'["sysread",0,{last},{PIECE}]', f'["drain",{last},{PIECE}]', '["tick",64]', '["pop"]']


@pytest.mark.long
def test_sizes(folder: Path) -> None:
    """Compares recordings with the most objects that version 1 allows, and with the largest buffers, which only version
    2 has."""
    path, last = folder / "greatest.jsonl", SOCKETS - 1
    path.write_text("\n".join((HEADER % (1, GOROUTINES, SOCKETS, DESCRIPTORS, PIECE), *sizes())) + "\n", "ascii")
    looks = f"print in {last}\nprint out {last}\nprint timers\nprint gor {GOROUTINES - 1}\n"
    script = f"stepi 999999\n{looks}reverse-stepi 3\n{looks}reverse-stepi\n{looks}reverse-continue\n{looks}"
    status, output = agree(["run", path], script.encode())
    assert status == 0 and f"in {last} = {PIECE}".encode() in output, "the buffers are full before the read"
    agree(["check", path])
    text, lines = large_buffers(random.Random(1))
    path.write_bytes(text)
    assert agree(["run", path], lines or b"")[0] == 0


# A program that confuses the two sides would show the wrong one of two semaphores, or would mistake another firing for
# the firing that was put back at the front.
SIDES = """{"netrev":1,"gor":4,"sock":2,"desc":2,"buf":16}
["spawn"]
["sockopen",16,16]
["sockopen",16,16]
["pollopen",0,0]
["pollopen",0,1]
["rwlock",0,0,"w"]
["rwlock",1,0,"w"]
["acquire",1]
["rwunlock",0,0,"w"]
["release",0]
["acquire",1]
["setdeadline",0,0,"r",5]
["setdeadline",0,1,"w",6]
["tick",10]
["pop"]
["pop"]
["fire",1]
["fire",0]
"""


def test_sides(folder: Path) -> None:
    path = folder / "sides.jsonl"
    path.write_text(SIDES, "ascii")
    recording = read_text(path.read_bytes())
    status, output = agree(["run", path], every_cell(recording.limits, len(recording.steps), True))
    assert status == 0 and b"wsem 0 = 1" in output and b"rsem 0 = 1" not in output
    # (a walk must begin at a query)
    again = b"stepi 18\nprint clock\nreverse-stepi 2\nprint clock\nstepi\nprint rd 0\n"
    assert agree(["run", path], again) == (0, b"at 18\nclock = 10\nat 16\nclock = 10\nat 17\nrd 0 = 5\n")


def case(seed: str) -> tuple[str, Made]:
    """The kind of a random case, and its parts."""
    dice = random.Random(seed)
    sorts = {sort: weight for sort, weight in SORTS.items() if sort.__name__ not in RUN_ALONE}
    sort = dice.choices(list(sorts), list(sorts.values()))[0]
    return sort.__name__, sort(dice)


def test_random(folder: Path, request: pytest.FixtureRequest) -> None:
    """Random cases. If a case differs, its seed is printed."""
    first, count = request.config.getoption("--seed"), request.config.getoption("--random")
    path = folder / "random.jsonl"
    kinds: set[str] = set()
    cells: set[str] = set()
    for seed in range(first, first + count):
        sort, (text, script) = case(f"agree {seed}")
        print(f"--seed {seed} --random 1: {sort}")
        path.write_bytes(text)
        status, _ = agree(["check", path])
        agree(["upgrade", path])
        _, output = agree(["run", path], script if script is not None else b"continue\nreverse-continue\n")
        if not status:
            kinds.update(step[0] for step in read_text(text).steps)
        cells.update(name.decode() for name in SHOWN.findall(output))
    if count >= MANY:
        expect("kinds that no case has", set(), set(KINDS) - kinds)
        expect("cells that no case shows", set(), {cell.name for cell in CELLS.values()} - cells)
