"""The hunts of examples/hunts and examples/real, and two long generated hunts: `info suspects`, and the command that it
suggests, find each bug that a rule knows, and print the stored text. A recording with an answer that differs from the
machine's is refused, and nrdb explains why."""

import json
import tempfile
from pathlib import Path

from dev.fuzz.generators.long_hunts import hunt_of
from tests.support.examples import KNOWN, REFUSED

from .common.support import EXAMPLES, HUNTS, nrdb, nrdb_process

MOST = 5
LONG = {"keeper": 50_000, "refused": 500_000}  # the steps, or a few more, until everything that can end has ended


def test_each_prints_what_is_kept():
    hunts = sorted(EXAMPLES.glob("*/*.nrdb"))
    assert len(hunts) >= 8
    for hunt in hunts:
        assert len(hunt.read_text().splitlines()) <= MOST, hunt.stem
        kept = hunt.with_suffix(".session").read_text()
        name = str(hunt.relative_to(EXAMPLES).with_suffix(""))
        runs = nrdb_process("--batch", "-x", hunt, hunt.with_suffix(".jsonl"))
        assert runs == (kept, "", int(name in REFUSED)), hunt.stem


def test_those_that_a_rule_knows_take_the_line_that_it_says():
    hunts = [EXAMPLES / f"{name}.nrdb" for name in KNOWN if "/" in name]
    hunts += [HUNTS / "made" / f"{name}.nrdb" for name in LONG]
    assert len(hunts) >= 11
    for hunt in hunts:
        first, second = hunt.read_text().splitlines()
        kept = hunt.with_suffix(".session").read_text().splitlines()
        assert first == "info suspects", hunt.stem
        assert next(line for line in kept if "next:" in line) == f"|    next:   {second}", hunt.stem


def test_the_long_ones_print_what_is_kept(folder):
    for name, length in LONG.items():
        path, hunt = folder / f"{name}.jsonl", HUNTS / "made" / f"{name}.nrdb"
        program = hunt_of(name, length)
        path.write_bytes(program.text())
        assert program.planted
        goroutine, socket = program.planted
        kept = hunt.with_suffix(".session").read_text()
        assert nrdb("--batch", "-x", hunt, path) == kept, name
        first = next(line for line in kept.splitlines() if line.startswith("| 1. "))
        assert f"goroutine {goroutine}" in first, name
        assert (f"socket {socket}" if name == "refused" else f"descriptor {program.descriptors[socket]}") in first, name


def test_the_early_arrival_without_answers_and_at_its_place():
    header, *lines = (HUNTS / "early-arrival.jsonl").read_text().splitlines()
    plain = [json.dumps(json.loads(line)[:-1]) for line in lines]
    moved = lines[:976] + lines[977:] + [lines[976]]
    unread = "socket 3, whose input holds 12 bytes unread"
    first = header.replace('"netrev":2', '"netrev":1')
    for text, has_unread in (([first, *plain], False), ([header, *moved], True)):
        with tempfile.TemporaryDirectory() as folder:
            file = Path(folder) / "other.jsonl"
            file.write_text("".join(f"{line}\n" for line in text))
            output = nrdb("--batch", "-ex", "continue", "-ex", "info goroutines 4", file)
        assert "gor 4    parked 3 r" in output
        assert (unread in output) == has_unread
