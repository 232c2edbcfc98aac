"""The model gives the stored answers for the examples, and reads JSON as strictly as RECORDING.md requires."""

from pathlib import Path

import pytest

from dev.fuzz.__main__ import seeds
from dev.fuzz.cases import Case, make
from dev.fuzz.counts import Met
from dev.fuzz.runs import wanted
from netrev.text.jsontext import DoubtfulNumberError, NotJsonError, read_json
from tests.support.examples import REFUSED

ROOT = Path(__file__).resolve().parents[3]
EXAMPLES = ROOT / "examples"
DIFFERS = f"step {REFUSED['other-answer']}: fault 109 answer\n".encode()


def test_the_examples_are_answered_as_they_are_stored():
    names = sorted(path.stem for path in EXAMPLES.glob("*.jsonl"))
    assert len(names) >= 10
    for name in names:
        recording, script, replies = (
            (EXAMPLES / f"{name}.{ending}").read_bytes() for ending in ("jsonl", "script", "replies")
        )
        status = int(replies.startswith(b"step "))
        assert wanted(Case("", "", "run", recording, script), Met()) == (status, replies, ""), name


def test_an_upgrade_is_as_it_is_stored():
    answers, other = ((EXAMPLES / f"{name}.jsonl").read_bytes() for name in ("answers", "other-answer"))
    older = (ROOT / "scripts/recordings/woken-by-an-event.jsonl").read_bytes()
    for recording, status, output in ((older, 0, answers), (answers, 0, answers), (other, 1, DIFFERS)):
        assert wanted(Case("", "", "upgrade", recording), Met()) == (status, output, "")


def test_a_second_upgrade_changes_nothing():
    upgraded = 0
    for case in map(make, seeds("upgrades", 60)):
        once = wanted(case._replace(program="upgrade"), Met())
        if once and once.status == 0:
            upgraded += 1
            assert wanted(case._replace(program="upgrade", recording=once.output), Met()) == once
    assert upgraded > 20


def test_json_is_read_strictly():
    good = [b'"\\ud83d\\ude00"', b"1e300", b"-9223372036854775808", b"[" * 127 + b"]" * 127, b' {"a":1,"a":2}\r']
    good += [b"0e99999999", b"1e-9999999999999999999999"]
    bad = [
        b"1e999", b"-1E9999999", b"1e9999999999999999999999", b"9" * 400, b'"\\ud800"', b'{"\\udc00":1}',
        b'[{"a":"\\ud800"}]', b"NaN", b"01", b"\xff",
    ]  # fmt: skip
    bad += [b"[" * 128 + b"]" * 128, b"1 2", b"'a'", b'"\t"', b"\xef\xbb\xbf1", b""]
    for line in good:
        read_json(line)
    for line in bad:
        with pytest.raises(NotJsonError):
            read_json(line)
    with pytest.raises(DoubtfulNumberError):
        read_json(b"1.79769313486231581e308")
