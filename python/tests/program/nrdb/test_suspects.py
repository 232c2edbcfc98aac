"""`info suspects` with netrev: the rules use netrev's answers about the examples and about traffic with planted bugs,
which netrev accepts. The exit status of `--suspects` says whether there are suspects."""

import json
import re
import subprocess
from pathlib import Path
from typing import Any

import pytest

from dev.fuzz.generators.injections import Bug, Traffic
from netrev.model.suspects import HELD_REFERENCE, HUNTS, LOST_WAKE_UP, PASSED_DEADLINE
from tests.program.support.sharing import NETREV
from tests.support.examples import KNOWN, REFUSED
from tests.suspects.test_suspects import PAIRS, recording_of

from .common.support import EXAMPLES, nrdb, nrdb_process

DOUBT = "take care"
SOME = 4
SEED = 100


# examples for which netrev lists one suspect
LISTED = {
    "lost-wakeup": LOST_WAKE_UP,
    "leaked-reference": HELD_REFERENCE,
    "real/lost": LOST_WAKE_UP,
    "real/leak": HELD_REFERENCE,
    "real/hijacked": PASSED_DEADLINE,
}
LINE = re.compile(rf"at \d+ (?:{'|'.join(HUNTS)}) [^;]*; ")


def printed(program: str, path: Path) -> str:
    """netrev's output for a file."""
    return subprocess.run([NETREV, program, path], capture_output=True, text=True, timeout=60, check=False).stdout


def checked(path: Path) -> str:
    """The output of `netrev check` for a file."""
    return printed("check", path)


@pytest.fixture
def path(folder: Path) -> Path:
    return folder / "recording.jsonl"


@pytest.mark.parametrize("name, rule", KNOWN.items())
def test_netrev_answers_what_the_rules_reckon_with(name: Any, rule: Any) -> None:
    output = nrdb("--suspects", EXAMPLES / f"{name}.jsonl", status=SOME)
    assert f"| 1. {rule}: " in output
    assert "|    netrev: at " in output
    assert DOUBT not in output


def test_recordings_of_a_rule_are_accepted_and_answered_so(path: Path) -> None:
    for rule, pair in PAIRS.items():
        for steps, status in ((pair.bad, SOME), (pair.good, 0)):
            path.write_bytes(recording_of(steps).data)
            assert checked(path) == f"ok {len(steps)} steps\n", (rule, status)
            assert DOUBT not in nrdb("--suspects", path, status=status), (rule, status)


def test_planted_bugs_are_runs_of_the_machine(path: Path) -> None:
    for bug in (None, *Bug):
        traffic = Traffic(SEED, bug).run()
        path.write_bytes(traffic.text())
        assert checked(path) == f"ok {len(traffic.steps)} steps\n", bug.value if bug else "nothing"
        output = nrdb("--suspects", path, status=SOME if traffic.symptom() else 0)
        assert DOUBT not in output, bug.value if bug else "nothing"


def test_is_one_object_each_in_json() -> None:
    output = nrdb("--json", "-ex", "info suspects", "--batch", EXAMPLES / "lost-wakeup.jsonl")
    table = next(event for event in map(json.loads, output.splitlines()) if event["event"] == "table")
    (suspect,) = table["rows"]
    assert (suspect["rule"], suspect["step"]) == ("lost wake-up", 18)
    lines = "at 22 lost-wakeup gor 0 desc 0 r event 16 taken 18 by 0", "at 22 asleep gor 0 desc 0 r because bytes"
    assert suspect["netrev"] == [*lines, "at 17 rg 0 = ready", "at 18 rg 0 = nil"]
    assert suspect["looks"] == ["goto 17", "history rg 0"]


@pytest.mark.parametrize("name, hunt", LISTED.items())
def test_the_lines_of_netrev_s_list_are_as_it_printed_them(name: Any, hunt: Any) -> None:
    path = EXAMPLES / f"{name}.jsonl"
    (line,) = [line for line in printed("suspects", path).splitlines() if line.split()[2] == hunt]
    assert f"|    netrev: {line}; at " in nrdb("--suspects", path, status=SOME)


def test_an_older_netrev_has_no_list_and_the_same_suspects(path: Path) -> None:
    older = path.parent / "netrev"
    older.write_text(
        f"""#!/bin/sh
if [ "$1" = suspects ]; then echo usage >&2; exit 2; fi
exec '{NETREV}' "$@"
"""
    )
    older.chmod(0o755)
    for name in LISTED:
        recording = EXAMPLES / f"{name}.jsonl"
        now, before = (nrdb(*words, "--suspects", recording, status=SOME) for words in ((), ("--netrev", older)))
        assert LINE.sub("", now) == before, name
        assert DOUBT not in before, name


def test_the_session_stays_where_it_is() -> None:
    output = nrdb(
        "-ex",
        "stepi 5",
        "-ex",
        "info suspects",
        "-ex",
        "info position",
        "--batch",
        EXAMPLES / "past-deadline.jsonl",
    )
    assert "at 5 of 21 forward" in output.splitlines()[-1]


def test_says_so_where_there_is_none_or_no_recording() -> None:
    assert "| no suspect\n" in nrdb("--suspects", EXAMPLES / "first.jsonl")
    for name in REFUSED:
        output, errors, status = nrdb_process("--suspects", EXAMPLES / f"{name}.jsonl")
        assert (errors, status) == ("", 1), output
