"""The list of examples agrees with their folder, and the scripts that use the list find the same examples."""

import os
import re
import subprocess
from pathlib import Path
from typing import Any

import pytest

from tests.support.examples import ALL, EXAMPLES, KNOWN, REFUSED

SHARED = "shared"  # the commands of two people, which examples/shared.sh runs


def there(*patterns: str) -> list[str]:
    """The names of the files that match one of these patterns."""
    files = [file for pattern in patterns for file in EXAMPLES.glob(pattern)]
    return sorted(str(file.relative_to(EXAMPLES).with_suffix("")) for file in files)


def test_the_list_has_each_recording_once() -> None:
    races = there("races/*.jsonl")  # (they have their own list)
    assert sorted([*(example.name for example in ALL), *races]) == there("**/*.jsonl")
    assert set(KNOWN) & set(REFUSED) == set()


def test_the_list_of_races_has_each_once_with_what_lies_beside_it() -> None:
    rows = re.findall(r"^\| `([\w-]+)` \|", (EXAMPLES / "races/README.md").read_text(), re.MULTILINE)
    for ending in ("jsonl", "where", "explored"):
        assert sorted(f"races/{name}" for name in rows) == there(f"races/*.{ending}")


@pytest.mark.parametrize("example", ALL)
def test_what_lies_beside_a_recording_is_whole(example: Any) -> None:
    commands = [example.beside(ending).exists() for ending in ("script", "replies")]
    session = [example.beside(ending).exists() for ending in ("nrdb", "session")]
    assert (commands, session) in (([True] * 2, [False] * 2), ([False] * 2, [True] * 2), ([True] * 2, [True] * 2))


def test_the_refused_have_their_fault_for_replies() -> None:
    for example in ALL:
        replies, session = example.beside("replies"), example.beside("session")
        first = (replies if replies.exists() else session).read_text().splitlines()[0]
        wanted = f"step {example.refused_at}: fault 109 answer"
        assert (first == wanted) == (example.name in REFUSED), first


def test_all_that_have_commands_are_played(folder: Path) -> None:
    program = folder / "netrev"
    program.write_text(
        '#!/bin/sh\ncat "${2%.jsonl}.replies"; grep -q \'^step \' "${2%.jsonl}.replies" && exit 1; exit 0\n'
    )
    program.chmod(0o755)
    command = ["sh", str(EXAMPLES / "play_all.sh"), "--alone"]
    text = subprocess.run(
        command, env={**os.environ, "NETREV": str(program)}, capture_output=True, text=True, check=True
    )
    runs = [line.removeprefix("== ") for line in text.stdout.splitlines() if line.startswith("== ")]
    assert runs == [example.name for example in ALL if example.beside("script").exists()]
    assert sorted([*runs, SHARED]) == there("**/*.script")
