"""nrdb's texts about the recordings in `caused`: at many positions, and with parts of NAME.where
left out. The tests store checksums, because the texts are long.

    /usr/bin/python3 python tests.failed_calls.test_stored_sums                     stores new checksums
    /usr/bin/python3 python tests.failed_calls.test_stored_sums NAME VIEW ..        prints the text of a view, to compare it with an earlier text
"""

import hashlib
import json
import os
import re
import shutil
import sys
import tempfile
from collections.abc import Callable
from pathlib import Path

import pytest

from netrev.findings.causes.first_output import first_words
from netrev.findings.causes.tables import errors_table, hangs_table
from netrev.recording.recording import Recording
from tests.trials.go_caused import SOURCE, source_of

from .test_causes import CAUSED, in_the_folder_of_the_source
from .test_stored_sentences import PROGRAMS, RECORDINGS, lines_of

STORED = CAUSED / "sums.json"
COMMENTS = " //~ //~"
PARTS = 12  # the parts of a recording between which the hangs are listed
# patterns for lines of NAME.where that are left out
WITHOUT = {"orders": "orders|waits", "objects": "objects|channels|held|timers"}


def read(path: Path) -> Recording:
    recording = Recording.read(str(path))
    recording.lines.written = float("inf")  # (a clone's files are newer than the recording)
    return recording


def hangs(recording: Recording) -> list[str]:
    """The hangs at the end of each part of a recording but the last."""
    found = []
    for part in range(1, PARTS):
        at = recording.length * part // PARTS
        found += [f"at {at}", *lines_of(hangs_table(recording, at))]
    return found


def errors(recording: Recording) -> list[str]:
    return [
        line for part in range(1, 4) for line in lines_of(errors_table(recording, recording.length * part // 4, None))
    ]


def in_short(recording: Recording) -> list[str]:
    """The first output, the hangs at two positions, and the errors."""
    first = [line for line in first_words(recording, "made.jsonl") if not line.startswith("next:")]
    more = [line for part in (2, 3) for line in lines_of(hangs_table(recording, recording.length * part // 4))]
    return first + more + lines_of(errors_table(recording, recording.length, None))


def without(name: str, what: str) -> list[str]:
    """The texts about a recording whose NAME.where lacks some lines."""
    with tempfile.TemporaryDirectory() as folder:
        path = Path(folder, "made.jsonl")
        shutil.copy(CAUSED / f"{name}.jsonl", path)
        lines = (CAUSED / f"{name}.where").read_text().splitlines(keepends=True)
        path.with_suffix(".where").write_text("".join(line for line in lines if not re.match(rf'{{"(?:{what})"', line)))
        return in_short(read(path))


def with_source(name: str, changed: Callable[[int, str], str]) -> list[str]:
    """The texts about a recording if the source is changed. `changed` gets each line's number and text, and returns the
    new text."""
    before = os.getcwd()
    with tempfile.TemporaryDirectory() as folder:
        for path in Path().glob("*.go"):
            lines = path.read_text().splitlines()
            Path(folder, path.name).write_text(
                "".join(f"{changed(number, line)}\n" for number, line in enumerate(lines, 1))
            )
        os.chdir(folder)
        try:
            return in_short(whole(name))
        finally:
            os.chdir(before)


def commented(_: int, line: str) -> str:
    """The line with two comments after it, unless it is empty or may be part of a raw string."""
    return line if "`" in line or not line else line + COMMENTS


def blanked(number: int, line: str) -> str:
    """The line; for some lines, an empty line instead."""
    return "" if (number * 7 + len(line)) % 11 == 0 else line


def whole(name: str) -> Recording:
    return read(CAUSED / f"{name}.jsonl")


VIEWS: dict[str, Callable[[str], list[str]]] = {
    "hangs": lambda name: hangs(whole(name)),
    "errors": lambda name: errors(whole(name)),
    "without some lines of the source": lambda name: with_source(name, blanked),
    **{f"without {part}": lambda name, what=what: without(name, what) for part, what in WITHOUT.items()},  # type: ignore[misc]
}


def text_of(name: str, view: str) -> str:
    """What nrdb says in a view of a recording, if the source of its program is in the current folder."""
    program = name.rpartition("-")[0]
    with in_the_folder_of_the_source(source_of(program) if program in PROGRAMS else SOURCE):
        return "\n".join(VIEWS[view](name))


def views_of(name: str) -> list[str]:
    """The views whose checksums are stored: for good runs, in which hardly anything hangs, only those with the whole
    NAME.where."""
    return [view for view in VIEWS if name.endswith("-bad") or not view.startswith("without")]


def sums_of(name: str) -> dict[str, str]:
    return {view: hashlib.sha256(text_of(name, view).encode()).hexdigest()[:12] for view in views_of(name)}


@pytest.mark.parametrize("name", [name for name in RECORDINGS if (CAUSED / f"{name}.where").exists()])
def test_nrdb_says_what_the_sums_are_of(name: str) -> None:
    assert sums_of(name) == json.loads(STORED.read_text())[name]


@pytest.mark.parametrize("name", [name for name in RECORDINGS if name.endswith("-bad")][::2])
def test_comments_change_nothing(name: str) -> None:
    program = name.rpartition("-")[0]
    with in_the_folder_of_the_source(source_of(program) if program in PROGRAMS else SOURCE):
        lines_of_source = [line.replace(COMMENTS, "") for line in with_source(name, commented)]
        assert lines_of_source == with_source(name, lambda _, line: line)


def main(words: list[str]) -> None:
    for view in words[1:]:
        print(text_of(words[0], view))
    if not words:
        names = [name for name in RECORDINGS if (CAUSED / f"{name}.where").exists()]
        lines = (f"{json.dumps(name)}: {json.dumps(sums_of(name))}" for name in names)
        STORED.write_text("{\n" + ",\n".join(lines) + "\n}\n")


if __name__ == "__main__":
    main(sys.argv[1:])
