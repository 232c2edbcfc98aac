"""All that nrdb says about the recordings in `caused`: causes, hangs, errors and suspects.

`/usr/bin/python3 python tests.failed_calls.test_stored_sentences` stores the current output, with a Python that has
pytest; read the difference before you commit it."""

import json
import sys
from collections import Counter
from pathlib import Path

import pytest

from netrev.connection.output import Table
from netrev.findings.causes.first_output import first_words
from netrev.findings.causes.tables import errors_table, hangs_table, requests_table
from netrev.findings.suspects.ranking import suspects_of
from netrev.recording.recording import Recording
from tests.trials.go_caused import NAMES, SOURCE, source_of

from .test_causes import CAUSED, in_the_folder_of_the_source

STORED = CAUSED / "sentences.json"
RECORDINGS = sorted(path.stem for path in CAUSED.glob("*.jsonl"))
PROGRAMS = frozenset(name for names in NAMES.values() for name in names)


def lines_of(table: Table) -> list[str]:
    return [*(line for row in table.rows for line in row.text.split("\n")), table.rest] if table.rows else []


def said_of(name: str) -> dict[str, list[str]]:
    """What nrdb says about a recording if the source of its program is in the current folder."""
    recording = Recording.read(str(CAUSED / f"{name}.jsonl"))
    recording.lines.written = float("inf")  # (a clone's files are newer than the recording)
    program = name.rpartition("-")[0]
    with in_the_folder_of_the_source(source_of(program) if program in PROGRAMS else SOURCE):
        suspects = [suspect for suspect in suspects_of(recording).suspects if suspect.is_shown]
        first = [line for line in first_words(recording, f"{name}.jsonl") if not line.startswith("next:")]
        sentences = {
            "first": first,  # (without the command that starts nrdb here)
            "hangs in the middle": lines_of(hangs_table(recording, recording.length // 2)),
            "errors": lines_of(errors_table(recording, recording.length, None)),
            "requests": lines_of(requests_table(recording)),
            "suspects": [
                f"{suspect.rule} {suspect.step} {suspect.weight} {suspect.steps}: {suspect.sentence()}"
                for suspect in suspects
            ],
        }
    return {part: lines for part, lines in sentences.items() if lines}


def stored() -> dict[str, dict[str, list[str]]]:
    found: dict[str, dict[str, list[str]]] = json.loads(STORED.read_text(encoding="utf-8"))
    return found


@pytest.mark.parametrize("name", RECORDINGS)
def test_nrdb_says_what_is_stored(name: str) -> None:
    assert said_of(name) == stored()[name]


def test_what_is_stored_is_of_these_recordings_and_says_something() -> None:
    found = stored()
    assert sorted(found) == RECORDINGS
    parts = Counter(part for output in found.values() for part in output)
    assert len(parts) == 5 and parts["first"] > 80 and parts["errors"] > 30, parts


def main() -> int:
    sentences = {name: said_of(name) for name in RECORDINGS}
    STORED.write_text(json.dumps(sentences, indent=1, ensure_ascii=False) + "\n", encoding="utf-8")
    return 0


if __name__ == "__main__":
    sys.exit(main())
