"""nrdb and the timeline's page escape the terminal controls that they print, wherever these occur in a refused
recording, in its header, or in the source lines beside a recording."""

import json
import re
from collections.abc import Iterator
from pathlib import Path
from typing import Any

import pytest

from tests.session.test_foreign_servers import OBEYED, unseen

from .common.support import EXAMPLES, nrdb

FIRST = EXAMPLES / "first.jsonl"
HEADER = '{"netrev":2,"gor":2,"sock":1,"desc":1,"buf":16}'
SHOWN = (
    "list",
    "where",
    "stepi",
    "info goroutines all",
    "info suspects",
    "info holders 0",
    "history lock 0",
    "print gor 0",
)
FORMS = ((), ("--json",))


def spellings(text: str) -> Iterator[str]:
    """A text within a JSON string: unchanged, and as an escape."""
    yield text
    yield json.dumps(text)[1:-1]


def refused_with(text: str) -> Iterator[bytes]:
    """Refused recordings that have this text in each place of the header and of a step."""
    for spelled in spellings(text):
        for header in (
            f'{{"netrev":1,"{spelled}":4,"sock":2,"desc":2,"buf":16}}',
            f'{{"netrev":"{spelled}","gor":4,"sock":2,"desc":2,"buf":16}}',
            f'{{"netrev":1,"gor":"{spelled}","sock":2,"desc":2,"buf":16}}',
            f'["{spelled}"]',
            f"{spelled}",
        ):
            yield f"{header}\n".encode()
        for step in (
            f'["{spelled}"]',
            f'["spawn","{spelled}"]',
            f'["spawn",["{spelled}",1]]',
            f'["rwlock",0,0,"{spelled}","yes"]',
            f'["arrive",0,"{spelled}","done"]',
            f'{{"{spelled}":1}}',
            f'["tick",1,"done"],{spelled}',
        ):
            yield f"{HEADER}\n{step}\n".encode()


def where_with(text: str, steps: int) -> str:
    """A file of source lines with this text in a function's name, in a file's name, and in a value of `of`."""
    call: dict[str, Any] = {"call": 1, "function": f"main.{text}f", "file": f"m{text}.go", "line": 3, "of": "program"}
    library = call | {"call": 2, "of": f"li{text}brary"}
    lines: list[Any] = [{"where": 1, "steps": steps}, call, library, {"stack": 1, "calls": [1, 2], "made": 1}]
    return "\n".join(map(json.dumps, [*lines, {"step": 1, "stacks": [1] * steps}])) + "\n"


@pytest.fixture
def file(folder: Path) -> Path:
    return folder / "x.jsonl"


def test_recordings_that_are_refused(file: Path) -> None:
    for text in OBEYED:
        for data in refused_with(text):
            file.write_bytes(data)
            output = nrdb("--batch", file, status=1)
            assert re.search(r"\A(line|step) \d+: fault 10\d", output), data
            assert unseen(output) == [], data


def test_lines_of_source(file: Path) -> None:
    file.write_bytes(FIRST.read_bytes())
    request = [word for line in SHOWN for word in ("-ex", line)]
    for text in OBEYED:
        file.with_suffix(".where").write_text(where_with(text, 10))
        page = file.with_suffix(".html")
        for form in FORMS:
            output = nrdb("--batch", *form, *request, file)
            assert "main." in output, text
            assert unseen(output) == [], text
        nrdb("--timeline", page, file)
        assert unseen(page.read_text().replace("\t", "")) == [], text


def test_names_of_files(file: Path) -> None:
    for text in OBEYED:
        strange = file.with_name(f"a{text}.jsonl")
        strange.write_bytes(b"nothing\n")
        for named, status in ((strange, 1), (strange.with_suffix(".none"), 3)):
            assert unseen(nrdb("--batch", named, status=status)) == []
        output = nrdb("--batch", "-ex", f"source {strange}", "-x", FIRST, FIRST)
        assert unseen(output) == []
