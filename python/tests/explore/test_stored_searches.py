"""What `explore`, `reduce` and `report` find in some recordings, and all that they write: checksums
are stored, because the texts are long. The model answers instead of netrev.

    /usr/bin/python3 python tests.explore.test_stored_searches              stores new checksums
    /usr/bin/python3 python tests.explore.test_stored_searches NAME ..      prints all for a recording, to compare it with an earlier text
"""

import hashlib
import json
import os
import re
import sys
import tempfile
from collections.abc import Iterator
from contextlib import contextmanager
from pathlib import Path

import pytest

from netrev.machine.observer import Observer
from netrev.model.program import printed
from netrev.recording.recording import Recording
from netrev.system.interrupts import Interrupts
from tests.session.test_stored_views import ROOT, session_of
from tests.support.model_sessions import Modelled, changes_at, recording_at

STORED = Path(__file__).with_name("searches.json")
RACES = sorted(path.stem for path in (ROOT / "examples/races").glob("*.jsonl"))
NAMES = (
    "examples/stale-deadline", "examples/leaked-reference", "examples/real/lost", "python/tests/caused/hub-bad", "python/tests/caused/expired-bad",
    *(f"examples/races/{name}" for name in RACES),
)  # fmt: skip
LINES = (
    "explore 120", "reduce out.jsonl", "report out.md", "reduce cell.jsonl lock 0 8", "report held.md lock 0 *", "report out.md 2",
    "explore 0", "reduce", "reduce out.jsonl 99", "report x.md lock 99 8",
)  # fmt: skip
ANSWERED = ("explore.commands", "reduce.writing", "reduce.reduced", "reduce.report")


def answered_by(_: str, command: str, data: bytes) -> tuple[int, bytes]:
    """The model's exit status and output."""
    text = printed(command, data, b"", Observer())
    assert text
    return text.status, text.output


def read_with_changes(_: str, path: str) -> Recording:
    """The recording, with the model's changes."""
    recording = Recording.read(path)
    recording.changes = changes_at(Path(path))
    return recording


def own(_: str, path: str, interrupts: Interrupts) -> Modelled:
    return Modelled(recording_at(Path(path)), interrupts, lambda _: None)


@contextmanager
def modelled() -> Iterator[None]:
    """In this context, the model answers instead of netrev, and one process runs the schedules."""
    with pytest.MonkeyPatch.context() as patch:
        for module in ANSWERED:
            patch.setattr(f"netrev.{module}.answered_by", answered_by)
        patch.setattr("netrev.reduce.report.NetrevProcess", own)
        patch.setattr("netrev.reduce.report.read_with_changes", read_with_changes)
        patch.setattr("netrev.explore.commands.processors", lambda: 1)
        yield


def text_of(path: Path) -> str:
    """The text of a file. Of a page, it is the page's data."""
    text = path.read_text()
    return text.partition('id="data">')[2].partition("</script>")[0] if path.suffix == ".html" else text


def texts_of(name: str) -> dict[str, str]:
    """The answer to each line, and the files that the line writes."""
    session, printer = session_of(name)
    session.text().lines.written = float("inf")  # (a clone's files are newer than the recording)
    printer.take()
    before, found = os.getcwd(), {}
    with tempfile.TemporaryDirectory() as folder, modelled():
        os.chdir(folder)
        try:
            for line in LINES:
                session.attempt(line)
                text = re.sub(r"\b\d+(?:\.\d+)? (?:s|ms)\b", "some time", printer.take())
                written = "".join(f"{path.name}:\n{text_of(path)}" for path in sorted(Path().iterdir()))
                for path in Path().iterdir():
                    path.unlink()
                found[line] = f"> {line}\n{text}{written}"
        finally:
            os.chdir(before)
    return found


def sums_of(name: str) -> dict[str, str]:
    return {line: hashlib.sha256(text.encode()).hexdigest()[:12] for line, text in texts_of(name).items()}


@pytest.mark.parametrize("name", NAMES)
def test_what_is_found_is_what_the_sums_are_of(name: str) -> None:
    assert sums_of(name) == json.loads(STORED.read_text())[name]


def main(words: list[str]) -> None:
    for word in words:
        print("\n".join(texts_of(word).values()))
    if not words:
        lines = (f"{json.dumps(name)}: {json.dumps(sums_of(name))}" for name in NAMES)
        STORED.write_text("{\n" + ",\n".join(lines) + "\n}\n")


if __name__ == "__main__":
    main(sys.argv[1:])
