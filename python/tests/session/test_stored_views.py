"""All that nrdb prints at some positions of a few recordings, the data of their timelines, and their traces.

`/usr/bin/python3 python tests.session.test_stored_views` stores the current output, with a Python that has pytest; read
the difference before you commit it."""

import json
import sys
from pathlib import Path

import pytest

from netrev.connection.collected_output import Collecting
from netrev.connection.scout import Scout
from netrev.recording.recording import Recording
from netrev.session.session import Session
from netrev.system.interrupts import Interrupts
from netrev.timeline.other_trace_events import beside
from netrev.timeline.page_contents import PageSources, collected
from netrev.timeline.trace import Tracing
from nrdb.prompt.answers import ANSWERS
from tests.support.model_sessions import Modelled, changes_at, recording_at

ROOT = Path(__file__).resolve().parents[3]
STORED = Path(__file__).with_name("views")
NAMES = (
    "examples/first", "examples/lost-wakeup", "examples/real/half", "examples/real/leak", "python/tests/caused/pool-bad",
    "python/tests/caused/partly-bad",
)  # fmt: skip
# the lines that are typed at each of four positions, and the lines that are typed once after that
LINES = STORED / "lines.txt"


def session_of(name: str) -> tuple[Session, Collecting]:
    """A session over the recording, whose netrev is the model."""
    path = ROOT / f"{name}.jsonl"
    recording, model, interrupts = Recording.read(str(path)), recording_at(path), Interrupts()

    def modelled() -> Modelled:
        return Modelled(model, interrupts, lambda _: None)

    changes, printer = changes_at(path), Collecting()
    recording.changes = changes
    session = Session(modelled(), recording, Scout(modelled), printer, interrupts, ANSWERS, recorded=changes)
    session.path = path.name
    session.begin(session.ask("info position"))
    return session, printer


def printed(name: str) -> list[str]:
    """The answers to lines, each after its line."""
    session, printer = session_of(name)
    length = session.text().length
    everywhere, once = (part.splitlines() for part in LINES.read_text(encoding="utf-8").split("\n\n"))
    lines = [line for at in (0, length // 3, 2 * length // 3, length) for line in (f"goto {at}", *everywhere)]
    said = printer.take().splitlines()
    for line in (*lines, *once):
        session.attempt(line)
        said += [f"> {line}", *printer.take().splitlines()]
    return said


def traced(name: str) -> list[str]:
    session, _ = session_of(name)
    recording, changes, scout = session.text(), session.changes(), session.looks()
    return [*Tracing(recording, changes).events("it", lambda: None), *beside(recording, changes, scout)]


def pictured(name: str) -> list[str]:
    session, _ = session_of(name)
    data = collected(PageSources.by(session, lambda _: None))
    return [f"{key}: {json.dumps(value, ensure_ascii=False, sort_keys=True)}" for key, value in sorted(data.items())]


SORTS = {"printed": printed, "traced": traced, "pictured": pictured}


def file_of(name: str, sort: str) -> Path:
    return STORED / f"{Path(name).name}.{sort}"


@pytest.mark.parametrize("sort", SORTS)
@pytest.mark.parametrize("name", NAMES)
def test_nrdb_shows_what_is_stored(name: str, sort: str) -> None:
    assert SORTS[sort](name) == file_of(name, sort).read_text(encoding="utf-8").split("\n")[:-1]


def test_nothing_else_is_stored() -> None:
    files = {file_of(name, sort) for name in NAMES for sort in SORTS}
    assert set(STORED.iterdir()) == {LINES, *files}


def main() -> int:
    for name in NAMES:
        for sort, shown in SORTS.items():
            file_of(name, sort).write_text("".join(f"{line}\n" for line in shown(name)), encoding="utf-8")
    return 0


if __name__ == "__main__":
    sys.exit(main())
