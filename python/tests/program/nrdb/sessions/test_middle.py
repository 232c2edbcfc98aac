"""A recording that begins in the middle of a run: sessions, batches and timelines begin after the steps that lead
there."""

import json
from pathlib import Path

import pytest

from tests.program.nrdb.common.dap_client import Adapter
from tests.program.nrdb.common.support import EXAMPLES, nrdb

FIRST = EXAMPLES / "first.jsonl"
BEGINS = 4


class Middle:
    """A recording that begins in the middle of a run."""

    def __init__(self, folder: Path) -> None:
        self.path = folder / "first.jsonl"
        text = FIRST.read_text()
        self.path.write_text(text)
        self.steps = len(text.splitlines()) - 1
        self.where(BEGINS)

    def where(self, begins):
        lines = [{"where": 1, "steps": self.steps}, {"prelude": begins}]
        self.path.with_suffix(".where").write_text("".join(f"{json.dumps(line)}\n" for line in lines))

    def used_again(self):
        """Goroutine number 0 makes steps 4, 5 and 7, but the number names another goroutine after step 6."""
        lines = [{"where": 1, "steps": self.steps}, {"taken": [[0, 0, 42], [0, 6, 99]]}]
        self.path.with_suffix(".where").write_text("".join(f"{json.dumps(line)}\n" for line in lines))


@pytest.fixture
def middle(folder: Path) -> Middle:
    return Middle(folder)


def test_a_session_begins_there(middle):
    output = nrdb("--batch", "-ex", "where", middle.path).splitlines()
    assert output[0] == f"at {BEGINS} of {middle.steps} forward"
    assert f"| the recording begins in the middle of the run: steps 1 to {BEGINS} lead to the state there" in output
    assert f"| at {BEGINS} of {middle.steps} forward" in output


def test_a_number_that_was_used_again_has_the_name_of_the_step(middle):
    middle.used_again()
    for position, goid in ((4, 42), (6, 42), (7, 99), (middle.steps, 99)):
        output = nrdb("--batch", "-ex", f"goto {position}", "-ex", "goroutine 0", middle.path)
        assert f"| goroutine 0 (goid {goid}): " in output
    assert "| goroutine 1: " in nrdb("--batch", "-ex", "goto 7", "-ex", "goroutine 1", middle.path)


def test_goroutines_that_are_listed_have_these_names_too(middle):
    middle.used_again()
    for position, goid in ((4, 42), (6, 42), (7, 99)):
        looks = ["-ex", f"goto {position}", "-ex", "info goroutines all"]
        rows = [line for line in nrdb("--batch", *looks, middle.path).splitlines() if line.startswith("| gor ")]
        assert f"| gor 0    (goid {goid}) " in rows[0]
        assert [row for row in rows[1:] if "goid" in row] == []
        events = map(json.loads, nrdb("--batch", "--json", *looks, middle.path).splitlines())
        (table,) = [event for event in events if event.get("topic") == "goroutines"]
        assert [row.get("goid") for row in table["rows"]] == [goid] + [None] * (len(rows) - 1)
        with Adapter() as editor:
            editor.begin(str(middle.path), stopAt=position)
            names = [thread["name"] for thread in editor("threads")["threads"]]
            assert names[0].split(":")[0] == f"goroutine 0 (goid {goid})"


def test_the_trace_begins_there_and_says_so(middle):
    trace = middle.path.with_suffix(".json")
    output = nrdb("--trace", trace, middle.path)
    assert f": {middle.steps - BEGINS} steps, " in output
    assert f"; the recording begins in the middle of the run: steps 1 to {BEGINS} lead to the state there" in output
    events = json.loads(trace.read_text())["traceEvents"]
    steps = [event["args"]["step"] for event in events if event.get("cat") == "step"]
    assert steps == list(range(BEGINS + 1, middle.steps + 1))


def test_what_leads_there_can_be_looked_at(middle):
    assert "at 1" in nrdb("--batch", "-ex", f"reverse-stepi {BEGINS - 1}", middle.path).splitlines()


def test_another_number_of_steps_is_not_obeyed(middle):
    middle.where(middle.steps + 1)
    output = nrdb("--batch", "-ex", "where", middle.path).splitlines()
    assert output[0] == f"at 0 of {middle.steps} forward"
    assert "begins in the middle" not in "\n".join(output)


def test_an_editor_begins_there(middle):
    with Adapter() as editor:
        editor.begin(str(middle.path), stopAt="start")
        output = editor("evaluate", expression="info position", context="repl")["result"]
        assert output.splitlines()[0] == f"at {BEGINS} of {middle.steps} forward"
        editor.move("reverseContinue", threadId=1)
        editor.move("restart")
        output = editor("evaluate", expression="info position", context="repl")["result"]
        assert f"at {BEGINS} of {middle.steps}" in output.splitlines()[0]


def test_the_timeline_begins_there(middle):
    page = middle.path.with_suffix(".html")
    output = nrdb("--timeline", page, middle.path)
    assert f"positions {BEGINS} to {middle.steps}" in output
