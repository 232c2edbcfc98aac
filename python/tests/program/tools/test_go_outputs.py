"""The outputs that `netrev-go test` makes from recordings after a run: a page for each recording, and findings in other
schedules of tests that passed. A script is called in place of Go."""

import json
import pathlib
import re
import shutil
from contextlib import ExitStack
from typing import Any

import pytest

from netrev.recording.recording import Recording
from netrev_go import go_test_results
from netrev_go.cli import ExitStatus
from netrev_go.log.source_lines import OF_THE_PROGRAM, Calls, LineCall
from netrev_go.steps import conversion, report
from netrev_go.steps.conversion import Conversion
from tests.go_command import test_go_tests
from tests.program.nrdb.common.support import EXAMPLES
from tests.program.support.sharing import NETREV
from tests.support.stubs import raising

HOSTILE = "</script><script>alert(1)</script>\x1b[31m"
CALLS = {0: Calls((LineCall(f"main.{HOSTILE}", f"{HOSTILE}.go", 7, OF_THE_PROGRAM),), None)}
DATA = re.compile(r'<script type="application/json" id="data">(.*?)</script>', re.DOTALL)
GOOD = EXAMPLES / "cancelled-read.jsonl"  # some other schedules of this recording hang
SECONDS = "600"  # far more time than its schedules take


class Behind(test_go_tests.Tested):
    """A package whose recordings the built netrev checks."""

    def __init__(self, folder: pathlib.Path, monkeypatch: pytest.MonkeyPatch, cleanups: ExitStack) -> None:
        super().__init__(folder, monkeypatch, cleanups)
        for module in (report, go_test_results):
            monkeypatch.setattr(module, "netrev_program", lambda: str(NETREV))

    def lines(self) -> list[dict[str, Any]]:
        """The lines of --json about the tests that have a recording."""
        events = [json.loads(line) for line in (self.folder / "a.json").read_text().splitlines()]
        return [line for line in events if line["recording"]]


@pytest.fixture
def package(folder: pathlib.Path, monkeypatch: pytest.MonkeyPatch, cleanups: ExitStack) -> Behind:
    return Behind(folder, monkeypatch, cleanups)


def test_the_timeline_is_beside_the_recording_of_a_test_that_failed(
    monkeypatch: pytest.MonkeyPatch, package: Behind
) -> None:
    monkeypatch.setattr(conversion, "lines_of", lambda *_: CALLS)
    status, _, output = package.told("--html", "--json", "a.json", "test", ".")
    assert status == 1, output
    pages = sorted(path.name for path in (package.folder / "recordings").glob("*.html"))
    assert pages == ["toy.TestRed.a_part.html"], output
    (result,) = package.lines()
    assert result["page"] == f"recordings/{pages[0]}"
    text = pathlib.Path(result["page"]).read_text()
    found = DATA.search(text)
    assert found, text
    data, recording = json.loads(found[1]), Recording.read(result["recording"])
    assert (data["first"], data["last"], data["name"]) == (0, recording.length, "toy.TestRed.a_part.jsonl")
    assert [step.split()[0] for step in data["steps"][1:-1]] == [
        recording.step(number).kind for number in range(1, recording.length + 1)
    ]
    assert data["rows"]


def test_no_text_of_the_program_is_obeyed_there(monkeypatch: pytest.MonkeyPatch, package: Behind) -> None:
    monkeypatch.setattr(conversion, "lines_of", lambda *_: CALLS)
    package.told("--html", "test", ".")
    text = (package.folder / "recordings/toy.TestRed.a_part.html").read_text()
    found = DATA.search(text)
    assert found, text
    shown = HOSTILE.replace("\x1b", r"\x1b")
    assert f"{shown}.go:7 main.{shown}" in json.loads(found[1])["lines"]["texts"]
    assert "\x1b" not in text
    assert "<script>alert" not in text


def test_without_the_word_there_is_none(package: Behind) -> None:
    package.told("test", ".")
    assert list((package.folder / "recordings").glob("*.html")) == []


def test_a_page_that_cannot_be_made_is_said_and_changes_nothing(
    monkeypatch: pytest.MonkeyPatch, package: Behind
) -> None:
    monkeypatch.setattr("netrev.timeline.page.write_page_beside", raising(OSError(28, "No space left on device")))
    status, _, output = package.told("--html", "--json", "a.json", "test", ".", status=1)
    assert status == 1
    assert "netrev-go: recordings/toy.TestRed.a_part.html can't be made: " in output
    assert [line["page"] for line in package.lines()] == [None]


def explored(package: Behind, *words: str, status: int = 0, recording: pathlib.Path = GOOD) -> tuple[int, str]:
    """The status and the output of netrev-go if TestGreen passed with this recording, which may hang in another
    schedule."""
    (package.folder / "lines").write_text(
        "1 1 5 package example.org/toy\n3 20 1 runs TestGreen\n14 20 3 ends TestGreen\n"
    )

    def converted(_: object, name: pathlib.Path, *__: object, **___: object) -> Conversion:
        shutil.copy(recording, name)
        return Conversion(True, [f"{name}: ok"])

    with pytest.MonkeyPatch.context() as patch:
        patch.setattr(go_test_results, "converted", converted)
        returned, _, output = package.told("--explore", SECONDS, "--json", "a.json", *words, "test", ".", status=status)
    return returned, output


@pytest.mark.parametrize(
    "words, wanted",
    [
        ((), 0),
        (("--fail-on", "suspects"), 0),
        (("--fail-on", "possible"), ExitStatus.SUSPECTED),
        (("--fail-on", "suspects,possible"), ExitStatus.SUSPECTED),
    ],
)
def test_what_is_found_is_possible_and_the_status_is_gos(package: Behind, words: tuple[Any, ...], wanted: Any) -> None:
    status, text = explored(package, *words)
    assert status == wanted, text
    assert "possible, example.org/toy TestGreen:\n" in text
    assert "deadline taken back too soon, in toy.TestGreen-other-1.jsonl" in text
    (result,) = package.lines()
    assert (result["status"], result["suspects"]) == ("passed", [])
    assert any("deadline taken back too soon" in line for line in result["possible"])


def test_where_nothing_is_found_nothing_is_said(package: Behind) -> None:
    status, text = explored(package, "--fail-on", "possible", recording=EXAMPLES / "temporary-break.jsonl")
    assert status == 0
    assert "possible" not in text
    assert [result["possible"] for result in package.lines()] == [[]]


def test_where_it_could_not_look_that_is_said(monkeypatch: pytest.MonkeyPatch, package: Behind) -> None:
    other = package.folder / "other.jsonl"
    # a descriptor that is never closed
    steps = ['["sockopen",16,16]', '["pollopen",0,0]', '["increfclose",0,0]', '["decref",0,0]']
    other.write_text("\n".join(['{"netrev":1,"gor":2,"sock":1,"desc":1,"buf":16}', *steps, ""]))
    status, text = explored(package, "--fail-on", "possible", recording=other)
    assert status == 0
    assert "TestGreen.jsonl: other schedules weren't explored: explore replays calls of Go" in text
    monkeypatch.setattr(go_test_results, "GRACE", 0)
    _, text = explored(package, "--explore", "0")
    assert re.search(r"TestGreen-2\.jsonl: other schedules weren't explored: nrdb ended with status 13[07]", text)


def test_where_go_fails_no_schedule_is_played(monkeypatch: pytest.MonkeyPatch, package: Behind) -> None:
    monkeypatch.setattr(go_test_results, "findings", raising(AssertionError("schedules are explored")))
    status, text = explored(package, "--fail-on", "possible", status=7)
    assert status == 7
    assert "possible" not in text
