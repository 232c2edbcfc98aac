"""The fuzzers of the tools around netrev: a few cases of each sort find nothing, and a planted fault is found."""

import io
import random
import re
import time
from contextlib import redirect_stderr, redirect_stdout
from typing import Any

import pytest

from dev.fuzz import around, editors, side_files
from netrev_go.log.points import Point
from nrdb.dap import breakpoints
from nrdb.prompt.answers import ANSWERS
from nrdb.web.shared_session import OF_THE_PAGE
from tests.program.support.sharing import NETREV, ROOT

FEW = {"logs": 30, "programs": 30, "views": 3, "editors": 12, "browsers": 20}
SEED = "gate"
IMPOSSIBLE = "gate-views-28"  # a case with a run that isn't made of Go's calls
LONG = "h65-views-11"  # a source file whose name is longer than the system allows
HALF = "5-editors-2098"  # an editor that sends a line with half a character


def played(sort: str, cases: int, seed: str = SEED) -> tuple[int, str]:
    """The number of faulty cases among this many, and the messages about them."""
    with redirect_stdout(io.StringIO()) as text, redirect_stderr(text):
        counts, found = around.play(str(NETREV), around.seeds(seed, [sort], cases, time.monotonic() + 600))
    assert counts[sort] == cases or found == around.MOST_FAULTS, counts
    return found, text.getvalue()


@pytest.mark.parametrize("sort, cases", FEW.items())
def test_a_few_cases_of_each_sort_find_nothing(sort: Any, cases: Any) -> None:
    assert played(sort, cases) == (0, "")


def test_each_kind_of_line_beside_a_recording_is_in_the_cases() -> None:
    page = (ROOT / "docs/reference/RECORDING.md").read_text().partition("## Lines of the program")[2]
    named = set(re.findall(r'^\| `\{"(\w+)":', page, re.MULTILINE))
    assert {next(iter(line)) for at in range(9) for line in side_files.lines_of(random.Random(at), 4)} == named


def test_a_line_of_a_test_that_ends_it_is_found(monkeypatch: pytest.MonkeyPatch) -> None:
    monkeypatch.setattr("netrev_go.log.tests_in_log.place_of", lambda text: (text, int(text.rpartition(":")[2])))
    found, output = played("logs", 20)
    assert found > 0
    assert "invalid literal for int()" in output


def test_a_file_whose_name_is_too_long_is_not_here() -> None:
    assert around.fault_of(LONG, str(NETREV)) == ""


def test_lines_that_are_not_used_are_found(monkeypatch: pytest.MonkeyPatch) -> None:
    monkeypatch.setattr("netrev.recording.where.MOST_BYTES", 10)
    for sort in ("views", "logs"):
        found, output = played(sort, 20)
        assert "it is larger than 0 MB" in output


def test_a_log_that_ends_it_is_found(monkeypatch: pytest.MonkeyPatch) -> None:
    def failing(points: list[Point], all_bytes: bool) -> Any:
        raise IndexError("no such point")

    monkeypatch.setattr("netrev_go.steps.recording_builder.owned", failing)
    found, output = played("logs", 10)
    assert found > 0
    assert "IndexError" in output


def test_a_log_that_takes_too_much_is_found(monkeypatch: pytest.MonkeyPatch) -> None:
    monkeypatch.setattr(
        "netrev_go.steps.recording_builder.owned", lambda points, all_bytes: [bytes(2**22) for _ in points * 2**10]
    )
    found, output = played("logs", 3)
    assert found and "MemoryError" in output, output


def test_a_line_of_a_browser_that_writes_is_found(monkeypatch: pytest.MonkeyPatch) -> None:
    monkeypatch.setitem(OF_THE_PAGE, "explore", ANSWERS["explore"])
    monkeypatch.setitem(OF_THE_PAGE, "timeline", ANSWERS["timeline"])
    found, output = played("browsers", 30)
    assert found > 0
    assert "asks for open" in output


def test_a_message_that_ends_the_adapter_is_found(monkeypatch: pytest.MonkeyPatch) -> None:
    def unguarded(target: Any, _: Any, request: Any) -> Any:
        return {"breakpoints": target.filters.replace(request.arguments.get("filters"))}

    monkeypatch.setattr(breakpoints, "set_filters", unguarded)
    found, output = played("editors", 40)
    assert found > 0
    assert "TypeError" in output


def test_an_answer_that_is_missing_is_found() -> None:
    request = [{"seq": 1, "command": "threads"}, {"seq": 2, "command": "disconnect"}, {"seq": 3, "command": "pause"}]
    result = [
        {"seq": at, "type": "response", "request_seq": at, "command": item["command"]}
        for at, item in enumerate(request, 1)
    ]
    assert editors.answers_wrong(request, result[:2]) == ""
    for wrong in (result[:1], result, result[1:2], [result[1], result[0]], None):
        assert editors.answers_wrong(request, wrong) != ""


def test_a_recording_that_ends_a_view_is_found(monkeypatch: pytest.MonkeyPatch) -> None:
    with monkeypatch.context() as patch:
        patch.setattr("netrev.explore.commands.ImpossibleScheduleError", ZeroDivisionError)
        assert "Impossible" in around.fault_of(IMPOSSIBLE, str(NETREV))
    assert around.fault_of(IMPOSSIBLE, str(NETREV)) == ""


def test_a_line_with_half_a_character_is_answered(monkeypatch: pytest.MonkeyPatch) -> None:
    with monkeypatch.context() as patch:
        patch.setattr("netrev.connection.netrev.bytes_of", lambda text: text.encode("utf-8", "surrogateescape"))
        assert "UnicodeEncodeError" in around.fault_of(HALF, str(NETREV))
    assert around.fault_of(HALF, str(NETREV)) == ""


def test_one_that_never_ends_is_found(monkeypatch: pytest.MonkeyPatch) -> None:
    def never(seed: str, folder: Any, program: str) -> str:
        while True:
            time.sleep(1)

    monkeypatch.setitem(around.SORTS, "views", never)
    monkeypatch.setattr(around, "PATIENCE", 1)
    found, output = played("views", 1)
    assert (found, "it takes more than 1 s" in output) == (1, True)


def test_a_seed_has_one_case() -> None:
    first, again = (editors.conversation("7-editors-1", "x.jsonl") for _ in range(2))
    assert first == again
    assert first != editors.conversation("7-editors-2", "x.jsonl")
