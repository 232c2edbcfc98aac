"""The timeline's rows for goroutines without sockets, each with what it waits for; and its search for lines, functions,
connections and goroutines, in chromium. Skipped without chromium (Debian: apt-get install chromium)."""

import re
from typing import Any

import pytest

from netrev.recording.recording import Recording
from netrev.timeline import waits
from netrev.timeline.waits import waits_data
from tests.program.nrdb.common.browser import needs_chromium, used
from tests.program.nrdb.common.support import ROOT

from .test_timeline import data_in
from .test_timeline_page import page_of

pytestmark = pytest.mark.together

HUB = ROOT / "python/tests/caused/hub-bad.jsonl"
BODIES = HUB.with_name("bodies-bad.jsonl")


def opened(page: str) -> str:
    """The page, with access to the names inside its script."""
    end = "})(JSON.parse("
    assert page.count(end) == 1
    return page.replace(end, f"window.inside = {{ V, CALLS, GROUPS, headOf, xOf }};\n{end}")


def rows_of(data: Any) -> list[tuple[str, str, bool]]:
    """The waits of goroutines without steps: the goroutine's name, what it does, and whether the wait lasts to the
    end."""
    texts = data["texts"]
    return [(data["others"][-1 - g][0], texts[does], not last) for g, _, last, does, _, _ in data["rows"] if g < 0]


def test_a_goroutine_that_touches_no_socket_is_there_with_what_it_waits_for() -> None:
    data = waits_data(Recording.read(str(HUB)))
    assert (21, "waits for a mutex", True) in rows_of(data)
    assert [21, "(*room).serve"] in data["others"]
    assert "(*room).join main.go:54, (*room).serve main.go:68, hub.func1.gowrap1 main.go:85" in data["texts"]
    assert data["left_out"] == [0, 0]


def test_of_many_those_that_wait_still_stay(monkeypatch: pytest.MonkeyPatch) -> None:
    every = rows_of(waits_data(Recording.read(str(BODIES))))
    still = {goid for goid, _, is_still in every if is_still}
    assert still and still != {goid for goid, _, _ in every}
    monkeypatch.setattr(waits, "MOST_ROWS", len(still))
    data = waits_data(Recording.read(str(BODIES)))
    assert {goid for goid, _, _ in rows_of(data)} == still
    assert data["left_out"] == [len({goid for goid, _, _ in every}) - len(still), 0]


def test_the_page_opens_with_the_root() -> None:
    data = data_in(page_of(HUB))
    assert re.search(
        r"^Goroutine 6 waits for one call: Write at main\.go:63 in \(\*room\)\.say", data["causes"][0]["says"]
    )
    assert [cause.get("goid") for cause in data["causes"]] == [None, 21, 13, None]


@pytest.fixture(scope="module")
def reports() -> dict[str, Any]:
    """What a search in the page shows."""
    return used(
        opened(page_of(HUB)),
        """
        const { V, CALLS, GROUPS, headOf, xOf } = inside, enter = () => key("Enter", document.getElementById("find"));
        const firsts = (calls) => calls.map((call) => call.first);
        const seen = (words) => { search(words); const said = text("said"), hits = V.hits; enter(); return { said, hits, row: V.row, at: position() }; };
        told.line = seen("main.go:63"); told.lineHits = firsts(CALLS.filter((call) => call.line.startsWith("main.go:63 ")));
        told.part = seen("main.go:6"); told.none = seen("main.go:999");
        told.calls = seen("say"); told.socket = seen("sock 4"); told.socketHits = firsts(CALLS.filter((call) => call.s === 4));
        told.wait = seen("join"); told.panel = text("panel"); told.goid = seen("goid 21"); told.sleeps = seen("time.Sleep");
        told.kinds = V.rows.filter((row) => row.kind === "wait").map((row) => row.title);
        told.heads = GROUPS.map(([socket, rows]) => headOf(socket, rows).head);
        for (let y = 110; y < 700 && !told.tip; y += 6) {
            point("pointermove", xOf(350), y);
            if (text("tip").startsWith("goid 21")) told.tip = text("tip");
        }
        """,
    )


@needs_chromium
def test_a_line_is_found_in_the_calls_that_stand_there(reports: dict[str, Any]) -> None:
    line = reports["line"]
    assert reports["lineHits"]
    assert line["hits"] == reports["lineHits"]
    assert f"{len(line['hits'])} calls" in line["said"]
    assert line["at"] in line["hits"]
    assert re.search(r"^call \d+ \d+$", line["row"])


@needs_chromium
def test_a_line_is_no_part_of_another_number(reports: dict[str, Any]) -> None:
    assert (reports["part"]["hits"], reports["none"]["hits"]) == ([], [])


@needs_chromium
def test_a_function_is_found_anywhere_in_a_stack(reports: dict[str, Any]) -> None:
    assert set(reports["line"]["hits"]) <= set(reports["calls"]["hits"])


@needs_chromium
def test_a_connection_is_found_by_its_number(reports: dict[str, Any]) -> None:
    assert reports["socketHits"]
    assert reports["socket"]["hits"] == reports["socketHits"]
    assert reports["socket"]["row"].startswith("call 4 ")


@needs_chromium
def test_waits_are_found_and_chosen(reports: dict[str, Any]) -> None:
    wait = reports["wait"]
    assert (wait["hits"], wait["row"], wait["at"]) == ([329], "goid 21", 329)
    assert "1 wait" in wait["said"]
    assert re.search(
        r"waits for a mutex, since 329\s+\(\*room\)\.join main\.go:54\s+\(\*room\)\.serve main\.go:68", reports["panel"]
    )
    assert (reports["goid"]["hits"], reports["goid"]["row"]) == ([329], "goid 21")
    assert reports["sleeps"]["hits"]


@needs_chromium
def test_goroutines_without_steps_have_rows_with_words(reports: dict[str, Any]) -> None:
    assert reports["kinds"] == ["goid 13 within.func1", "goid 21 (*room).serve"]
    assert "waits outside of sockets" in reports["heads"]
    assert re.match(r"goid 21 \(\*room\)\.serve: waits for a mutex\s+since 329, to the end\s", reports["tip"]), reports[
        "tip"
    ]
