"""The timeline's page in chromium: wheel, keys, clicks, hovering, both colour schemes, and a narrow screen. HTML in a
recording's texts is shown as text. Skipped without chromium (Debian: apt-get install chromium)."""

import re
import shutil
import tempfile
from pathlib import Path

import pytest

from tests.program.nrdb.common.browser import DARK, LIGHT, needs_chromium, used
from tests.program.nrdb.common.support import EXAMPLES, HUNTS, nrdb, shown

pytestmark = pytest.mark.together

MISSED = HUNTS / "missed-release.jsonl"
OWED = 262  # from this step on, goroutine 14 owes a release
HOSTILE = "</script><img src=x onerror=\"document.title='obeyed'\"><b>\u202e`"


def page_of(path: Path, *words: str) -> str:
    """The text of the timeline page for a recording."""
    with tempfile.TemporaryDirectory() as folder:
        file = Path(folder) / "page.html"
        nrdb(*words, "--timeline", file, path)
        return file.read_text(encoding="utf-8")


def opened(page: str) -> str:
    """The page, with access to the names inside its script."""
    end = "})(JSON.parse("
    assert page.count(end) == 1
    return page.replace(end, f"window.inside = {{ arrows, drawRows, V, C }};\n{end}")


@pytest.fixture(scope="module")
def page() -> str:
    return page_of(MISSED, "-ex", "watch gor 14", "-ex", "goto 9")


@needs_chromium
def test_wheel_and_keys_zoom_and_move(page: str) -> None:
    values = used(
        page,
        """
            const see = (name) => { told[name] = range(); };
            see("all"); wheel(600, 300, -300); wheel(600, 300, -300); see("in"); wheel(600, 300, 0, { deltaX: 200 }); see("right");
            wheel(600, 300, 300); see("out"); key("0"); see("fit"); key("w"); see("w"); key("d"); see("d"); key("a"); see("a");
            key("s"); see("s"); key("+"); see("plus"); key("-"); see("minus"); key("0");
            wheel(600, 300, -300); point("pointerdown", 600, 300); point("pointermove", 500, 300); point("pointerup", 500, 300);
            see("dragged"); click(200, 15); see("overview");
            """,
    )
    wide = {name: last - first for name, (first, last) in values.items()}
    assert values["all"] == [0, 1430]
    assert wide["in"] < 500
    assert values["right"][0] > values["in"][0]
    assert wide["out"] > wide["in"]
    assert values["fit"] == values["all"]
    assert wide["w"] < 1430 and wide["plus"] < wide["s"] and wide["minus"] > wide["plus"], wide
    assert values["d"][0] > values["w"][0]
    assert values["a"][0] < values["d"][0]
    assert values["dragged"][0] > 0
    assert values["overview"][0] == 0


@needs_chromium
def test_keys_choose_and_find_both_ways(page: str) -> None:
    recording = shown(MISSED).recording
    resets = [n for n in range(1, recording.length + 1) if "release" == recording.step(n).kind]
    values = used(
        page,
        """
            told.first = position(); key("ArrowRight"); told.right = [position(), location.hash]; key("ArrowLeft"); key("ArrowLeft");
            told.left = position(); key("End"); told.end = position(); key("Home"); told.home = position();
            search("release "); told.found = text("said"); key("n"); told.next = position(); key("n"); told.second = position();
            key("N"); told.back = position(); key("N"); told.round = position(); key("Escape"); told.forgotten = text("said");
            search("gor 14"); told.of = text("said"); key("Enter", document.getElementById("find")); told.enter = position();
            location.hash = "#77"; await new Promise((done) => setTimeout(done, 50)); told.address = position();
            document.querySelector("#panel .go").click(); key("c"); key("?"); told.help = text("help"); key("?");
            told.hidden = document.getElementById("help").hidden;
            """,
    )
    own = [n for n in range(1, recording.length + 1) if recording.step(n).argument("g") == 14]
    assert (values["first"], values["right"], values["left"]) == (9, [10, "#10"], 8)
    assert (values["end"], values["home"]) == (recording.length, 0)
    assert f"{len(resets)} steps" in values["found"]
    assert [values[name] for name in ("next", "second", "back", "round")] == [*resets[:2], resets[0], resets[-1]]
    assert "positions" in values["forgotten"]
    assert f"{len(own)} steps" in values["of"]
    assert values["enter"] in own
    assert (values["address"], values["hidden"]) == (77, True)
    assert "Each value is netrev's own" in values["help"]


@needs_chromium
def test_suspects_clicks_and_hovering_tell_in_words(page: str) -> None:
    values = used(
        page,
        """
            told.suspects = text("suspects"); document.querySelector("#suspects button").click(); told.at = [position(), location.hash];
            told.range = range(); told.panel = text("panel");
            for (let y = 110; y < 500 && !told.tip; y += 6) {
                point("pointermove", 700, y);
                if (text("tip").startsWith("goroutine 14")) { told.tip = text("tip"); told.row = y; }
            }
            click(250, told.row); told.clicked = position(); key("]"); told.change = position(); key("["); told.before = position();
            """,
    )
    assert "missed release" in values["suspects"]
    assert values["at"] == [OWED, f"#{OWED}"]
    assert values["range"][0] <= OWED <= values["range"][1] < 400, values["range"]
    assert re.search(r"gor 14\s+idle → owing 3 0 1\s+owes 1 release to writers of socket 3", values["panel"])
    assert "goto 262" in values["panel"]
    assert re.search(r"goroutine 14: \S.*\n", values["tip"])
    assert re.search(r"from \d+ \(.*\) to ", values["tip"])
    assert (values["change"], values["before"]) == (OWED, 188)
    assert OWED - 60 < values["clicked"] < OWED


@needs_chromium
def test_the_address_names_a_position(page: str) -> None:
    assert used(page, "told.at = position();", place=f"#{OWED}")["at"] == OWED


@needs_chromium
def test_arrows_begin_and_changes_are_in_the_use_of_that_time() -> None:
    values = used(
        opened(page_of(EXAMPLES / "real/hung.jsonl")),
        """
            const { arrows, drawRows, V, C } = inside, named = drawRows(C.clientWidth, C.clientHeight), rowOf = (y) => V.rows[Math.floor((y - V.head + V.top) / V.high)];
            told.arrows = arrows(named).map(([step, from]) => [step, rowOf(from).name, rowOf(from).begins ?? 0, rowOf(from).ends ?? 9999]);
            const again = V.rows.find((row) => row.kind === "desc" && V.rows.some((one) => one.name === row.name && one.begins < row.begins));
            const uses = V.rows.filter((row) => row.name === again.name).sort((one, other) => one.begins - other.begins), second = uses[1];
            click(20, V.head - V.top + (V.rows.indexOf(second) + 0.5) * V.high);
            told.uses = [uses[0].begins, second.begins, second.ends]; told.changes = [];
            key("Home"); for (let n = 0; n < 30; n++) { key("]"); told.changes.push(position()); }
            """,
    )
    assert len(values["arrows"]) > 5
    wrong = [arrow for arrow in values["arrows"] if not arrow[2] <= arrow[0] - 1 < arrow[3]]
    assert wrong == []
    assert len({arrow[2] for arrow in values["arrows"] if arrow[1].startswith("desc")}) > 2
    first, begins, ends = values["uses"]
    assert first < begins
    assert all(begins <= position <= ends for position in values["changes"]), values["changes"]
    assert len(set(values["changes"])) > 2


@needs_chromium
def test_light_and_dark(page: str) -> None:
    seen = {}
    for name, scheme in (("light", LIGHT), ("dark", DARK)):
        script = (
            "told.ground = getComputedStyle(document.body).backgroundColor; told.pixel = pixel(4, box().height - 4);"
        )
        values = used(page, script, scheme=scheme)
        assert [int(part) for part in re.findall(r"\d+", values["ground"])] == values["pixel"]
        seen[name] = sum(values["pixel"])
    assert seen["light"] > 600
    assert seen["dark"] < 150


@needs_chromium
def test_a_narrow_screen_has_room_for_all(page: str) -> None:
    script = """
            const sizes = (name) => { const one = document.querySelector(name).getBoundingClientRect(); return [one.width, one.height, one.bottom]; };
            told.main = sizes("main"); told.panel = sizes("aside"); told.wide = document.documentElement.scrollWidth;
            told.screen = [innerWidth, innerHeight];
        """
    values = used(page, script, size=(500, 900))
    wide, high = values["screen"]
    assert (values["main"][0], values["panel"][0], values["wide"]) == (wide, wide, wide)
    assert values["main"][1] > 0.35 * high
    assert values["panel"][2] <= high


@needs_chromium
def test_without_suspects_the_run_has_the_screen() -> None:
    page = page_of(EXAMPLES / "temporary-break.jsonl")
    values = used(page, "told.high = box().height; told.screen = innerHeight; told.suspects = text('suspects');")
    assert values["suspects"] == ""
    assert values["high"] > 0.85 * values["screen"]


@needs_chromium
def test_texts_of_others_stay_texts(folder: Path) -> None:
    path = folder / "<img src=x onerror=document.title='obeyed'>.jsonl"
    shutil.copy(EXAMPLES / "real/hijacked.jsonl", path)
    where = (EXAMPLES / "real/hijacked.where").read_text(encoding="utf-8")
    hostile = HOSTILE.replace('"', '\\"')
    assert '"file":"main.go"' in where
    path.with_suffix(".where").write_text(where.replace('"file":"main.go"', f'"file":"{hostile}"'), encoding="utf-8")
    page = page_of(path)
    values = used(
        page,
        """
            await new Promise((done) => setTimeout(done, 300)); told.title = document.title; told.name = text("name");
            told.panel = text("panel");
            told.made = document.querySelectorAll("img, #panel b, #suspects b b").length; told.suspects = text("suspects");
            """,
        place="#107",
    )
    assert HOSTILE not in page
    assert "\u202e" not in page
    assert values["made"] == 0
    assert values["title"].startswith("<img src=x onerror"), values["title"]
    assert "<img src=x" in values["name"]
    assert "</script><img src=x" in values["panel"]
    assert "\\u202e" in values["panel"]
