"""The timeline's calls and findings equal nrdb's other answers. Chromium draws them, also on a phone's screen; the
tests fold, filter, pick and save them. Skipped without chromium (Debian: apt-get install chromium)."""

import json
import re
import shutil
import struct
import xml.etree.ElementTree as ET
from base64 import b64decode
from collections.abc import Sequence
from itertools import accumulate
from pathlib import Path
from typing import Any

import pytest

from netrev.findings.evidence.waiters import is_waiting
from netrev.findings.suspects.ranking import all_suspects_of
from netrev.recording.recording import Recording
from netrev.run.index import run_of
from netrev.timeline.calls import COLUMNS, packed
from tests.program.nrdb.common.browser import needs_chromium, used
from tests.program.nrdb.common.devtools import Chromium
from tests.program.nrdb.common.support import EXAMPLES, nrdb

from .test_timeline import data_in
from .test_timeline_page import page_of

pytestmark = pytest.mark.together

REAL = EXAMPLES / "real"
# for each real recording, the rule that finds its bug, the steps that the page shows for it, and a call that must be
# visible
BUGS = {
    "hijacked": ("deadline left behind", [107, 115, 186, 197], "Write · timed out · main.go:39"),
    "hung": ("hangs", [290, 299], "Read · hangs · main.go:13"),
    "leak": ("leaked reference", [61, 71], "Control · hasn't ended · main.go:60"),
    "half": ("write after CloseWrite", [65, 69], "Write · broken pipe · main.go:128"),
    "lost": ("lost wake-up", [64, 67, 68], "Read · hangs · main.go:52"),
    "past": ("deadline taken back too soon", [70, 74], "Read · hangs · main.go:38"),
}
NAMES = "V, C, D, CALLS, STORIES, FOLDED, PINNED, ONLY, GROUPS, callWords, whoIs, xOf, positionAt, timeAt, sumsOf, svgOf, keyOf, labels, numbersOf"
STATES = ["done", "failed", "hangs", "open", "listens"]


def opened(page: str) -> str:
    """The page, with access to the names inside its script."""
    end = "})(JSON.parse("
    assert page.count(end) == 1
    return page.replace(end, f"window.inside = {{ {NAMES} }};\n{end}")


def numbers_in(reports: Any, count: int) -> Sequence[int]:
    """The numbers of a column of calls. The column is either one value that all calls have, or the number of bytes per
    number together with all numbers in base64."""
    if not isinstance(reports, list):
        return [reports] * count
    wide, text = reports
    assert wide != 8
    kind = {1: "B", 2: "H", 4: "I"}[wide]
    return struct.unpack(f"<{count}{kind}", b64decode(text))


def test_calls_are_those_of_the_book() -> None:
    for name in BUGS:
        recording = Recording.read(str(REAL / f"{name}.jsonl"))
        data = data_in(page_of(REAL / f"{name}.jsonl"))["calls"]
        texts, step, result = data["texts"], 0, []
        data |= {part: numbers_in(data[part], data["count"]) for part in COLUMNS}
        for at, begins in enumerate(data["first"]):
            step += begins
            last = step + data["long"][at] - 1 if data["long"][at] else 0
            result.append([data["g"][at], data["s"][at], step, last, texts[data["line"][at]], data["waited"][at]])
        wanted = [
            [call.goroutine, call.socket, call.first, call.last, recording.lines.words(call.first), call.waited]
            for call in run_of(recording).calls
        ]
        assert result == wanted, name
        left = [call for call in run_of(recording).calls if not call.last and is_waiting(run_of(recording), call)]
        hanging = {(item.goroutine, item.first) for item in left}
        hangs = {(g, at) for (g, _, at, *_), state in zip(result, data["state"]) if STATES[state] == "hangs"}
        assert hangs == hanging, name


def test_stories_are_the_suspects_or_the_causes() -> None:
    for name, (rule, steps, _) in BUGS.items():
        recording = Recording.read(str(REAL / f"{name}.jsonl"))
        data = data_in(page_of(REAL / f"{name}.jsonl"))
        suspects = [suspect.sentence() for suspect in all_suspects_of(recording).suspects if suspect.is_shown]
        assert [suspect["says"] for suspect in data["suspects"]] == suspects
        assert bool(data["causes"]) == (not suspects)
        first = (data["suspects"] + data["causes"])[0]
        assert (first["rule"], first["steps"]) == (rule, steps), name
        assert first["texts"] == [str(recording.step(step)) for step in steps]


def test_suspects_by_calls_are_told_too() -> None:
    path = Path(__file__).parents[3] / "caused/both-bad.jsonl"
    found = [suspect for suspect in all_suspects_of(Recording.read(str(path))).suspects if suspect.is_shown]
    result = data_in(page_of(path))["suspects"]
    assert found
    assert [(item["rule"], item["step"]) for item in result] == [(item.rule, item.step) for item in found]


@pytest.fixture(scope="module")
def pages() -> dict[str, str]:
    return {name: opened(page_of(REAL / f"{name}.jsonl")) for name in BUGS}


@needs_chromium
def test_a_call_of_gos_own_code_is_labelled_with_its_function() -> None:
    page = opened(page_of(EXAMPLES / "races/http-watchdog.jsonl"))
    labels = used(page, "told.calls = inside.CALLS.map(inside.callWords);")["calls"]
    assert [label for label in labels if label.endswith(" · in")] == []
    assert "Write · closed · in internal/poll.(*fdMutex).rwlock" in labels


@needs_chromium
def test_each_bug_is_there_when_the_page_opens(pages: dict[str, str]) -> None:
    for name, (rule, steps, words) in BUGS.items():
        values = used(
            pages[name],
            """
                told.position = position(); told.panel = text("panel"); told.above = text("suspects"); told.range = range();
                told.calls = inside.CALLS.map(inside.callWords); told.steps = inside.STORIES[inside.V.story].steps;
                told.svg = inside.svgOf();
                """,
        )
        length = Recording.read(str(REAL / f"{name}.jsonl")).length
        assert values["range"] == [0, length]
        assert values["position"] in steps
        assert values["steps"] == steps
        assert values["above"].startswith(rule), values["above"]
        for step in steps:
            assert f"{step}: " in values["panel"]
        assert words in values["calls"]
        drawn = [node.text or "" for node in ET.fromstring(values["svg"]).iter() if node.tag.endswith("}text")]
        for number in range(1, len(steps) + 1):
            assert str(number) in drawn
        begins = words.split(" ")[0]
        assert any(item.startswith(begins) for item in drawn), (name, drawn)


@needs_chromium
def test_who_hangs_is_marked_to_the_end(pages: dict[str, str]) -> None:
    values = used(
        pages["lost"],
        """
            const { V, C, D, CALLS, xOf } = inside, call = CALLS.find((one) => one.state === 2);
            const at = V.rows.findIndex((row) => row.kind === "call" && row.calls.includes(call)), y = V.head - V.top + at * V.high;
            told.red = getComputedStyle(document.documentElement).getPropertyValue("--bad");
            told.pixels = [];
            const from = Math.round(xOf(call.first - 1)), wide = Math.round(xOf(D.length + 1)) - from;
            const seen = picture.getContext("2d").getImageData(from * devicePixelRatio, (y + 6) * devicePixelRatio, wide, 1).data;
            for (let at = 0; at < wide; at++) told.pixels.push([...seen.slice(4 * at, 4 * at + 3)]);
            """,
    )
    red = [int(values["red"][at : at + 2], 16) for at in (1, 3, 5)]
    far = [sum(abs(item - other) for item, other in zip(pixel, red)) for pixel in values["pixels"]]
    assert min(far[: len(far) // 4]) < 30
    assert min(far[-len(far) // 4 :]) < 200, far
    assert all(pixel[0] > pixel[2] for pixel in values["pixels"]), values["pixels"]


@needs_chromium
def test_rows_fold_pin_and_filter_by_keys_and_buttons(pages: dict[str, str]) -> None:
    values = used(
        pages["hijacked"],
        """
            const { V, FOLDED, PINNED, ONLY, keyOf } = inside, rows = () => V.rows.map((row) => row.head || keyOf(row));
            const press = (words) => [...document.querySelectorAll("#panel .buttons button")].find((one) => one.textContent === words).click();
            told.before = rows(); key("j"); told.first = V.row; key("f"); told.folded = rows(); key("j"); told.other = V.row; key("k");
            document.querySelector("#suspects button").click(); told.unfolded = [...FOLDED];
            key("0"); key("j"); key("p"); told.pinned = rows(); press("unpin"); told.unpinned = rows();
            key("o"); told.connection = rows(); told.only = ONLY.s; press("all rows"); told.all = rows(); key("k"); key("g"); told.goroutine = rows(); told.who = ONLY.g;
            key("Escape"); told.forgotten = rows();
            """,
    )
    heads = [item for item in values["before"] if item.startswith("connection")]
    assert heads == ["connection 3", "connection 0", "connection 1", "connection 2"]
    assert values["first"] == "call 3 1"
    under = [item for item in values["before"] if item not in values["folded"]]
    assert values["before"].index(under[0]) == values["before"].index("connection 3") + 1
    assert values["before"].index(under[-1]) == values["before"].index("connection 0") - 1
    assert values["unfolded"] == []
    assert values["other"] != values["first"]
    assert values["pinned"][1] == "pinned"
    assert values["unpinned"] == values["before"]
    assert [item for item in values["connection"] if item.startswith("connection")] == [f"connection {values['only']}"]
    assert values["all"] == values["before"]
    mine = [item for item in values["goroutine"] if item.startswith(("call", "gor"))]
    assert mine and all(item.split()[-1] == str(values["who"]) for item in mine), values["goroutine"]
    assert values["forgotten"] == values["before"]


@needs_chromium
def test_a_span_has_its_length_its_calls_and_its_waits(pages: dict[str, str]) -> None:
    values = used(
        pages["hijacked"],
        """
            const { V, C, CALLS, xOf, sumsOf, labels } = inside, slide = (name, position) => picture.dispatchEvent(new PointerEvent(name, { ...at(xOf(position) + 1, 300), shiftKey: true }));
            slide("pointerdown", 100); slide("pointermove", 150); slide("pointermove", 187); slide("pointerup", 187);
            told.dragged = [V.picked.from, V.picked.to]; told.sums = Object.fromEntries(sumsOf(V.picked)); told.panel = text("panel");
            key("Escape"); told.none = V.picked; location.hash = "#20"; await new Promise((done) => setTimeout(done, 50));
            key("m"); key("ArrowRight"); key("ArrowRight"); key("m"); told.pressed = [V.picked.from, V.picked.to];
            const row = V.rows.findIndex((one) => one.kind === "call" && one.g === 2), call = CALLS.find((one) => one.g === 2 && one.first > 150 && one.name === "Read");
            click((xOf(call.first) + xOf(call.last)) / 2, V.head - V.top + (row + 0.5) * V.high);
            told.clicked = [V.picked.from, V.picked.to]; told.call = [call.first - 1, call.last];
            """,
    )
    assert values["dragged"] == [100, 187]
    recording = Recording.read(str(REAL / "hijacked.jsonl"))
    inside = [call for call in run_of(recording).calls if call.first <= 187 and (not call.last or call.last > 100)]
    counted = sum(int(part.split()[0]) for part in values["sums"]["calls"].split(", "))
    assert counted == len(inside)
    assert values["sums"]["steps"] == "100 to 187, 87 steps"
    assert re.search(r"^\d goroutines?, \d+ steps, [\d.]+ ms in all$", values["sums"]["asleep"])
    assert "100 to 187, 87 steps" in values["panel"]
    assert values["none"] is None
    assert values["pressed"] == [20, 22]
    assert values["clicked"] == values["call"]


@needs_chromium
def test_the_axis_is_by_steps_or_by_time(pages: dict[str, str]) -> None:
    values = used(
        pages["hijacked"],
        """
            const { V, D, xOf, positionAt, timeAt } = inside, axis = document.getElementById("axis");
            told.before = axis.textContent; key("t"); told.after = [axis.textContent, axis.getAttribute("aria-pressed")];
            told.x = []; for (let p = 0; p <= D.length; p++) told.x.push(xOf(p));
            told.back = told.x.map(positionAt); told.times = told.x.map((_, p) => timeAt(p));
            for (let n = 0; n < 6; n++) wheel(700, 300, -200); told.zoomed = [V.from, V.span]; key("0"); key("t"); told.again = axis.textContent;
            """,
    )
    assert (values["before"], values["after"], values["again"]) == ("steps", ["time", "true"], "steps")
    assert all(item < other for item, other in zip(values["x"], values["x"][1:]))
    assert all(abs(back - position) < 0.1 for position, back in enumerate(values["back"])), values["back"]
    wide = values["x"][-1] - values["x"][0]
    for position, (x, now) in enumerate(zip(values["x"], values["times"])):
        assert (x - values["x"][0]) / wide == pytest.approx(now / values["times"][-1], abs=0.06), str(position)
    assert values["zoomed"][1] < 120


@needs_chromium
def test_the_axis_of_time_is_the_recorders(folder: Path, monkeypatch: pytest.MonkeyPatch) -> None:
    recording = Recording.read(str(REAL / "hijacked.jsonl"))
    later = [1_000 * (step % 7) ** 3 for step in range(1, recording.length + 1)]
    times = [later[0], *accumulate(later)]
    path = folder / "hijacked.jsonl"
    shutil.copy(REAL / "hijacked.jsonl", path)
    where = (REAL / "hijacked.where").read_text(encoding="utf-8")
    path.with_suffix(".where").write_text(f"{where}{json.dumps({'times': later})}\n", encoding="utf-8")
    page = opened(page_of(path))
    script = """
                const { V, D, xOf, timeAt } = inside; key("t"); told.x = []; told.times = [];
                for (let p = 0; p <= D.length; p++) { told.x.push(xOf(p)); told.times.push(timeAt(p)); }
                told.half = timeAt(6.5); key("?"); told.help = text("help");
            """
    values = used(page, script)
    with monkeypatch.context() as patch:
        patch.setattr("netrev.timeline.page_contents.MOST_TIMES", 10)
        few = used(opened(page_of(path)), script)
    wide = values["x"][-1] - values["x"][0]
    for seen in (values, few):
        assert seen["times"] == times
        for x, now in zip(seen["x"], times):
            assert (x - seen["x"][0]) / wide == pytest.approx((now - times[0]) / (times[-1] - times[0]), abs=0.002)
    assert values["half"] == (times[6] + times[7]) / 2
    assert "by the recorder's time of each step" in values["help"]


@needs_chromium
def test_pictures_are_saved(folder: Path, pages: dict[str, str]) -> None:
    with Chromium() as chromium:
        file = folder / "page.html"
        file.write_text(pages["leak"], encoding="utf-8")
        page = chromium.page(f"file://{file}")
        page.until("window.inside && document.getElementById('panel').innerText.includes('position')")
        text = "document.getElementById('said').innerText"
        page.value(
            "window.made = []; URL.createObjectURL = (blob) => { made.push(blob); return '#'; }; URL.revokeObjectURL = () => {}; 1"
        )
        result: dict[str, Any] = {}
        for name in ("svg", "png"):
            page.value(f"document.getElementById('{name}').click()")
            page.until(f"{text} === 'saved: leak.{name}'")
            result[name] = page.value(text)
        result["types"] = page.value("made.map((blob) => blob.type)")
        result["text"] = page.value("made[0].text()")
        result["begins"] = page.value(
            "made[1].arrayBuffer().then((all) => String.fromCharCode(...new Uint8Array(all).slice(1, 4)))"
        )
        assert page.wrongs() == []
    assert (result["svg"], result["png"]) == ("saved: leak.svg", "saved: leak.png")
    assert (result["types"], result["begins"]) == (["image/svg+xml", "image/png"], "PNG")
    picture = ET.fromstring(result["text"])
    words = [node.text or "" for node in picture.iter() if node.tag.endswith("}text")]
    assert any(word.startswith("Control · hasn") for word in words), words
    assert "connection 2" in " ".join(words)
    assert sum(1 for node in picture.iter() if node.tag.endswith("}rect")) > 80
    assert "goroutine 2 holds a reference" in "".join(picture.itertext())


@needs_chromium
def test_on_a_phone_the_sentence_can_be_read_whole(folder: Path, pages: dict[str, str]) -> None:
    with Chromium() as chromium:
        for name in BUGS:
            file = folder / f"{name}.html"
            file.write_text(pages[name], encoding="utf-8")
            page = chromium.page("about:blank")
            page.does("Emulation.setDeviceMetricsOverride", width=390, height=844, deviceScaleFactor=2, mobile=True)
            page.does("Page.navigate", url=f"file://{file}")
            page.until("window.inside && document.getElementById('panel').innerText.includes('position')")
            text: dict[str, Any] = page.value(
                "(() => { const one = document.querySelector('#suspects .chosen'), box = one.getBoundingClientRect(), all = document.getElementById('suspects').getBoundingClientRect();"
                " return { says: one.innerText, hidden: one.scrollWidth > one.clientWidth || one.scrollHeight > one.clientHeight,"
                " top: box.top - all.top, bottom: all.bottom - box.bottom, wide: document.documentElement.scrollWidth, picture: inside.C.clientHeight }; })()"
            )
            assert BUGS[name][0] in text["says"]
            assert not text["hidden"], name
            assert min(text["top"], text["bottom"]) >= -1, name
            assert (text["wide"], text["picture"] > 200) == (390, True), name
            assert page.wrongs() == []


@needs_chromium
def test_numbers_beyond_32_bits_are_read(pages: dict[str, str]) -> None:
    wide, text = packed([2**32, 1])
    values = used(pages["hung"], f'told.numbers = [...inside.numbersOf([{wide}, "{text}"])];')
    assert values["numbers"] == [2**32, 1]


@needs_chromium
def test_a_part_has_the_calls_of_the_whole_run(folder: Path) -> None:
    file = folder / "part.html"
    nrdb("--batch", "-ex", f"timeline {file} 100 150", REAL / "hijacked.jsonl")
    page = opened(file.read_text(encoding="utf-8"))
    values = used(
        page,
        """
            told.range = range(); key("0"); told.whole = range(); told.calls = inside.CALLS.length; told.rows = inside.V.rows.length;
            key("End"); told.panel = text("panel"); search("rwlock"); told.found = text("said");
            """,
    )
    assert (values["range"], values["whole"]) == ([100, 150], [0, 216])
    assert values["calls"] == len(run_of(Recording.read(str(REAL / "hijacked.jsonl"))).calls)
    assert values["rows"] > 8
    assert "netrev's values of positions 100 to 150 are here" in values["panel"]
    assert "from 100 to 150" in values["found"]
