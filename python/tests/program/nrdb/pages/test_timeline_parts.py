"""The page of a part of a long recording, in chromium. It opens at the part that has values, and each side of a
descriptor that is reused many times has only one row. Skipped without chromium (Debian: apt-get install chromium)."""

import subprocess
from pathlib import Path
from typing import Any

import pytest

from netrev.timeline import page_contents
from tests.program.nrdb.common.browser import CHROMIUM, used
from tests.program.support.sharing import ROOT

from .test_timeline_page import page_of

pytestmark = pytest.mark.skipif(CHROMIUM is None, reason="no chromium is on this machine")
STEPS, PART = 600, 200
NAMES = "V, D, GROUPS, isHere, place, valueAt"
SEEN = """
told.position = position(); told.panel = text("panel"); told.first = inside.D.first; told.last = inside.D.last;
told.view = [inside.V.from, inside.V.from + inside.V.span - 1]; told.here = inside.isHere(inside.V.chosen);
told.rows = inside.GROUPS.flatMap(([socket, rows]) => rows.filter((row) => ["desc", "due"].includes(row.kind)).map((row) => `${socket} ${row.name}`));
told.uses = inside.D.uses.length;
const isUsed = (row, socket, at) => inside.D.uses.some(([d, s, from, to]) => d === row.of && s === socket && from <= at && at < (to ?? Infinity));
told.compared = 0;
told.unlike = [];
for (const [socket, rows] of inside.GROUPS) for (const row of rows.filter((row) => row.kind === "desc")) {
  for (let at = inside.D.first; at <= inside.D.last; at++) {
    const shown = row.runs[inside.place(row.runs, at)]?.[1] ?? "absent";
    if (shown !== (isUsed(row, socket, at) ? inside.valueAt(row.cell, at) : "absent")) told.unlike.push([row.name, socket, at, shown]);
    told.compared++;
  }
}
"""


@pytest.fixture(scope="module")
def mix(tmp_path_factory: pytest.TempPathFactory) -> Path:
    """A recording in which a socket reuses a descriptor many times."""
    file = tmp_path_factory.mktemp("mix") / "mix.jsonl"
    words = ["awk", "-v", "shape=mix", "-v", f"n={STEPS}", "-f", str(ROOT / "bench/shapes.awk")]
    file.write_bytes(subprocess.run(words, stdin=subprocess.DEVNULL, stdout=subprocess.PIPE, check=True).stdout)
    return file


def seen(path: Path, *words: str, place: str = "") -> dict[str, Any]:
    """The contents of the page when it opens, for a recording that is too long for one page."""
    with pytest.MonkeyPatch.context() as patch:
        patch.setattr(page_contents, "MOST", PART)
        patch.setattr(page_contents, "AT_ONCE", PART)
        page = page_of(path, *words)
    end = "})(JSON.parse("
    assert page.count(end) == 1
    return used(page.replace(end, f"window.inside = {{ {NAMES} }};\n{end}"), SEEN, place=place)


@pytest.fixture(scope="module")
def page(mix: Path) -> dict[str, Any]:
    """The contents of the recording's page when it opens."""
    return seen(mix)


def test_the_page_of_a_part_begins_where_its_values_are(page: dict[str, Any]) -> None:
    assert (page["first"], page["last"]) == (STEPS - PART, STEPS)
    assert page["here"] and page["position"] == STEPS
    assert page["view"] == [STEPS - PART, STEPS]
    assert "not here" not in page["panel"]


def test_the_part_is_round_the_sessions_position(mix: Path) -> None:
    moved = seen(mix, "-ex", "goto 300")
    assert moved["position"] == 300 and moved["first"] <= 300 <= moved["last"]
    assert "not here" not in moved["panel"]


def test_an_address_outside_of_the_part_is_kept(mix: Path) -> None:
    assert seen(mix, place="#7")["position"] == 7


def test_each_side_of_a_descriptor_is_one_row(page: dict[str, Any]) -> None:
    assert page["uses"] > 3
    assert len(page["rows"]) == len(set(page["rows"])), page["rows"]
    assert page["compared"] > PART and page["unlike"] == []
