"""The timeline's data equal plain queries, and the page needs no external files."""

import json
import random
import re
import tempfile
from pathlib import Path

from netrev.recording.step_changes import RecordedChanges
from tests.program.nrdb.common.support import EXAMPLES, HUNTS, nrdb, recordings, shown

SEED = 20261125
SVG = 'xmlns="http://www.w3.org/2000/svg"'  # a namespace in saved pictures; nothing is fetched from it


def page_of(path, *words):
    """The text of a recording's page, and the data in it."""
    with tempfile.TemporaryDirectory() as folder:
        file = Path(folder) / "page.html"
        nrdb(*words, "--timeline", file, path)
        text = file.read_text()
    return text, data_in(text)


def data_in(text):
    """The data of a page."""
    found = re.search(r'<script type="application/json" id="data">(.*?)</script>', text, re.DOTALL)
    assert found, text
    return json.loads(found[1])


def value_at(runs, position):
    """The value of the last run that begins at or before the position."""
    return [value for start, value in runs if start <= position][-1]


def test_each_position_shows_what_looks_show():
    choose = random.Random(SEED)
    for path in recordings():
        world = shown(path)
        text, data = page_of(path)
        assert (data["first"], data["last"], data["length"]) == (0, world.length, world.length)
        assert not re.search(r"(src|href)=|https?://|@import|url\((?!#)", text.replace(SVG, ""))
        assert data["steps"][1:-1] == [str(world.recording.step(n)) for n in range(1, world.length + 1)]
        for at in {0, world.length, choose.randint(0, world.length), choose.randint(0, world.length)}:
            values = world.at(at)
            result = {cell: value_at(runs, at) for cell, runs in data["cells"].items()}
            assert result == {cell: values[cell] for cell in result}, (path.stem, at)
            left = set(values) - set(result)
            assert {values[cell] for cell in left} == ({"absent"} if left else set()), (path.stem, at)
        for row in data["rows"]:
            runs = data["cells"][row["cell"]]
            assert len(row["shades"]) == len(runs)
            assert all(shade in data["shades"] or shade == "" for shade in row["shades"])
            assert all(before[1] != after[1] for before, after in zip(runs, runs[1:]))


def test_marks_stand_where_they_hit():
    path = HUNTS / "missed-release.jsonl"
    marks = ["watch gor 14", "break release", "break @262"]
    _, data = page_of(path, *(word for mark in marks for word in ("-ex", mark)))
    assert [mark["what"] for mark in data["marks"]] == marks
    assert data["marks"][0]["hits"] == [26, 109, 110, 182, 188, 262]
    recording = shown(path).recording
    releases = [n - 1 for n in range(1, recording.length + 1) if recording.step(n).kind == "release"]
    assert data["marks"][1]["hits"] == releases
    assert data["marks"][2]["hits"] == [261]


def test_a_part_of_the_positions(folder):
    path = HUNTS / "blocked-control.jsonl"
    file = folder / "page.html"
    output = nrdb("--batch", "-ex", f"timeline {file} 990 1000", "-ex", f"timeline {file} 5 3", path)
    data = data_in(file.read_text())
    assert "the recording's positions are 0 to 2088" in output
    assert (data["first"], data["last"]) == (990, 1000)
    values = shown(path).at(995)
    result = {cell: value_at(runs, 995) for cell, runs in data["cells"].items()}
    assert result == {cell: values[cell] for cell in result}


def test_a_part_is_named_behind_the_option(folder):
    path = HUNTS / "blocked-control.jsonl"
    file = folder / "page.html"
    for words in (["--timeline", file, 990, 1000, path], [path, "--timeline", file, 990, 1000]):
        output = nrdb(*words)
        data = data_in(file.read_text())
        assert (data["first"], data["last"], data["isPart"]) == (990, 1000, True)
        assert "positions 990 to 1000" in output
        file.unlink()
    nrdb("--timeline", file, 990, 1000, "-ex", "goto 995", path)
    assert data_in(file.read_text())["position"] == 995
    assert "the recording's positions are 0 to 2088" in nrdb("--timeline", file, 0, 2089, path, status=3)
    nrdb("--timeline", file, path)
    assert not data_in(file.read_text())["isPart"]


def test_a_longer_recording_has_the_values_of_a_part(folder, monkeypatch):
    path = HUNTS / "missed-release.jsonl"
    with monkeypatch.context() as patch:
        patch.setattr("netrev.timeline.page_contents.MOST", 600)
        file = folder / "page.html"
        with monkeypatch.context() as patch:
            patch.setattr("netrev.timeline.page_contents.AT_ONCE", 200)
            nrdb("--timeline", file, path)
        data = data_in(file.read_text())
    assert (data["first"], data["last"], data["length"]) == (112, 312, 1430)
    assert data["suspects"][0]["step"] == 262
    assert data["calls"]["count"] > 100
    values = shown(path).at(300)
    result = {cell: value_at(runs, 300) for cell, runs in data["cells"].items()}
    assert result == {cell: values[cell] for cell in result}


def test_a_page_that_cannot_be_written(folder):
    output = nrdb("--timeline", f"{folder}/none/page.html", recordings()[0], status=3)
    assert "none/page.html: No such file or directory" in output


def test_shades_of_one_kind_differ_in_brightness():
    _, data = page_of(EXAMPLES / "first.jsonl")
    for of in ("goroutine", "descriptor", "socket"):
        for theme in ("light", "dark"):
            colours = [shade[theme] for shade in data["shades"].values() if shade["of"] == of]
            lights = sorted(brightness(colour) for colour in colours)
            assert all(after - before >= 3 for before, after in zip(lights, lights[1:])), (of, theme, lights)


def test_connections_wake_ups_and_suspects():
    _, data = page_of(EXAMPLES / "real/hijacked.jsonl")
    recording = shown(EXAMPLES / "real/hijacked.jsonl").recording
    assert data["groups"] == {"0": 2, "1": 1, "2": 3, "3": 3}
    opened = [step for step in recording.steps_of(("pollopen",), recording.length)]
    assert [use[1:3] for use in data["uses"]] == [[step.argument("s"), step.number] for step in opened]
    closed = [step.number for step in recording.steps_of(("pollclose",), recording.length)]
    assert sorted(use[3] for use in data["uses"] if use[3]) == closed
    assert data["wakes"]
    for number, who, by, where, kind in data["wakes"]:
        step = recording.step(number)
        assert (step.kind, step.argument("g")) == (kind, by)
        before, after = (value_at(data["cells"][f"gor {who}"], at) for at in (number - 1, number))
        assert [before.split()[0], after.split()[0]] == ["parked", "swapping"]
        assert f"desc {' '.join(before.split()[1:])}" == where
    (suspect,) = data["suspects"]
    assert (suspect["rule"], suspect["s"], suspect["d"]) == ("deadline left behind", 3, 2)
    setting = "desc 2 w set 107 by 2 rw moved 115 by 2"
    lines = [f"at 186 passed-deadline {setting}", f"at 197 timeout gor 2 {setting}"]
    assert suspect["netrev"] == [*lines, "at 186 wd 2 = -1", "at 185 wd 2 = 45061869"]
    result = [data["lines"]["texts"][at] for at in data["lines"]["at"]]
    assert result[: recording.length + 1] == [recording.lines.words(step) for step in range(recording.length + 1)]


def test_nothing_is_written_where_netrev_shows_something_else(folder, monkeypatch):
    between = RecordedChanges.between

    def wrong(changes, first, last):
        for step, changed in between(changes, first, last):
            yield step, [(cell, "gone" if cell == "lock 0" else value) for cell, value in changed]

    monkeypatch.setattr(RecordedChanges, "between", wrong)
    file = folder / "page.html"
    output = nrdb("--batch", "-ex", f"timeline {file}", EXAMPLES / "leaked-reference.jsonl")
    assert re.search(r"netrev shows lock 0 = \d+ at \d+, but nrdb computed gone: this is a bug in nrdb", output)
    assert not file.exists()


def brightness(colour):
    """The brightness of a colour, from 0 to 255."""
    red, green, blue = (int(colour[at : at + 2], 16) for at in (1, 3, 5))
    return 0.299 * red + 0.587 * green + 0.114 * blue
