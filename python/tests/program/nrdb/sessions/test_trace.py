"""`trace` with netrev: the file is complete and contains netrev's answers."""

import gzip
import json
from pathlib import Path

import pytest

from netrev.connection.arriving_changes import ArrivingChanges
from netrev.timeline.trace import COMPARED
from tests.program.nrdb.common.support import EXAMPLES, HUNTS, nrdb
from tests.timeline.test_trace import faults_of


@pytest.fixture
def path(folder: Path) -> Path:
    return folder / "run.json"


def test_the_file_is_whole(path: Path) -> None:
    for words in (("--trace", path), ("--batch", "-ex", f"trace {path}")):
        output = nrdb(*words, HUNTS / "missed-release.jsonl")
        trace = json.loads(path.read_text())
        assert faults_of(trace["traceEvents"]) == []
        slices = [event for event in trace["traceEvents"] if event.get("cat") in ("status", "step")]
        assert f"{path}: 1430 steps, {len(slices)} slices, " in output
        compared = {*range(1430 // COMPARED, 1431, 1430 // COMPARED), 1430}
        assert f"as netrev has them at {len(compared)} positions" in output
        path.unlink()


def test_it_is_packed_where_its_name_says_so(path: Path) -> None:
    packed = path.with_suffix(".json.gz")
    nrdb("--trace", path, EXAMPLES / "real/hijacked.jsonl")
    nrdb("--trace", packed, EXAMPLES / "real/hijacked.jsonl")
    assert gzip.decompress(packed.read_bytes()) == path.read_bytes()
    assert packed.stat().st_size < path.stat().st_size / 5
    marks = [vent["name"] for vent in json.loads(path.read_text())["traceEvents"] if vent["ph"] == "i"]
    assert marks == [f"{number}. deadline left behind" for number in range(1, 5)]


def test_nothing_is_written_where_netrev_answers_otherwise(monkeypatch: pytest.MonkeyPatch, path: Path) -> None:
    monkeypatch.setattr(ArrivingChanges, "pieces", lambda changes: [b"1 gor 0 = parking 0 r\n"])
    output = nrdb("--trace", path, EXAMPLES / "lost-wakeup.jsonl", status=3)
    assert "| netrev answers gor 0 = idle at 1, but its changes give parking 0 r: this is a bug" in output
    assert not path.exists()


def test_a_file_that_cannot_be_written(path: Path) -> None:
    output = nrdb("--trace", path.parent / "none/x.json", EXAMPLES / "first.jsonl", status=3)
    assert "none/x.json: No such file or directory" in output
