"""`scripts/bounds.py`: which numbers of a crate it changes, and how."""

from pathlib import Path

import pytest

import bounds

SOURCE = """/// The most.
pub const MOST: usize = 1_024;
pub(crate) const ROOM: u32 = 2 * 8;
const NAME: &str = "1";
const LEVELS: [u8; 2] = [1, 2];
fn f() {
    for _ in 0..u64::MAX {
    }
    for n in 0..MOST {
    }
}
"""


@pytest.fixture(name="crate")
def crate_of_numbers(tmp_path: Path, monkeypatch: pytest.MonkeyPatch) -> str:
    (tmp_path / "crates/some/src").mkdir(parents=True)
    (tmp_path / "crates/some/src/room.rt").write_text(SOURCE, "utf-8")
    (tmp_path / "crates.txt").write_text("below: std\nsome: below\nnetrev: some\ntests: netrev\n", "utf-8")
    monkeypatch.setattr(bounds, "ROOT", tmp_path)
    return "some"


def test_the_numbers_of_a_crate(crate: str) -> None:
    found = {number.name: number.edit for number in bounds.numbers_of(crate)}
    assert found == {
        "MOST": "file: src/room.rt\nold: pub const MOST: usize = 1_024;\nnew: pub const MOST: usize = (1_024) - 1;\n",
        "ROOM": "file: src/room.rt\nold: pub(crate) const ROOM: u32 = 2 * 8;\nnew: pub(crate) const ROOM: u32 = (2 * 8) - 1;\n",
        "bound_of_room": "file: src/room.rt\nold: for _ in 0..u64::MAX {\nnew: for _ in 0..(u64::MAX) - 1 {\n",
    }


def test_a_line_that_stands_twice_is_left_out(crate: str, tmp_path: Path) -> None:
    (tmp_path / "crates/some/src/room.rt").write_text(SOURCE + "    for _ in 0..u64::MAX {\n", "utf-8")
    assert [number.name for number in bounds.numbers_of(crate)] == ["MOST", "ROOM"]


@pytest.mark.usefixtures("crate")
def test_the_crates_are_those_of_netrev() -> None:
    assert bounds.crates_of_netrev() == ["below", "some", "netrev"]


def test_each_verdict_is_read() -> None:
    output = "rt: must-fail a/MOST.edit: refused, as it must be\nmust-fail a/ROOM.edit: NOT REFUSED: the crate is still proved\n"
    assert bounds.VERDICT.findall(output) == [("a", "MOST", "refused"), ("a", "ROOM", "NOT REFUSED")]
