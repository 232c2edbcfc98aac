"""The recorder's Go code numbers and names its points as the table of kinds does."""

import re
from pathlib import Path

import netrev_go
from netrev.text.vocabulary import NUMBERS
from netrev_go.log.points import PointKind

GO = Path(netrev_go.__file__).parent / "go"
PROGRAM = Path(__file__).resolve().parents[3] / "crates/nr_rev/src/kind.rt"
# the block of constants below the comment that announces it
OF_KINDS = re.compile(r"^// Kinds of points[^\n]*\nconst \((.*?)^\)", re.MULTILINE | re.DOTALL)
CONSTANT = re.compile(r"^\tnetrev(\w+?)(?:Kind)? += (\d+)\b", re.MULTILINE)
A_NUMBER = re.compile(r"netrev(?:Swap|Closed|Point|Poll|PollAlone|Order|Channel)\(\d")
# points whose names in Go and in Python differ
OTHERWISE = {
    "CheckAgain": PointKind.CHECK,
    "EventCame": PointKind.EVENT,
    "Closed": PointKind.CHANNEL_CLOSED,
    "Ended": PointKind.FOUND_CLOSED,
}


def in_go() -> dict[str, int]:
    """The kinds of points in all Go files."""
    blocks = [block for file in (GO / "log").glob("*.go") for block in OF_KINDS.findall(file.read_text())]
    return {name: int(number) for block in blocks for name, number in CONSTANT.findall(block)}


def named(name: str) -> PointKind:
    """The kind with this name in Go."""
    spaced = re.sub(r"(?<=[a-z])(?=[A-Z])|(?<=RW)(?=[A-Z])", "_", name)
    return OTHERWISE.get(name) or PointKind[spaced.upper()]


def test_go_has_each_kind_by_its_number() -> None:
    found = in_go()
    assert {name: int(named(name)) for name in found} == found
    assert {named(name) for name in found} == set(PointKind)


def test_no_point_is_called_by_a_number() -> None:
    called = [(file.name, bare) for file in GO.rglob("*.go") for bare in A_NUMBER.findall(file.read_text())]
    assert called == []


def test_kinds_are_in_the_order_of_the_program() -> None:
    of_the_program = re.findall(r"^    \(Kind::\w+, \"(\w+)\"\)", PROGRAM.read_text(), re.MULTILINE)
    assert NUMBERS == {name: number for number, name in enumerate(of_the_program, 1)}
