"""The forms of netrev's replies, which docs/reference/COMMANDS.md describes. Each reply must have the form for its
line, so that nrdb doesn't mistake it for the reply to another line. A reply in another form isn't netrev's."""

import re
from collections.abc import Callable
from typing import Match, NamedTuple

from netrev.errors import NetrevError
from netrev.messages import session as messages
from netrev.text.vocabulary import CELLS, MOST_STANDING

SHOWN = 60
_SIDED = "acquiring|queued|relock|entering|armed|parking|parked|swapping|checking"
_NUMBER = r"\d{1,20}"
_WORD = rf"nil|ready|wait|g{_NUMBER}"
_TIME = rf"-?{_NUMBER}"

POSITION = re.compile(r"at (\d{1,7}) of (\d{1,7}) (forward|reverse)")
MOVED = re.compile(r"at (\d{1,7})(?: (?:(end|start)|by((?: \d{1,10})+)))?")
LISTING = re.compile(r"(?:marks|checkpoints) (\d{1,2})")
LISTED = re.compile(r"(\d{1,10}) (break|tbreak|watch) (\S+(?: \d{1,10})?)")
MARK = re.compile(r"mark (\d{1,10})")
VALUE = re.compile(r"(\w+(?: \d{1,10})?) = (.*)", re.DOTALL)
OF_CELL = {
    **{name: re.compile(f"absent|{_NUMBER}") for name in CELLS},
    "gor": re.compile(rf"absent|idle|gone|(?:{_SIDED}) {_NUMBER} [rw]|owing {_NUMBER} {_NUMBER} {_NUMBER}"),
    **{name: re.compile(f"absent|{_WORD}") for name in ("rg", "wg")},
    **{name: re.compile(f"absent|{_TIME}") for name in ("rd", "wd")},
}
OF_DUMP = {
    **{name: re.compile("absent|-|(?:[0-9a-f]{2})+") for name in ("in", "out")},
    **{name: re.compile(rf"absent|-|{_NUMBER}(?: {_NUMBER})*") for name in ("rq", "wq")},
}


class LineRefusedError(NetrevError):
    """Raised, with the reply, if netrev refused a line."""


class StrangeReplyError(NetrevError):
    """Raised for a reply that netrev never sends: another program must have answered."""

    def __init__(self, line: str, reply: str):
        shown = reply if len(reply) <= SHOWN else f"{reply[: SHOWN - 2]}.."
        super().__init__(messages.NOT_NETREV.format(line=line, reply=shown))


class Position(NamedTuple):
    """A session's position, the number of steps, and the direction."""

    position: int
    steps: int
    direction: str


class Move(NamedTuple):
    """The result of a move: the new position, whether it is an end of the recording, and the numbers of the marks that
    were hit."""

    position: int
    is_end: bool
    marks: tuple[str, ...]


class ListedMark(NamedTuple):
    """A mark of `info breakpoints`: its number, its kind (`break`, `tbreak` or `watch`), and what it marks."""

    number: str
    sort: str
    what: str

    def __str__(self) -> str:
        return " ".join(self)


def matched(shape: re.Pattern[str], line: str, reply: str) -> Match[str]:
    """The parts of a reply to this line. If the reply doesn't have this form, raises LineRefusedError for a fault, and
    StrangeReplyError for anything else."""
    found = shape.fullmatch(reply)
    if found is None:
        raise LineRefusedError(reply) if reply.startswith("fault ") else StrangeReplyError(line, reply)
    return found


def position_of(reply: str) -> Position:
    """The reply to `info position`, parsed."""
    found = matched(POSITION, "info position", reply)
    return Position(int(found[1]), int(found[2]), found[3])


def move_of(line: str, reply: str) -> Move:
    """The reply to a move, parsed."""
    found = matched(MOVED, line, reply)
    return Move(int(found[1]), bool(found[2]), tuple((found[3] or "").split()))


def mark_of(line: str) -> ListedMark:
    """An entry of `info breakpoints`, parsed."""
    return ListedMark(*matched(LISTED, "info breakpoints", line).groups())


def entries_in(line: str, first: str) -> int:
    """The number of entries that follow the first line of a reply."""
    if not first.startswith(("marks ", "checkpoints ")):
        return 0
    count = int(matched(LISTING, line, first)[1])
    if count > MOST_STANDING:
        raise StrangeReplyError(line, first)
    return count


def value_of(line: str, reply: str) -> str:
    """The value in the reply to `print CELL` or `dump WHAT S`."""
    verb, _, what = line.partition(" ")
    found = matched(VALUE, line, reply)
    shape = (OF_CELL if verb == "print" else OF_DUMP)[what.split()[0]]
    if found[1] != what or not shape.fullmatch(found[2]):
        raise StrangeReplyError(line, reply)
    return found[2]


def is_shaped(what: str, value: str, is_dump: bool) -> bool:
    """Whether a cell, or a dump, can have this value."""
    shape = (OF_DUMP if is_dump else OF_CELL).get(what.split()[0])
    return shape is not None and shape.fullmatch(value) is not None


def go_to(position: int, ask: Callable[[str], str]) -> str:
    """Goes to a position in either direction, and returns the reply to the last command. `ask` sends a line to
    netrev."""
    now, _, direction = position_of(ask("info position"))
    if position == now:
        return f"at {now}"
    if position < now:
        return ask(f"reverse-stepi {now - position}")
    if direction == "forward":
        return ask(f"stepi {position - now}")
    ask("set exec-direction forward")
    reply = ask(f"stepi {position - now}")
    ask("set exec-direction reverse")
    return reply
