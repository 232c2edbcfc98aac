"""Breakpoints as an editor requests them: the mark, a condition, a hit count, and a message instead of a stop. All of
these depend only on the position, so they have the same effect in both directions."""

import re
from bisect import bisect_left
from collections.abc import Sequence
from dataclasses import dataclass
from typing import NamedTuple

from netrev.errors import NetrevError
from netrev.messages import editors as texts
from netrev.session.mark_conditions import Condition
from netrev.session.session import Session
from netrev.text.vocabulary import KINDS, cell_of, number_of

from .view.messages import Body

HIT_COUNT = re.compile(r"(==?|>=?|<=?|%)?\s*(\d{1,9})")
IN_BRACES = re.compile(r"\{([^{}]*)\}")
HERE = "position"  # a name in braces that isn't a cell


class BreakpointError(NetrevError):
    """Raised, with the reason, for a breakpoint that can't be set."""


def condition_of(text: str) -> Condition:
    """The condition that a text states; raises BreakpointError if it isn't a condition."""
    condition = Condition.of(text.split())
    if condition is None:
        raise BreakpointError(texts.NOT_A_CONDITION.format(text=text))
    return condition


class HitCount(NamedTuple):
    """A hit count: it selects the hits at which a breakpoint stops. Hits are counted from the recording's start."""

    relation: str
    number: int

    @classmethod
    def of(cls, text: str) -> "HitCount":
        """The hit count in a text, such as 3 or == 3, >= 3, < 3, or % 3 for every third time."""
        found = HIT_COUNT.fullmatch(text.strip())
        number = number_of(found[2]) if found else None
        if found is None or number is None or (found[1] == "%" and not number):
            raise BreakpointError(texts.NOT_A_COUNT.format(text=text))
        return cls((found[1] or "=").replace("==", "="), number)

    def holds(self, count: int) -> bool:
        """Whether a breakpoint with this hit count stops at the Nth time, counted from 1."""
        number = self.number
        return {
            "=": count == number, ">": count > number, ">=": count >= number, "<": count < number, "<=": count <= number,
            "%": count % max(number, 1) == 0,
        }[self.relation]  # fmt: skip


@dataclass(frozen=True)
class BreakpointRequest:
    """A requested breakpoint: the mark in netrev's spelling (empty for a line of the program), its condition, its hit
    count, and its message instead of a stop."""

    what: str
    condition: Condition | None = None
    times: HitCount | None = None
    message: str = ""

    def stops(self, session: Session, positions: Sequence[int]) -> list[int]:
        """The positions at which the breakpoint stops or prints its message. They are selected from `positions`, at
        which the breakpoint is reached, in ascending order."""
        condition, times = self.condition, self.times
        matching = [position for position in positions if condition is None or session.holds(condition, position)]
        return [position for count, position in enumerate(matching, 1) if times is None or times.holds(count)]


def positions_of(session: Session, what: str) -> list[int]:
    """The positions at which a mark of netrev is reached, in ascending order."""
    if what.startswith("@"):
        return [int(what[1:]) - 1]
    if what in KINDS:
        return [step.number - 1 for step in session.text().steps_of((what,), session.length)]
    return list(session.changes().steps_of(what))


def is_in(rising: Sequence[int], position: int) -> bool:
    """Whether a position is among these positions, which are in ascending order."""
    at = bisect_left(rising, position)
    return at < len(rising) and rising[at] == position


def wish_of(what: str, body: Body) -> "BreakpointRequest | BreakpointError":
    """The request for a mark, with the editor's condition, hit count and message, if given."""
    condition, times, message = (_text_of(body, name) for name in ("condition", "hitCondition", "logMessage"))
    try:
        for named in IN_BRACES.findall(message):
            if named.strip() != HERE and cell_of(named.split()) is None:
                raise BreakpointError(texts.NOT_IN_BRACES.format(name=named, here=HERE))
        return BreakpointRequest(
            what, condition_of(condition) if condition else None, HitCount.of(times) if times else None, message
        )
    except BreakpointError as why:
        return why


def _text_of(body: Body, name: str) -> str:
    """A string argument of the request; empty if the argument is missing or isn't a string."""
    value = body.get(name)
    return value if isinstance(value, str) and value.strip() else ""


def kind_wish(body: Body) -> "BreakpointRequest | BreakpointError":
    """The request for a breakpoint at each step of a kind."""
    name = body.get("name")
    if isinstance(name, str) and name in KINDS:
        return wish_of(name, body)
    return BreakpointError(texts.NOT_A_KIND.format(name=name, kinds=" ".join(KINDS)))


def cell_wish(body: Body) -> "BreakpointRequest | BreakpointError":
    """The request for a breakpoint at each change of a cell."""
    identity = body.get("dataId")
    cell = cell_of(str(identity).split())
    return wish_of(cell, body) if cell else BreakpointError(texts.NOT_A_CELL.format(name=identity))


def refused(why: str) -> Body:
    """The protocol's object for a breakpoint that can't be set."""
    return {"verified": False, "message": why}
