"""An editor's breakpoints as marks of netrev, with conditions that nrdb checks."""

from collections.abc import Sequence
from enum import Enum

from netrev.connection.shapes import MARK
from netrev.session.line_hints import hint
from netrev.session.session import Session

from .breakpoint_requests import BreakpointError, BreakpointRequest, is_in, positions_of, refused
from .view.messages import Body


class BreakpointKind(Enum):
    """The kinds of breakpoints, each with the protocol's name for the reason why it stops."""

    LINE = "breakpoint"
    FUNCTION = "function breakpoint"
    DATA = "data breakpoint"


class Marks:
    """The marks of the editor's breakpoints. Marks that were set in the console stay as they are."""

    def __init__(self, session: Session):
        self._session = session
        self._numbers: dict[tuple[BreakpointKind, str], str] = {}
        self._wishes: dict[tuple[BreakpointKind, str], list[BreakpointRequest]] = {}
        self._counted: dict[
            BreakpointRequest, list[int]
        ] = {}  # the positions at which breakpoints with a hit count stop

    def replace(self, sort: BreakpointKind, wishes: Sequence["BreakpointRequest | BreakpointError"]) -> list[Body]:
        """Replaces the breakpoints of a kind. Returns the protocol's answer for each breakpoint, in order."""
        # some marks may have been deleted in the console
        standing = {mark.number for mark in self._session.netrev.marks()}
        self._numbers = {mark: number for mark, number in self._numbers.items() if number in standing}
        wanted = {breakpoint.what for breakpoint in wishes if isinstance(breakpoint, BreakpointRequest)}
        for mark in [mark for mark in self._numbers if mark[0] is sort and mark[1] not in wanted]:
            self._session.ask(f"delete {self._numbers.pop(mark)}")
        for mark in [mark for mark in self._wishes if mark[0] is sort]:
            del self._wishes[mark]
        return [self._set(sort, breakpoint) for breakpoint in wishes]

    def _set(self, sort: BreakpointKind, breakpoint: "BreakpointRequest | BreakpointError") -> Body:
        """Sets a breakpoint, and returns the protocol's object for it."""
        try:
            if isinstance(breakpoint, BreakpointError):
                raise breakpoint
            number = self._number(sort, breakpoint)
        except BreakpointError as why:
            return refused(str(why))
        self._wishes.setdefault((sort, breakpoint.what), []).append(breakpoint)
        return {"id": int(number), "verified": True}

    def _number(self, sort: BreakpointKind, breakpoint: BreakpointRequest) -> str:
        """The number of the mark for a breakpoint; sets the mark if it doesn't exist."""
        if (sort, breakpoint.what) not in self._numbers:
            line = f"{'watch' if sort is BreakpointKind.DATA else 'break'} {breakpoint.what}"
            reply = self._session.ask(line)
            if (mark := MARK.fullmatch(reply)) is None:
                raise BreakpointError(f"{reply}: {hint(line.split(), reply)}")
            self._numbers[sort, breakpoint.what] = mark[1]
        return self._numbers[sort, breakpoint.what]

    def holding(self, numbers: Sequence[str]) -> list[str]:
        """The marks that are hit at the session's position, except marks with a condition that isn't true."""
        marks = {number: mark for mark, number in self._numbers.items()}
        true_marks = self._session.holding(numbers)  # according to the conditions that were set in the console
        return [number for number in true_marks if number not in marks or self._holds(marks[number])]

    def _holds(self, mark: tuple[BreakpointKind, str]) -> bool:
        return any(self._stops(breakpoint) for breakpoint in self._wishes[mark])

    def _stops(self, breakpoint: BreakpointRequest) -> bool:
        """Whether a breakpoint that is reached at the session's position stops there."""
        if breakpoint.times is None:
            return breakpoint.condition is None or self._session.holds(breakpoint.condition)
        if breakpoint not in self._counted:
            self._counted[breakpoint] = breakpoint.stops(self._session, positions_of(self._session, breakpoint.what))
        return is_in(self._counted[breakpoint], self._session.current_position().position)

    def reason(self, number: str) -> str:
        """The protocol's reason for a stop at a mark."""
        sorts = {number: sort for (sort, _), number in self._numbers.items()}
        return sorts.get(number, BreakpointKind.LINE).value
