"""The editor's exception filters. The filters select steps at which something goes wrong, and a move stops before such
a step."""

from bisect import bisect_left, bisect_right
from collections.abc import Iterable
from enum import Enum
from functools import cached_property
from typing import NamedTuple

from netrev.findings.suspects.ranking import suspects_of
from netrev.messages import editors as texts
from netrev.recording.call import Outcome
from netrev.recording.recording import Recording
from netrev.run.index import run_of

from .messages import Body


class Filter(Enum):
    """The filters, each with its name in the protocol."""

    SUSPECTS = "suspects"
    TIMEOUTS = "timeouts"
    ERRORS = "errors"


LABELS = {Filter.SUSPECTS: "Suspects", Filter.TIMEOUTS: "Timeouts", Filter.ERRORS: "Other errors"}
SAYS = {
    Filter.SUSPECTS: "before a step that `info suspects` names",
    Filter.TIMEOUTS: "before the step with which a call ends with a timeout",
    Filter.ERRORS: "before the step with which a call ends because its socket was closed, or with another error",
}


def offered() -> list[Body]:
    """The filters as the protocol offers them."""
    return [
        {
            "filter": sort.value,
            "label": LABELS[sort],
            "description": SAYS[sort],
            "default": False,
            "supportsCondition": False,
        }
        for sort in Filter
    ]


class Failure(NamedTuple):
    """A step at which something failed: its number, the kind of failure, and the message."""

    step: int
    sort: str
    says: str


class Filters:
    """The filters that are set. The rules run when the first filter is set."""

    def __init__(self, recording: Recording):
        self._recording = recording
        self._set: frozenset[Filter] = frozenset()

    def replace(self, names: Iterable[object]) -> list[Body]:
        """Replaces the filters, and returns the protocol's answer for each."""
        known = {sort.value: sort for sort in Filter}
        all_names = list(names)
        self._set = frozenset(known[name] for name in all_names if isinstance(name, str) and name in known)
        return [
            {"verified": True}
            if name in known
            else {"verified": False, "message": texts.NOT_A_FILTER.format(name=name)}
            for name in all_names
        ]

    @cached_property
    def _all(self) -> dict[Filter, list[Failure]]:
        """Everything that went wrong, by filter, in the order of the steps."""
        shown = [suspect for suspect in suspects_of(self._recording).suspects if suspect.is_shown]
        failed = run_of(self._recording).failed()
        found: dict[Filter, list[Failure]] = {sort: [] for sort in Filter}
        found[Filter.SUSPECTS] = [Failure(suspect.step, suspect.rule, suspect.sentence()) for suspect in shown]
        for call in failed:
            sort = Filter.TIMEOUTS if call.outcome is Outcome.TIMED_OUT else Filter.ERRORS
            found[sort].append(Failure(call.last, call.outcome.value, f"goroutine {call.goroutine}'s {call.words()}"))
        return {sort: sorted(wrong) for sort, wrong in found.items()}

    def _positions(self) -> list[int]:
        """The positions at which the active filters stop, in ascending order."""
        return sorted({wrong.step - 1 for sort in self._set for wrong in self._all[sort]})

    def nearest(self, position: int, forwards: bool) -> int | None:
        """The nearest later (or, backwards, earlier) position at which a filter stops."""
        positions = self._positions()
        at = bisect_right(positions, position) if forwards else bisect_left(positions, position) - 1
        return positions[at] if 0 <= at < len(positions) else None

    def at(self, position: int) -> list[Failure]:
        """What goes wrong at the next step, for the filters that are set."""
        return [
            wrong for sort in Filter if sort in self._set for wrong in self._all[sort] if wrong.step == position + 1
        ]
