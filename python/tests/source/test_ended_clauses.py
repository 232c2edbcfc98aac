"""The rules about contexts that ended and mutexes that stay locked, clause by clause, and the last time of a recording.
"""

from types import SimpleNamespace as Made
from typing import Any, NamedTuple, cast

import pytest

from netrev.findings.evidence import waiters
from netrev.findings.http import cancellations
from netrev.recording.goroutines import CLOSED, PUT
from netrev.recording.waits import Name

Patch = pytest.MonkeyPatch


def test_the_last_step_of_the_calls_before_a_step() -> None:
    calls = [Made(last=last) for last in (3, 7, 0, 9)]
    index = cast(Any, Made(by_goroutine={2: calls}))
    found = [cancellations.last_step_before(index, 2, step) for step in (3, 4, 8, 9, 10)] + [
        cancellations.last_step_before(index, 1, 10)
    ]
    assert found == [0, 3, 7, 7, 9, 0]


@pytest.mark.parametrize(
    "change, says",
    [
        ({}, "goroutine 4 had cancelled it at a.go:7 (step 30)."), ({"what": PUT}, "the timeout of 5s"), ({"closer": 5}, "the timeout of 5s"), ({"end": 20}, "goroutine 4 had cancelled it at a.go:7 (step 30)."),
        ({"end": 21}, "the timeout of 5s"), ({"of": "main.f"}, "the timeout of 5s"), ({"of": "main.f", "limits": False}, "goroutine 4 had cancelled it (step 30)."), ({"function": "main.f"}, ""),
        ({"made": False}, ""),
    ],
)  # fmt: skip
def test_a_function_that_a_context_s_end_started(change: dict[str, Any], says: str, monkeypatch: Patch) -> None:
    usual = {
        "what": CLOSED, "closer": 4, "end": 12, "of": cancellations.OF_A_CONTEXT, "limits": True, "function": cancellations.AFTER_FUNC, "made": True,
    }  # fmt: skip
    case = Made(**(usual | change))
    monkeypatch.setattr(
        cancellations,
        "contains",
        lambda stack, function: function == cancellations.OF_A_CONTEXT and stack[1] == function,
    )
    monkeypatch.setattr(
        cancellations, "limits_before", lambda recording, begin, least: ["5s"] if case.limits and begin == 20 else []
    )
    monkeypatch.setattr(cancellations, "limit_sentence", lambda index, limits: f"the timeout of {limits[0]}")
    monkeypatch.setattr(cancellations, "place_in", lambda stack: f" at {stack[0]}")
    monkeypatch.setattr(cancellations, "name_of_goid", lambda lines, goid: Name(goid))
    monkeypatch.setattr(cancellations, "deferred_sentence", lambda index, cancel: [f"deferred {cancel.use.end}"])
    uses = [
        Made(what=case.what, goid=case.closer, end=case.end, stack=1), Made(what=CLOSED, goid=4, end=9, stack=2),
    ]  # fmt: skip
    known = Made(made=Made(function=case.function) if case.made else None, maker=4, begin=20, first=30)
    stacks = {1: ("a.go:7", case.of), 2: ("a.go:9", "main.g")}
    lines = Made(goroutines={70: known}, goid_of=lambda goroutine, step: goroutine * 10, uses={5: uses}, stacks=stacks)
    found = cancellations.after_sentence(cast(Any, Made(recording=Made(lines=lines))), 33, 7)
    more = [f"deferred {case.end}"] if "at a.go" in says else []
    assert found == ([f"context.AfterFunc called that as its context ended: {says}", *more] if says else [])


class Hashable(NamedTuple):
    """A recording that can be a key: the lines aren't a part of its hash."""

    lines: Any

    def __hash__(self) -> int:
        return id(self.lines)


@pytest.mark.parametrize(
    "uses, parks, times, last",
    [([], [], [], 0), ([5, 9, 3], [], [], 9), ([], [(4, 8), (6, 2)], [], 8), ([], [(2, 1), (9, 3), (4, 0)], [], 9), ([], [], [3, 7], 7), ([5], [(6, 8)], [3, 4], 8)],
)  # fmt: skip
def test_the_last_time_of_a_recording(
    uses: list[int], parks: list[tuple[int, int]], times: list[int], last: int
) -> None:
    lines = Made(uses={number: [Made(end=end)] for number, end in enumerate(uses)}, times=times)
    lines.parks = {1: [Made(begin=begin, end=end) for begin, end in parks]}
    waiters.last_time_of.cache_clear()
    assert waiters.last_time_of(cast(Any, Hashable(lines))) == last
