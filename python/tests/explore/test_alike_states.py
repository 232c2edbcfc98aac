"""Tests which states count as alike: a schedule continues from both in the same way. The states may differ in
the numbers of their objects, and in values that no later step can read."""

from typing import Any

import pytest

from netrev.explore.numbered_state import NumberedState
from netrev.machine.machine import Timer
from netrev.text.contents import Limits, Step
from netrev.text.vocabulary import KINDS

Steps = list[Step]
PARK: Steps = [("waitbegin", 1, 0, "r"), ("blockarm", 1), ("blockcheck", 1), ("parkcommit", 1)]
QUEUED: Steps = [("rwlock", 0, 0, "r"), ("rwlock", 1, 0, "r"), ("acquire", 1)]
CLOSED: Steps = [("increfclose", 0, 0), ("decref", 0, 0)]
BYTES: Steps = [("arrive", 0, b"hi")]
HELD: Steps = [("incref", 1, 0)]
LATE: Steps = [("setdeadline", 0, 0, "r", 5), ("tick", 5), ("pop",)]
SETS: Steps = [("setdeadline", 0, 0, "r", 5)]


def at(which: int, steps: Steps) -> Steps:
    """The steps, moved to this socket and descriptor."""
    return [
        (step[0], *(which if form in "sd" else value for form, value in zip(KINDS[step[0]].arguments, step[1:])))
        for step in steps
    ]


def state_of(steps: Steps, is_swapped: bool) -> NumberedState:
    """The state after steps of a recording with two goroutines and two open sockets. The numbers of sockets and
    descriptors are swapped in a schedule that opens the second socket first."""
    state = NumberedState(Limits(4, 3, 3, 16))
    opened: Steps = [("spawn",), *[("sockopen", 16, 16)] * 2, ("pollopen", 0, 0), ("pollopen", 0, 1)]
    for step in opened:
        state.machine.step(step)
    for which in (0, 1):
        number = 1 - which if is_swapped else which
        state.add_socket(which, number)
        state.add_use(which, which, number)
    for step in steps:
        named: dict[str, Any] = {form: value for form, value in zip(KINDS[step[0]].arguments, step[1:])}
        if is_swapped and step[0] != "fire":
            named |= {form: 1 - named[form] for form in "sd" if form in named}
        state.machine.step((step[0], *named.values()))
    return state


@pytest.mark.parametrize("are_swapped", [(False, False), (False, True), (True, False), (True, True)])
@pytest.mark.parametrize(
    ("steps", "others", "is_alike"),
    [
        ([], [], True),
        ([("tick", 3)], [("tick", 3)], True),
        ([("tick", 3)], [("tick", 4)], False),
        ([("spawn",)], [], False),
        (HELD + [("decref", 1, 0)], [], True),
        (BYTES, BYTES, True),
        (BYTES, [], False),
        (BYTES, at(1, BYTES), False),
        (PARK, PARK, True),
        (PARK, PARK[:3], False),
        (PARK, at(1, PARK), False),
        (PARK[:1], at(1, PARK[:1]), False),  # (only the goroutine knows the descriptor)
        (QUEUED, QUEUED, True),
        (QUEUED, at(1, QUEUED), False),
        (QUEUED, QUEUED[:2], False),
        ([("exit", 1)], [], False),
        ([("pollevent", 0, 1, "r", 0)], [("pollevent", 0, 1, "r", 0)], True),
        ([("pollevent", 0, 1, "r", 0)], [], False),
        ([("pollevent", 0, 1, "r", 0)], [("pollevent", 0, 1, "w", 0)], False),
        (SETS, SETS, True),
        (SETS, [("setdeadline", 0, 0, "r", 6)], False),
        (SETS, [("setdeadline", 0, 0, "w", 5)], False),
        (SETS, at(1, SETS), False),
        (SETS, [("setdeadline", 0, 0, "r", 3), *SETS], True),  # (how often it was set doesn't matter)
        (LATE, LATE, True),
        (LATE, LATE[:2], False),
        (LATE, [*LATE, ("setdeadline", 0, 0, "r", -1)], False),  # (the timer isn't that of the last setting)
        (BYTES + CLOSED, CLOSED, True),  # (nothing can read them)
        (BYTES + CLOSED, at(1, BYTES + CLOSED), False),
        (BYTES + CLOSED, BYTES, False),
        (BYTES + HELD + CLOSED, HELD + CLOSED, False),  # (a goroutine still has a reference)
        (BYTES + HELD + CLOSED, CLOSED, False),
        (BYTES + QUEUED + CLOSED[:1], QUEUED + CLOSED[:1], False),
    ],
)  # fmt: skip
def test_states_are_alike(steps: Steps, others: Steps, is_alike: bool, are_swapped: tuple[bool, bool]) -> None:
    one, other = (state_of(made, is_swapped) for made, is_swapped in zip((steps, others), are_swapped))
    assert one.is_equivalent_to(other) == other.is_equivalent_to(one) == is_alike


def timer(descriptor: int, when: int = 5, side: str = "r", sequence: int = 1) -> Timer:
    return Timer(when, 1, descriptor, side, side, sequence)


@pytest.mark.parametrize("is_swapped", [False, True])
@pytest.mark.parametrize(
    ("of", "value", "other", "is_alike"),
    [
        *(("goroutines", ("entering", 0, "r"), other, is_alike) for other, is_alike in ((("entering", 0, "r"), True), (("entering", 1, "r"), False), (("entering", 0, "w"), False), (("armed", 0, "r"), False))),
        *(("goroutines", ("queued", 1, "r"), other, is_alike) for other, is_alike in ((("queued", 1, "r"), True), (("queued", 0, "r"), False), (("queued", 1, "w"), False))),
        ("goroutines", ("idle",), ("gone",), False),
        *((of, [timer(0)], other, is_alike) for of in ("timers", "firings") for other, is_alike in (
            ([timer(0)], True), ([timer(1)], False), ([timer(0, 6)], False), ([timer(0, side="w")], False), ([timer(0, sequence=2)], False), ([], False), ([timer(0)] * 2, False),
        )),
        *((of, [timer(0, sequence=3)], [timer(0, sequence=2)], True) for of in ("timers", "firings")),
    ],
)  # fmt: skip
def test_each_part_of_a_state_is_compared(of: str, value: Any, other: Any, is_alike: bool, is_swapped: bool) -> None:
    """The last setting of each deadline has the sequence 1."""
    states = []
    for part, swapped in ((value, False), (other, is_swapped)):
        state = state_of(SETS + at(1, SETS), swapped)
        for d in (0, 1):
            state.machine.put("descs", d, state.machine.descs[d]._replace(sequences=(1, 1)))
        if of == "goroutines":
            named = (part[0], 1 - part[1] if swapped else part[1], *part[2:]) if part[1:] else part
            state.machine.put(of, 1, named)
        else:
            setattr(state.machine, of, tuple(one._replace(desc=1 - one.desc if swapped else one.desc) for one in part))
        states.append(state)
    one, other = states
    assert one.is_equivalent_to(other) == other.is_equivalent_to(one) == is_alike


@pytest.mark.parametrize(("name", "value"), [("open_uses", {0: 0}), ("sockets", {0: 0}), ("open_uses", {0: 1, 1: 0})])
def test_both_states_have_the_same_objects(name: str, value: dict[int, int]) -> None:
    one, other = state_of([], False), state_of([], False)
    setattr(other, name, value)
    assert not one.is_equivalent_to(other) and not other.is_equivalent_to(one)


def test_what_remains_from_an_earlier_use_of_a_descriptor_doesnt_matter() -> None:
    one, other, ready = state_of([], False), state_of([], False), state_of([("pollevent", 0, 1, "r", 0)], False)
    for state in (one, ready):
        state.machine.put("descs", 0, state.machine.descs[0]._replace(fdseq=4, sequences=(3, 5), socket=1))
    assert one.is_equivalent_to(other)
    assert not one.is_equivalent_to(ready) and not other.is_equivalent_to(ready)
