"""The parts of a schedule: who waits for whom, when the network acts, the schedules that are kept, and how far a run
goes."""

import io
import pickle
from collections import Counter
from typing import Any

import pytest

from netrev.explore.control_flow import NEVER, MissingObjectError, Operation, ScriptPlace
from netrev.explore.environment import CLOCK, MOST_TRIES, NETWORK, UNKNOWN, Environment, steps_past_deadline
from netrev.explore.hangs import ended_by
from netrev.explore.numbered_state import NumberedState
from netrev.explore.orders import Order, OrderProgress, Trigger, orders_of, triggers_of
from netrev.explore.scheduler import Scheduler
from netrev.explore.schedules import Delay, Schedule
from netrev.explore.script import Action, Script, script_of
from netrev.explore.search import Search
from netrev.explore.workers import LENGTH, Best, Report, Share, run_share
from netrev.reduce.events import Event
from netrev.run.flow import OperationType
from netrev.text.contents import Limits, Step
from tests.suspects.test_suspects import COMES, OPEN, PARK, READ, Steps, recording_of

GETS: Steps = [["arrive", 0, "6869"], ["rwlock", 1, 0, "r"], ["pollreset", 1, 0, "r"], ["sysread", 1, 0, 16]]
READS: Steps = [*GETS, ["rwunlock", 1, 0, "r"]]


def sets(time: int) -> Steps:
    return [["incref", 0, 0], ["setdeadline", 0, 0, "r", time], ["decref", 0, 0]]


# ---- the orders that every schedule keeps


def test_operations_are_ordered_as_the_program_ordered_their_steps() -> None:
    goroutines = [
        [Operation(OperationType.REFER, 0, steps=[1]), Operation(OperationType.GIVE_UP, 0, steps=[5])],
        [Operation(OperationType.LOCK, 0, steps=[2]), Operation(OperationType.READ, 0, steps=[3, 4]), Operation(OperationType.UNLOCK, 0, steps=[9])],
    ]  # fmt: skip
    pairs = [(1, 4), (1, 2), (4, 5), (2, 3), (1, 77), (77, 4)]
    assert orders_of(goroutines, pairs) == [[Order(1, 1, 1)], [Order(0, 0, 0), Order(1, 0, 0)]]
    assert orders_of(goroutines, None) is None


@pytest.mark.parametrize(
    ("operations", "waits_for"), [((0, 0), None), ((1, 0), 0), ((1, 2), 0), ((1, 3), None), ((2, 3), 0), ((2, 5), None)]
)
def test_a_goroutine_waits_for_the_operations_before_its_own(
    operations: tuple[int, int], waits_for: int | None
) -> None:
    """Goroutine 1 begins operation 1 after operation 2 of goroutine 0, and operation 2 after operation 4."""
    places = [ScriptPlace(operations[1]), ScriptPlace(operations[0])]
    orders = OrderProgress([[], [Order(1, 0, 2), Order(2, 0, 4)]], [], places)
    for progress in (orders, orders.copy(places)):
        assert progress.predecessor(1) == waits_for
        assert progress.predecessor(0) is None
    assert OrderProgress(None, [], places).predecessor(1) is None


@pytest.mark.parametrize(
    ("places", "number", "waits_for"),
    [
        ([ScriptPlace(0), ScriptPlace(0)], 4, None),  # (an action before the cause)
        ([ScriptPlace(0), ScriptPlace(0)], 5, 0),
        ([ScriptPlace(2, 0), ScriptPlace(0)], 9, 0),
        ([ScriptPlace(2, 1), ScriptPlace(0)], 9, 0),
        ([ScriptPlace(2, 2), ScriptPlace(0)], 9, 1),
        ([ScriptPlace(3), ScriptPlace(0)], 9, 1),
        ([ScriptPlace(3), ScriptPlace(0)], 6, None),
        ([ScriptPlace(3), ScriptPlace(1)], 9, None),
    ],
)
def test_the_network_waits_for_the_steps_to_which_it_may_react(
    places: list[ScriptPlace], number: int, waits_for: int | None
) -> None:
    """Step 4 is the second of operation 2 of goroutine 0; step 6 is the first of operation 0 of goroutine 1."""
    orders = OrderProgress(None, [Trigger(4, 0, 2, 1), Trigger(6, 1, 0, 0)], places)
    for progress in (orders, orders.copy(places)):
        assert progress.trigger_goroutine(number) == waits_for


def test_triggers_are_in_their_order() -> None:
    goroutines = [[Operation(OperationType.WRITE, 0, steps=[7, 8, 9], kinds=["syswrite", "waitbegin", "syswrite"])], [Operation(OperationType.SHUT, 0, steps=[3], kinds=["closewrite"])]]  # fmt: skip
    assert triggers_of(goroutines, ["syswrite", "closewrite"]) == [
        Trigger(3, 1, 0, 0),
        Trigger(7, 0, 0, 0),
        Trigger(9, 0, 0, 2),
    ]


# ---- the network and the clock


def item(kind: str, *arguments: Any, timer: Any = None, number: int = 9) -> Action:
    return Action(9.0, Event(number, kind, arguments, ("done",), timer), timer)


OPENED: list[Step] = [("spawn",), ("sockopen", 4, 3), ("sockopen", 4, 3), ("pollopen", 0, 0), ("pollopen", 0, 1)]
FULL: list[Step] = [("arrive", 1, b"abc")]
WRITTEN: list[Step] = [("syswrite", 0, 1, b"ab")]
TIMED: list[Step] = [("setdeadline", 0, 0, "r", 5), ("setdeadline", 0, 1, "rw", 6), ("setdeadline", 0, 0, "w", 9)]


def begun(steps: list[Step], ordinals: list[int]) -> tuple[Environment, NumberedState]:
    """Socket 5 of the recording is the schedule's socket 1, and uses 0 and 1 are its descriptors 1 and 0."""
    state = NumberedState(Limits(4, 3, 3, 16))
    for step in (*OPENED, *steps):
        state.machine.step(step)
    state.add_socket(5, 1)
    state.descriptors, state.fdseqs = {0: 1, 1: 0}, {0: 1, 1: 1}
    return Environment(Script(Limits(4, 3, 3, 16), 20, [], {}, [], [], [5, 0], ordinals, [], [])), state


@pytest.mark.parametrize(
    ("action", "steps", "wanted"),
    [
        (item("spawn"), [], [("spawn",)]),
        (item("sockopen", 8, 4), [], [("sockopen", 8, 4)]),
        (item("tick", 6), [], [("tick", 6)]),
        (item("tick", 6), [("tick", 6)], [("tick", 6)]),
        (item("tick", 6), [("tick", 7)], []),
        (item("arrive", 5, b"a"), FULL, [("arrive", 1, b"a")]),
        (item("arrive", 5, b"ab"), FULL, None),  # there is no room yet
        (item("arrive", 5, b"a"), [("peerclose", 1)], []),
        (item("peerclose", 5), [], [("peerclose", 1)]),
        (item("peerclose", 5), [("peerclose", 1)], []),
        (item("drain", 5, 2), WRITTEN, [("drain", 1, 2)]),
        (item("drain", 5, 1), WRITTEN, [("drain", 1, 1)]),
        (item("drain", 5, 3), WRITTEN, None),  # 3 bytes haven't been written yet
        (item("drain", 5, 2), [*WRITTEN, ("peerclose", 1)], [("drain", 1, 2)]),
        (item("pollevent", 0, 1, "r", 0), [], [("pollevent", 1, 1, "r", 0)]),
        (item("pollevent", 1, 4, "rw", 1), [], [("pollevent", 0, 4, "rw", 1)]),
        (item("pop", timer=(0, "r")), [*TIMED, ("tick", 6)], [("pop",)] * 2),
        (item("pop", timer=(1, "r")), [*TIMED, ("tick", 6)], [("pop",)]),
        (item("pop", timer=(1, "w")), [*TIMED, ("tick", 8)], []),
        (item("pop", timer=(1, "r")), [*TIMED, ("tick", 4)], []),
        (item("fire", 0, timer=(0, "r")), [*TIMED, ("tick", 6), ("pop",), ("pop",)], [("fire", 1)]),
        (item("fire", 0, timer=(0, "r")), [*TIMED, ("tick", 6), ("pop",)], []),
    ],
)  # fmt: skip
def test_an_action_has_the_numbers_of_the_schedule(
    action: Action, steps: list[Step], wanted: list[Step] | None
) -> None:
    environment, state = begun(steps, [0, 0])
    assert environment.steps_of(action, state) == wanted
    for step in wanted or ():
        state.machine.step(step)  # (each applies)


@pytest.mark.parametrize(("tag", "given"), [(3, 1), (4, 2), (2, 0), (1, 0)])
def test_an_events_tag_is_as_far_from_its_descriptors(tag: int, given: int) -> None:
    """In the recording, use 0 was its descriptor's third use. In the schedule, it is another descriptor's first use."""
    environment, state = begun([], [2, 0])
    assert environment.steps_of(item("pollevent", 0, tag, "r", 0), state) == [("pollevent", 1, given, "r", 0)]


@pytest.mark.parametrize("action", [item("arrive", 6, b"a"), item("drain", 0, 1), item("pollevent", 2, 1, "r", 0)])
def test_an_action_waits_for_its_object(action: Action) -> None:
    environment, state = begun([], [0, 0])
    with pytest.raises(MissingObjectError):
        environment.steps_of(action, state)


def test_an_action_waits_for_room_only_so_often() -> None:
    environment, state = begun(FULL, [0, 0])
    found = [environment.steps_of(item("arrive", 5, b"ab"), state) for _ in range(MOST_TRIES + 1)]
    assert found == [None] * (MOST_TRIES - 1) + [[], []]
    assert environment.steps_of(item("arrive", 5, b"ab", number=10), state) is None  # (each action by itself)


@pytest.mark.parametrize(
    ("steps", "left"),
    [
        ([], []),
        ([("setdeadline", 0, 0, "r", 5)], []),
        ([("setdeadline", 0, 0, "r", 5), ("tick", 5)], [("pop",)]),
        ([("setdeadline", 0, 0, "r", 5), ("setdeadline", 0, 0, "w", 9), ("tick", 5)], [("pop",)]),
        ([("setdeadline", 0, 0, "r", 5), ("tick", 5), ("pop",)], [("fire", 0)]),
        ([("waitbegin", 1, 1, "r"), ("blockarm", 1), ("blockcheck", 1), ("parkcommit", 1)], []),
        ([("waitbegin", 1, 1, "r"), ("blockarm", 1), ("blockcheck", 1), ("parkcommit", 1), ("arrive", 1, b"a")], [("pollevent", 1, 1, "r", 0)]),
        ([("waitbegin", 1, 1, "r"), ("blockarm", 1), ("blockcheck", 1), ("parkcommit", 1), ("peerclose", 1)], [("pollevent", 1, 1, "r", 0)]),
        ([("waitbegin", 1, 1, "r"), ("blockarm", 1), ("blockcheck", 1), ("parkcommit", 1), ("arrive", 0, b"a")], []),
        ([("waitbegin", 1, 1, "w"), ("blockarm", 1), ("blockcheck", 1), ("parkcommit", 1), ("arrive", 1, b"a")], []),
        ([("syswrite", 0, 1, b"a"), ("waitbegin", 1, 1, "w"), ("blockarm", 1), ("blockcheck", 1), ("parkcommit", 1), ("drain", 1, 1)], [("pollevent", 1, 1, "w", 0)]),
        ([("waitbegin", 1, 1, "r"), ("blockarm", 1), ("arrive", 1, b"a")], []),
    ],
)  # fmt: skip
def test_what_is_left_when_no_goroutine_continues(steps: list[Step], left: list[Step]) -> None:
    environment, state = begun([], [0, 0])
    for step in steps:
        state.machine.step(step)
        environment.record(step, state)
    assert list(environment.remaining_steps(state)) == left


def test_an_event_reports_what_came_to_its_own_descriptor() -> None:
    waits: list[Step] = [
        ("arrive", 1, b"a"),
        ("waitbegin", 1, 1, "r"),
        ("blockarm", 1),
        ("blockcheck", 1),
        ("parkcommit", 1),
    ]
    for event, is_left in (((1, 1, "r"), False), ((1, 1, "w"), True), ((1, 7, "r"), True), ((0, 1, "r"), True)):
        environment, state = begun([], [0, 0])
        for step in (waits[0], ("pollevent", *event, 0), *waits[1:]):
            environment.record(step, state)
            if step[0] != "pollevent":
                state.machine.step(step)
        assert bool(list(environment.remaining_steps(state))) == is_left, event


@pytest.mark.parametrize(
    ("steps", "other_steps", "is_alike"),
    [
        ([("arrive", 1, b"a")], [("arrive", 1, b"b")], True),
        ([("arrive", 1, b"a")], [], False),
        ([("arrive", 1, b"a")], [("peerclose", 1)], True),
        ([("arrive", 1, b"a")], [("arrive", 0, b"a")], False),
        ([("syswrite", 0, 1, b"ab"), ("drain", 1, 2)], [], False),
        ([("syswrite", 0, 1, b"ab"), ("drain", 1, 2)], [("syswrite", 0, 0, b"ab"), ("drain", 0, 2)], False),
        ([("syswrite", 0, 1, b"ab"), ("drain", 1, 2)], [("arrive", 1, b"a")], False),
        ([("arrive", 1, b"a"), ("pollevent", 1, 1, "r", 0)], [], True),
        ([("arrive", 1, b"a"), ("pollevent", 1, 1, "w", 0)], [], False),
        ([("arrive", 1, b"a"), ("increfclose", 0, 1)], [], True),  # (no goroutine can wait for them)
        ([("arrive", 1, b"a"), ("increfclose", 0, 0)], [], False),
    ],
)  # fmt: skip
def test_what_no_event_has_reported_yet_is_compared(steps: list[Step], other_steps: list[Step], is_alike: bool) -> None:
    made = []
    for row in (steps, other_steps):
        environment, state = begun([], [0, 0])
        for step in row:
            state.machine.step(step)
            environment.record(step, state)
        made.append(environment)
    one, other = made
    assert one.is_equivalent_to(other) == other.is_equivalent_to(one) == is_alike
    assert one.is_equivalent_to(one.copy()) and one.is_identical_to(one.copy())
    assert one.is_identical_to(other) == (one.unreported == other.unreported and one.closed == other.closed)
    other.finish((NETWORK, 0), item("arrive", 5, b"a"))
    assert not one.is_equivalent_to(other) and not one.is_identical_to(other)


@pytest.mark.parametrize(
    ("step", "now", "wanted"),
    [
        (("pollreset", 1, 0, "r"), 0, [("tick", 5), ("pop",), ("fire", 0)]),
        (("pollreset", 1, 0, "w"), 0, [("tick", 9), *[("pop",)] * 3, *[("fire", 0)] * 3]),
        (("pollreset", 1, 1, "w"), 0, [("tick", 6), *[("pop",)] * 2, *[("fire", 0)] * 2]),
        (("pollreset", 1, 0, "r"), 7, [("tick", 7), ("pop",), ("fire", 0)]),
        (("waitbegin", 1, 0, "r"), 0, []),
    ],
)
def test_a_deadline_passes(step: Step, now: int, wanted: list[Step]) -> None:
    _, state = begun([*TIMED, *([("tick", now)] if now else [])], [0, 0])
    assert steps_past_deadline(state, step) == wanted
    for one in wanted:
        state.machine.step(one)
    _, bare = begun([("setdeadline", 0, 0 if step[2] else 1, "rw", 1)], [0, 0])
    assert steps_past_deadline(bare, step) == []  # (another descriptor's)


# ---- the schedules


def test_the_simplest_schedule_is_kept_with_the_first_place() -> None:
    one, other = Best((1, 7), 5, 5, Schedule((Delay(1, 8),), 0)), Best((1, 4), 9, 9, Schedule((Delay(2, 6),), 0))
    two = Best((2, 2), 3, 3, Schedule((Delay(1, 2), Delay(4, 5)), 1))
    for first, second, kept in ((one, other, (9, 5)), (one, two, (5, 3)), (other, two, (9, 3))):
        assert (first.with_other(second).at, first.with_other(second).first) == kept
        assert first.with_other(second) == second.with_other(first)


@pytest.mark.parametrize(
    ("operation", "ended"),
    [(0, None), (1, 8), (2, 8), (3, None)],
)
def test_the_deadline_that_ended_a_call(operation: int, ended: int | None) -> None:
    """Step 5 sets the deadline of the other side, and step 8 that of this one, which ends the wait; step 17 comes
    later."""
    other: Steps = [["incref", 0, 0], ["setdeadline", 0, 0, "w", -1], ["decref", 0, 0]]
    steps = (
        OPEN + other + sets(-1) + [["rwlock", 1, 0, "r"], ["pollreset", 1, 0, "r"], ["rwunlock", 1, 0, "r"]] + sets(-1)
    )
    script = script_of(recording_of(steps))
    assert [one.sort for one in script.goroutines[1]] == [
        OperationType.LOCK,
        OperationType.RESET,
        OperationType.WAIT,
        OperationType.UNLOCK,
    ]
    assert ended_by(script, 1, ScriptPlace(operation)) == ended
    assert ended_by(script, 0, ScriptPlace(0)) is None


def test_a_process_reports_all_that_it_found() -> None:
    recording = recording_of(OPEN + sets(5) + READS + READS)
    script = script_of(recording)
    whole = Search(script, recording.lines.words)
    whole.run(30, lambda: None)
    out = io.BytesIO()
    run_share(Share(script, recording.lines, 30, 0, 1), out)
    data, told = out.getvalue(), list[Report]()
    while data:
        size = int.from_bytes(data[:LENGTH], "big")
        told.append(pickle.loads(data[LENGTH : LENGTH + size]))
        data = data[LENGTH + size :]
    assert [one.is_final for one in told] == [*[False] * (len(told) - 1), True]
    assert sum(one.tried for one in told) == whole.tried > 0
    assert sum((Counter(one.times) for one in told), Counter()) == whole.times
    assert {key for one in told for key in one.best} == set(whole.found)


def test_a_run_ends_before_a_time_or_after_so_many_steps() -> None:
    script = script_of(
        recording_of(OPEN + READ + PARK + COMES + [["blockswap", 1], ["sysread", 1, 0, 16], ["rwunlock", 1, 0, "r"]])
    )
    for until in range(1, script.length + 2):
        player = Scheduler(script)
        player.run(until, 1_000)
        assert [made.number for made in player.steps] == list(range(1, until))
        few = Scheduler(script)
        few.run(NEVER, until)
        assert [made.number for made in few.steps] == list(range(1, min(until, script.length) + 1))
        again = player.copy(())
        again.run(NEVER, until + 2)
        assert [made.number for made in again.steps] == list(range(until, script.length + 1))[:3]


def test_an_actor_that_has_done_everything_has_no_next_action() -> None:
    script = script_of(recording_of(OPEN + COMES + [["tick", 3]]))
    environment = Environment(script)
    assert list(environment.first_due()) == [(6.0, (CLOCK, 0)), (1.0, (UNKNOWN, 0)), (4.0, (NETWORK, 0))]
    for kind in ("arrive", "pollevent"):
        action = environment.next((NETWORK, 0))
        assert action and action.event.kind == kind
        environment.finish((NETWORK, 0), action)
    assert environment.next((NETWORK, 0)) is None
    assert environment.events == {5} and environment.next((CLOCK, 0)) is not None


def test_goroutines_that_are_not_known_make_sockets() -> None:
    """Socket 1 never gets a descriptor, so no goroutine is known to have made it."""
    opens: Steps = [["sockopen", 8, 8], ["sockopen", 4, 4], ["pollopen", 1, 2], ["incref", 1, 2], ["decref", 1, 2]]
    script = script_of(
        recording_of(OPEN + opens + [["arrive", 1, "61"], ["pollevent", 1, 1, "r", 0], ["drain", 2, 0]][:2])
    )
    assert [(item.due, item.event.kind) for item in script.creations] == [(1, "spawn"), (4, "sockopen")]
    assert [(one.sort, one.socket) for one in script.goroutines[0]] == [
        (OperationType.MAKE, 0),
        (OperationType.OPEN, 0),
    ]
    assert [(one.sort, one.socket) for one in script.goroutines[1][:2]] == [
        (OperationType.MAKE, 2),
        (OperationType.OPEN, 2),
    ]
    assert {s: [item.event.kind for item in row] for s, row in script.network.items()} == {
        1: ["arrive"],
        2: ["pollevent"],
    }
    assert (script.sockets, script.ordinals, script.length) == ([0, 2], [0, 0], 10)
