"""Where a goroutine continues in its script after each answer, and the step that it makes next."""

import pytest

from netrev.explore.control_flow import (
    NEVER,
    MissingObjectError,
    Operation,
    ScriptPlace,
    WrittenStream,
    next_number,
    next_step,
    place_after,
)
from netrev.explore.numbered_state import NumberedState
from netrev.explore.script import script_of
from netrev.run.flow import OperationType
from netrev.text.contents import Answer, Limits, Step
from tests.suspects.test_suspects import COMES, OPEN, READ, Steps, recording_of

FAILED = 7  # the operation with which a failed call continues
LOCKS = Operation(OperationType.LOCK, 0, side="r", on_failure=FAILED)
READS = Operation(OperationType.READ, 0, 0, "r", (2, 4), on_failure=FAILED)
WRITES = Operation(OperationType.WRITE, 0, 0, "w", (b"abcd",), moved=[4], on_failure=FAILED)
WAITS = Operation(OperationType.WAIT, 0, 0, "r", on_failure=FAILED)
# no try is recorded after the second wait
UNREAD = Operation(
    OperationType.READ,
    0,
    0,
    "r",
    (2,),
    kinds=["waitbegin", "sysread", "waitbegin"],
    on_failure=FAILED,
    ends_unread=True,
)
GIVES_UP, DESTROYS = Operation(OperationType.GIVE_UP, 0), Operation(OperationType.DESTROY, 0, 0)
AT = ScriptPlace(3)
NEXT = ScriptPlace(4)


@pytest.mark.parametrize(
    ("operation", "before", "kind", "answer", "status", "after"),
    [
        (LOCKS, AT, "rwlock", ("yes",), "idle", NEXT),
        (LOCKS, AT, "rwlock", ("wait",), "acquiring", AT),
        (LOCKS, AT, "rwlock", ("no",), "idle", ScriptPlace(FAILED)),
        (READS, AT, "sysread", ("got", 1), "idle", NEXT),  # fewer bytes than asked for
        (READS, AT, "sysread", ("got", 2), "idle", AT._replace(tries=1)),
        (READS, AT._replace(tries=1), "sysread", ("got", 4), "idle", NEXT),
        (READS, AT._replace(tries=1), "sysread", ("got", 2), "idle", NEXT),
        (READS, AT, "sysread", ("eof",), "idle", ScriptPlace(FAILED)),
        (READS, AT._replace(tries=1), "sysread", ("again",), "idle", AT._replace(tries=1, is_waiting=True)),
        (WRITES, AT, "syswrite", ("put", 4), "idle", NEXT),
        (WRITES, AT, "syswrite", ("put", 3), "idle", AT._replace(tries=3)),
        (WRITES, AT._replace(tries=1, waits=2), "syswrite", ("put", 2), "idle", AT._replace(tries=3)),
        (WRITES, AT._replace(tries=3, waits=2), "syswrite", ("put", 1), "idle", NEXT),
        (WRITES, AT._replace(tries=3), "syswrite", ("pipe",), "idle", ScriptPlace(FAILED)),
        (READS, AT._replace(is_waiting=True), "waitbegin", ("code", 0), "entering", AT._replace(is_waiting=True, waits=1)),
        (READS, AT._replace(is_waiting=True, waits=1), "waitbegin", ("code", 2), "idle", ScriptPlace(FAILED)),
        (READS, AT._replace(is_waiting=True, tries=1, waits=2), "waitcheck", ("code", 0), "entering", AT._replace(is_waiting=True, tries=1, waits=2)),
        (READS, AT._replace(is_waiting=True, tries=1, waits=2), "blockswap", ("yes",), "idle", AT._replace(tries=1, waits=2)),
        (UNREAD, AT._replace(is_waiting=True, waits=1), "blockswap", ("yes",), "idle", AT._replace(waits=1)),
        (UNREAD, AT._replace(is_waiting=True, waits=2), "blockswap", ("yes",), "idle", ScriptPlace(FAILED)),
        (UNREAD, AT._replace(is_waiting=True, waits=3), "blockswap", ("yes",), "idle", ScriptPlace(FAILED)),
        (WAITS, AT._replace(is_waiting=True, waits=1), "blockarm", ("code", 0), "idle", NEXT),
        (GIVES_UP, AT, "decref", ("done",), "idle", NEXT),
        (GIVES_UP, AT, "decref", ("done",), "owing", AT),
        (GIVES_UP, AT._replace(destroys=0), "decref", ("last",), "idle", AT._replace(destroys=0)),
        (GIVES_UP, AT._replace(destroys=0), "pollclose", ("done",), "idle", NEXT),
        (DESTROYS, AT, "pollclose", ("done",), "idle", NEXT),
    ],
)  # fmt: skip
def test_a_goroutine_continues_as_the_answer_says(
    operation: Operation, before: ScriptPlace, kind: str, answer: Answer, status: str, after: ScriptPlace
) -> None:
    assert place_after(before, operation, kind, answer, status) == after


@pytest.mark.parametrize(
    ("place", "turn", "data"),
    [
        (0, 0, b"abc"),
        (0, 1, b"abc"),
        (2, 0, b"cdef"),
        (2, 1, b"cd"),
        (2, 2, b"cd"),
        (1, 0, b"b"),
        (3, 0, b"def"),
        (5, 1, b"f"),
    ],
)
def test_a_write_goes_on_at_each_byte(place: int, turn: int, data: bytes) -> None:
    """The recorded tries moved 2 bytes, none, and 1 byte; after that, the rest was tried."""
    assert WrittenStream((b"abc", b"cdef", b"cd", b"def"), [2, 0, 1, 3]).at(place, turn) == data


def test_a_write_that_moved_nothing_still_has_its_bytes() -> None:
    assert WrittenStream((b"abc",), [0]).bytes == b"abc"
    assert WrittenStream((b"abc", b"c"), [2, 0]).bytes == b"abc"
    assert Operation(OperationType.WRITE, 0, 0, "w", (b"\0\0",)).stream.bytes == b"\0\0"  # (not in the recording)


def state_of(*steps: Step) -> NumberedState:
    """Socket 5 of the recording is socket 1 of the schedule. The uses with numbers 3 and 0 are descriptors 0 and
    2."""
    state = NumberedState(Limits(4, 3, 3, 16))
    for step in (("spawn",), ("sockopen", 16, 16), ("sockopen", 16, 16), ("pollopen", 0, 1), *steps):
        state.machine.step(step)
    state.add_socket(5, 1)
    state.descriptors.update({3: 0, 0: 2})
    return state


@pytest.mark.parametrize(
    ("operation", "place", "steps", "wanted"),
    [
        (Operation(OperationType.LOCK, 5, side="r"), ScriptPlace(), [], ("rwlock", 1, 1, "r")),
        (Operation(OperationType.RESET, 5, 3, "r"), ScriptPlace(), [], ("pollreset", 1, 0, "r")),
        (Operation(OperationType.READ, 5, 3, "r", (2, 4)), ScriptPlace(), [], ("sysread", 1, 1, 2)),
        (Operation(OperationType.READ, 5, 3, "r", (2, 4)), ScriptPlace(tries=1), [], ("sysread", 1, 1, 4)),
        (Operation(OperationType.READ, 5, 3, "r", (2, 4)), ScriptPlace(is_waiting=True), [], ("waitbegin", 1, 0, "r")),
        (Operation(OperationType.WRITE, 5, 3, "w", (b"ab",), moved=[2]), ScriptPlace(tries=1), [], ("syswrite", 1, 1, b"b")),
        (Operation(OperationType.WAIT, 5, 3, "w"), ScriptPlace(), [], ("waitbegin", 1, 0, "w")),
        (Operation(OperationType.SET, 5, 3, "rw", (9,)), ScriptPlace(), [], ("setdeadline", 1, 0, "rw", 9)),
        (Operation(OperationType.EXIT, -1), ScriptPlace(), [], ("exit", 1)),
        (Operation(OperationType.MAKE, 8, values=(16, 4)), ScriptPlace(), [], ("sockopen", 16, 4)),
        (Operation(OperationType.GIVE_UP, 5), ScriptPlace(destroys=3), [], ("pollclose", 1, 0)),
        (Operation(OperationType.GIVE_UP, 5), ScriptPlace(destroys=0), [], ("pollclose", 1, 2)),
        (Operation(OperationType.READ, 5, 3, "r", (2,)), ScriptPlace(is_waiting=True), [("waitbegin", 1, 0, "r")], ("blockarm", 1)),
    ],
)  # fmt: skip
def test_the_next_step_names_the_objects_of_the_schedule(
    operation: Operation, place: ScriptPlace, steps: list[Step], wanted: Step
) -> None:
    assert next_step(state_of(*steps), 1, place, operation) == wanted


@pytest.mark.parametrize(
    "operation", [Operation(OperationType.LOCK, 6, side="r"), Operation(OperationType.RESET, 5, 4, "r")]
)
def test_a_step_waits_for_its_object(operation: Operation) -> None:
    with pytest.raises(MissingObjectError):
        next_step(state_of(), 1, ScriptPlace(), operation)


def test_the_next_recorded_step() -> None:
    operations = [
        Operation(OperationType.LOCK, 0, steps=[3]),
        Operation(OperationType.RESET, 0),
        Operation(OperationType.READ, 0, steps=[8, 9]),
    ]
    places = (
        ScriptPlace(),
        ScriptPlace(0, 1),
        ScriptPlace(1),
        ScriptPlace(2),
        ScriptPlace(2, 1),
        ScriptPlace(2, 2),
        ScriptPlace(3),
    )
    assert [next_number(operations, place) for place in places] == [3, 8, 8, 8, 9, NEVER, NEVER]


READY: Steps = [["pollevent", 0, 1, "rw", 0]]
PARKS: Steps = [
    ["waitbegin", 1, 0, "r"],
    ["blockarm", 1],
    ["blockcheck", 1],
    ["parkcommit", 1],
    *COMES,
    ["blockswap", 1],
]
BYTES: Steps = [["arrive", 0, "61626364"]]
UNLOCKS: Steps = [["rwunlock", 1, 0, "r"]]


def read(count: int) -> Steps:
    return [["sysread", 1, 0, count]]


@pytest.mark.parametrize(
    ("steps", "wanted"),
    [
        (READ + PARKS + read(16) + UNLOCKS, "LOCK RESET READ:7 UNLOCK"),
        (READ + PARKS + UNLOCKS, "LOCK RESET READ:6 UNLOCK"),
        # (of the other side)
        (READ + READY + [["waitbegin", 1, 0, "w"], ["blockarm", 1]] + UNLOCKS, "LOCK RESET READ:1 WAIT:2 UNLOCK"),
        (READ + READY + [["waitbegin", 1, 0, "r"], ["blockarm", 1]] + UNLOCKS, "LOCK RESET READ:3 UNLOCK"),
        (READ[:2] + READY + [["waitbegin", 1, 0, "r"], ["blockarm", 1]] + UNLOCKS, "LOCK RESET WAIT:2 UNLOCK"),
        # (the first read got as many bytes as it asked for)
        (BYTES + READ[:2] + read(2) + read(2) + UNLOCKS, "LOCK RESET READ:2 UNLOCK"),
        (BYTES + READ[:2] + read(5) + read(2) + UNLOCKS, "LOCK RESET READ:1 READ:1 UNLOCK"),
        (BYTES + READ[:2] + read(4) + read(1) + UNLOCKS, "LOCK RESET READ:2 UNLOCK"),
        (BYTES + READ[:2] + read(3) + UNLOCKS + READ[:2] + read(1) + UNLOCKS, "LOCK RESET READ:1 UNLOCK LOCK RESET READ:1 UNLOCK"),
        ([["peerclose", 0]] + READ[:2] + read(3) + read(3) + UNLOCKS, "LOCK RESET READ:1 READ:1 UNLOCK"),
        ([["rwlock", 1, 0, "w"], ["pollreset", 1, 0, "w"], ["syswrite", 1, 0, "61"], ["syswrite", 1, 0, "62"], ["rwunlock", 1, 0, "w"]], "LOCK RESET WRITE:2 UNLOCK"),
        ([["increfclose", 0, 0], ["rwlock", 1, 0, "r"]], "LOCK RESET:0 WAIT:0 UNLOCK:0"),
        (READ[:2] + read(3) + UNLOCKS + [["increfclose", 0, 0], ["rwlock", 1, 0, "r"]], "LOCK RESET READ:1 UNLOCK LOCK RESET:0 READ:0 UNLOCK:0"),
        ([["increfclose", 0, 0], ["incref", 1, 0]], "REFER GIVE_UP:0"),
        ([["increfclose", 0, 0], ["increfclose", 1, 0]], "CLOSE EVICT:0 GIVE_UP:0"),
        ([["incref", 1, 0], ["decref", 1, 0]], "REFER GIVE_UP"),
        ([["incref", 1, 0], ["increfclose", 0, 0], ["evict", 0, 0], ["decref", 0, 0], ["decref", 1, 0], ["pollclose", 1, 0]], "REFER GIVE_UP:2"),
        ([["rwlock", 0, 0, "r"], ["rwlock", 1, 0, "r"], ["acquire", 1], ["rwunlock", 0, 0, "r"], ["release", 0], ["acquire", 1], ["rwlock", 1, 0, "r"], *UNLOCKS], "LOCK:4 UNLOCK"),
    ],
)  # fmt: skip
def test_a_goroutines_steps_are_divided_into_operations(steps: Steps, wanted: str) -> None:
    """Each operation of goroutine 1 with the number of its steps; 0 for one that the recording doesn't show, because
    the call failed."""
    (_, operations) = script_of(recording_of(OPEN + steps)).goroutines
    assert all(len(one.steps) == len(one.kinds) for one in operations)
    counts = [(one.sort.name, len(one.steps)) for one in operations]
    assert counts == [(name, int(count or 1)) for name, _, count in (word.partition(":") for word in wanted.split())]
    numbers = [number for one in operations for number in one.steps]
    assert numbers == sorted(numbers) and len(set(numbers)) == len(numbers)
