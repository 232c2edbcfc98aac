"""The rules about channels that a function made, clause by clause: a row for
each clause that doesn't hold, and for each side of a boundary."""

from types import SimpleNamespace as Made
from typing import Any, cast

import pytest

from netrev.findings.causes import failed_calls, first_output, leftovers  # fmt: skip
from netrev.findings.handovers import needs_of_channels  # fmt: skip
from netrev.findings.hangs import needs  # fmt: skip
from netrev.findings.locks import needs_of_mutexes  # fmt: skip
from netrev.findings.pools import balances, made_channels  # fmt: skip

from netrev.findings.streams import unpassed_ends  # fmt: skip
from netrev.recording.call import CLOSE, Outcome
from netrev.recording.goroutines import FOR_ROOM, FOR_VALUE, PUT, TOOK, At, ObjectUse
from netrev.recording.waits import Name, ObjectWait
from netrev.recording.where import OF_A_LIBRARY, OF_THE_PROGRAM, Stack
from tests.failed_calls.test_cause_boundaries import line_of

Patch = pytest.MonkeyPatch


def use_of(number: int, what: str, stack: int, often: int = 1, end: int = 9, goid: int = 7) -> ObjectUse:
    return ObjectUse(number, goid, what, stack, often, 1, 1, end, end)


def waiting(objects: list[tuple[int, str]], line: int = 3, reason: str = "a receiver") -> ObjectWait:
    at = tuple(At(number, use) for number, use in objects)
    return ObjectWait(Name(1), 5, None, reason, Stack((line_of(line),), None), None, at)


@pytest.mark.parametrize(
    "change, says",
    [
        ({}, True), ({"objects": [(6, "")]}, False), ({"objects": []}, False), ({"objects": [(5, ""), (5, "")]}, False), ({"reason": "a value"}, False),
        ({"of": OF_A_LIBRARY}, False), ({"local": False}, False), ({"returned": False}, False), ({"empty": True}, False),
    ],
)  # fmt: skip
def test_a_channel_whose_maker_has_returned(change: dict[str, Any], says: bool, monkeypatch: Patch) -> None:
    usual = {
        "objects": [(5, "")], "reason": made_channels.A_RECEIVER, "of": OF_THE_PROGRAM, "local": True,
        "returned": True, "empty": False,
    }  # fmt: skip
    case = Made(**(usual | change))
    made_at = line_of(4, "main.ask", of=case.of)
    monkeypatch.setattr(made_channels, "name_of_goid", lambda lines, goid: Name(goid))
    monkeypatch.setattr(made_channels, "is_local", lambda index, line: case.local and line == made_at)
    monkeypatch.setattr(
        made_channels, "has_returned",
        lambda index, maker, line, position: case.returned and (maker, line, position) == (Name(8), made_at, 20),
    )  # fmt: skip
    monkeypatch.setattr(made_channels, "returns_sentence", lambda index, line: ", by a.go:9")
    stacks = {4: Stack(() if case.empty else (made_at,), None)}
    index = Made(recording=Made(lines=Made(made={5: Made(stack=4, goid=8)}, stacks=stacks)))
    found = made_channels.without_receiver(cast(Any, index), waiting(case.objects, reason=case.reason), 20)
    text = "a.go:4 in ask made that channel, without room for a value, and has returned, by a.go:9."
    assert found == ([text] if says else [])


@pytest.mark.parametrize(
    "change, says",
    [
        ({}, True), ({"outcome": Outcome.DONE}, False), ({"name": "Write"}, False), ({"of_go": True}, False), ({"wrote": None}, False), ({"closing": 20}, False),
        ({"closing": 21}, True), ({"reader": None}, False),
    ],
)  # fmt: skip
def test_an_end_that_a_relay_didn_t_pass_on(change: dict[str, Any], says: bool, monkeypatch: Patch) -> None:
    wrote, reader = Made(socket=4), Made(socket=5)
    usual = {"outcome": Outcome.EOF, "name": "Read", "of_go": False, "wrote": wrote, "closing": 0, "reader": reader}
    case = Made(**(usual | change))
    call, other = Made(outcome=case.outcome, name=case.name), Made(outcome=Outcome.EOF, name="Read")
    monkeypatch.setattr(unpassed_ends, "is_of_go", lambda recording, given_call: given_call is call and case.of_go)
    monkeypatch.setattr(
        unpassed_ends, "last_write_of_relay", lambda index, given_call: case.wrote if given_call is call else wrote
    )
    monkeypatch.setattr(unpassed_ends, "reader_of", lambda index, socket: case.reader if not case.told else reader)
    case.told = False
    index = Made(
        recording=Made(length=20), calls=[call],
        closing=lambda socket, step: "close" if socket == 4 and 0 < case.closing <= step else None,
    )  # fmt: skip
    found = list(unpassed_ends.unpassed_ends(cast(Any, index)))
    assert [(given_call.met, given_call.write, given_call.waits) for given_call in found] == [
        (call, wrote, reader)
    ] * says
    index.calls = [call, other]
    case.told, case.closing = True, 0
    assert [given_call.met for given_call in unpassed_ends.unpassed_ends(cast(Any, index))][-1] is other


@pytest.mark.parametrize(
    "change, holder",
    [
        ({}, 6), ({"side": "w"}, 5), ({"side": ""}, 5), ({"is_asking": True}, 5), ({"first": 20}, 6), ({"first": 21}, 5), ({"last": 20}, 5), ({"last": 21}, 6), ({"last": 7}, 5),
        ({"mine": ""}, 0), ({"mine": "w"}, 0),
    ],
)  # fmt: skip
def test_the_call_that_has_a_socket_s_lock(change: dict[str, Any], holder: int, monkeypatch: Patch) -> None:
    case = Made(**({"side": "r", "is_asking": False, "first": 6, "last": 0, "mine": "r"} | change))
    monkeypatch.setattr(needs, "text_of_call", lambda recording, call: f"Goroutine {call.goroutine}")
    calls = [
        Made(goroutine=5, side="r", is_asking=False, first=4, last=0),
        Made(goroutine=6, side=case.side, is_asking=case.is_asking, first=case.first, last=case.last),
    ]
    names = {Name(holder), Name(1)}
    whole = Made(_index=Made(by_socket={3: calls}), _position=20, _recording=None)
    whole._is_under_way = lambda call: needs.Needs._is_under_way(cast(Any, whole), call)
    whole._elsewhere = Made(excess_of=lambda found: ["excess"] if found == names else [])
    found = needs.Needs._of_lock(cast(Any, whole), cast(Any, Made(socket=3, side=case.mine, goroutine=1)))
    since = case.first if holder == 6 else 4
    says = f"It waits for socket 3's read lock, which Goroutine {holder} has since step {since}."
    assert found.says == ([says] if holder else []) and found.more == (["excess"] if holder else [])
    assert found.by == (Name(holder) if holder else None)


@pytest.mark.parametrize(
    "change, line",
    [
        ({}, 7), ({"held": "s.lock"}, 0), ({"held": ""}, 0), ({"text": "work()"}, 0), ({"function": "main.(*pool).put"}, 7), ({"function": "main.(*room).put"}, 0),
        ({"function": "main.put"}, 0), ({"text": "p.lock.RLock()"}, 7), ({"held": "s.lock p.lock"}, 8),
    ],
)  # fmt: skip
def test_a_goroutine_that_may_have_locked_the_mutex_itself(
    change: dict[str, Any], line: int, monkeypatch: Patch
) -> None:
    case = Made(**({"held": "p.lock", "text": "\tp.lock.Lock() // s.lock", "function": "main.(*pool).take"} | change))
    monkeypatch.setattr(needs_of_mutexes, "text_at", lambda recording, call: case.text)
    lock, outer = line_of(3, "main.(*pool).get"), line_of(9, case.function, "b.go")
    held = {outer: [Made(name=name, line=number) for number, name in enumerate(case.held.split(), 7)]}
    whole = Made(_recording=None, _held=lambda call: held.get(call, []))
    waiter = Made(stack=Stack((lock, outer), None))
    found = needs_of_mutexes.NeedsOfMutexes._of_itself(cast(Any, whole), cast(Any, waiter), lock)
    assert found == (f"Perhaps it holds that itself, locked at b.go:{line}." if line else "")


OPEN_ENDS = {
    "by": True, "last": 8, "used": False, "closing": False, "of_go": False, "closed": 8, "wait": True, "serves": True,
    "own": True, "objects": 1,
}  # fmt: skip
STAYS = ", and for nothing else: the end of the request's context doesn't end that"


@pytest.mark.parametrize(
    "change, says",
    [
        ({}, True), ({"by": False}, False), ({"last": None}, False), ({"used": True}, False), ({"closing": True}, False), ({"of_go": True}, False), ({"last": 9}, False),
        ({"last": 7}, True), ({"wait": False}, None), ({"serves": False}, None), ({"own": False}, None), ({"objects": 2}, True), ({"objects": 0}, True),
    ],
)  # fmt: skip
def test_a_socket_that_is_left_open(change: dict[str, Any], says: bool | None, monkeypatch: Patch) -> None:
    case = Made(**(OPEN_ENDS | change))
    last = case.last and Made(first=6, last=case.last, goroutine=4, steps=lambda: "in step 6")
    first = Made(first=2, last=3, goroutine=5, steps=lambda: "in step 2")
    monkeypatch.setattr(leftovers, "ends_of", lambda index: [(3, 4), (5, 6)])
    monkeypatch.setattr(leftovers, "is_of_go", lambda recording, call: case.of_go and call is last)
    monkeypatch.setattr(leftovers, "text_of_call", lambda recording, call: f"The call of {call.goroutine}")
    monkeypatch.setattr(
        leftovers, "place_of_step", lambda recording, step, goroutine: f" in step {step} by {goroutine}"
    )
    monkeypatch.setattr(
        leftovers, "contains", lambda stack, function: case.serves and function == leftovers.SERVE and stack.is_its
    )
    monkeypatch.setattr(leftovers, "waits_words", lambda wait: "waits")
    wait = Made(stack=Made(own=lambda: case.own, is_its=True), objects=[1] * case.objects, first=7)
    waits = Made(at=lambda name, position: wait if case.wait and (name, position) == (Name(4), 20) else None)
    monkeypatch.setattr(leftovers, "waits_of", lambda recording: waits)
    closes = {
        4: Made(first=8, goroutine=9) if case.by else None,
        3: case.closing or None,
        6: Made(first=8, goroutine=9),
    }
    index = Made(
        recording=Made(length=20), by_socket={3: [first, Made(last=0 if case.used else 5)], 5: [first]},
        closing=lambda socket, step, whole=False: closes.get(socket) if whole else None, last_use=lambda socket, step: last if socket == 3 else first,
    )  # fmt: skip
    found = list(leftovers.left_open(cast(Any, index)))
    assert found[-1].call is first and len(found) == (1 if says is False else 2)
    serves = f"Goroutine 4, which serves it, waits since step 7{STAYS if case.objects == 1 else ''}."
    expected = [
        "socket 3 is left open, and nobody is in a call there.", "The call of 4 was the last to use it, in step 6.",
        "Its other end was closed in step 8 by 9.", *([serves] if says else []),
    ]  # fmt: skip
    assert found[0].says == expected or says is False


@pytest.mark.parametrize(
    "change, says",
    [
        ({}, True), ({"by": None}, False), ({"before": False}, False), ({"deep": 2}, True), ({"deep": 3}, False), ({"outcome": Outcome.DONE}, False), ({"outcome": Outcome.EOF}, True),
        ({"last": 0}, False), ({"last": 9}, True), ({"last": 10}, False), ({"file": True}, False),
    ],
)  # fmt: skip
def test_the_failure_before_a_close(change: dict[str, Any], says: bool, monkeypatch: Patch) -> None:
    by = Made(first=9)
    case = Made(
        **({"by": by, "before": True, "deep": 0, "outcome": Outcome.TIMED_OUT, "last": 8, "file": False} | change)
    )
    before, other = Made(outcome=case.outcome, last=case.last), Made()
    monkeypatch.setattr(failed_calls, "is_of_a_file", lambda index, call: case.file)
    monkeypatch.setattr(
        failed_calls, "cause_of", lambda index, call, deep: Made(says=["it failed.", f"At {deep}."], chain=[other])
    )
    index = Made(before=lambda call: before if case.before and call is by else None)
    found = failed_calls.why(cast(Any, index), cast(Any, case.by), case.deep)
    assert found.says == (["Before that, it failed.", f"At {case.deep + 1}."] if says else [])
    assert found.calls == ([before, other] if says else [])


@pytest.mark.parametrize(
    "change, whose",
    [
        ({}, ", at which goroutine 4 was the last to put a value"), ({"use": FOR_ROOM}, ", at which goroutine 4 was the last to take one"), ({"user": 8}, ", as goroutine 4 had put for others"),
        ({"object": 6}, ", as goroutine 4 had put for others"), ({"gone": 5}, ""), ({"gone": None}, ""), ({"wait": False}, ""), ({"ended": None}, ""), ({"later": 9}, ""),
        ({"later": 8}, ", at which goroutine 4 was the last to put a value"), ({"later": 9, "name": CLOSE}, ", at which goroutine 4 was the last to put a value"),
    ],
)  # fmt: skip
def test_a_goroutine_that_ended_after_a_failure(change: dict[str, Any], whose: str, monkeypatch: Patch) -> None:
    usual = {"use": FOR_VALUE, "user": 7, "object": 5, "gone": 4, "wait": True, "ended": 12, "later": 0, "name": "Read"}
    case = Made(**(usual | change))
    call = Made(goroutine=4, first=6, last=8)
    later = [Made(first=case.later, name=case.name)] if case.later else []
    monkeypatch.setattr(first_output, "run_of", lambda recording: Made(by_goroutine={4: [call, *later]}))
    monkeypatch.setattr(
        first_output, "ended_after", lambda index, given_call, position: case.ended if position == 20 else None
    )
    monkeypatch.setattr(first_output, "goid_of", lambda recording, name: 7)
    monkeypatch.setattr(first_output, "waits_words", lambda wait: "waits")
    waiters = {
        Name(2): Made(name=Name(2), wait=None), Name(3): Made(name=Name(3), wait=waiting([(5, case.use)]) if case.wait else None),
    }  # fmt: skip
    known = {Name(2): Made(gone=None), Name(3): Made(gone=Name(case.gone) if case.gone else None)}
    recording = Made(lines=Made(uses={case.object: [use_of(case.object, PUT, 1, goid=case.user)]}))
    found = first_output.left_by(
        cast(Any, Made(recording=recording, waiters=waiters, needs=known, position=20)), cast(Any, call)
    )
    says = f"Goroutine 4 ended after that, at step 12; goroutine 3 waits{whose}."
    assert found == ([says] if whose else [])


@pytest.mark.parametrize(
    "taking, giving, line, has_value",
    [
        ([3], [8], 5, True), ([3], [8], 3, False), ([3], [8], 8, False), ([3], [5, 8], 6, True), ([3], [8, 5], 6, True), ([6], [8], 5, False),
        ([3, 6], [8], 5, True),
    ],
)  # fmt: skip
@pytest.mark.parametrize("deferred", [False, True])
def test_a_line_between_taking_a_value_and_giving_it_back(
    taking: list[int], giving: list[int], line: int, has_value: bool, deferred: bool
) -> None:
    in_literal = "main.f.func1" if deferred else "main.f"
    form = balances.Form(
        "main.f", TOOK, {line_of(at, "main.f") for at in taking}, {line_of(at, in_literal) for at in giving}
    )
    is_taken = min(taking) < line
    assert form.has_at(line_of(line, "main.f")) is (is_taken if deferred else has_value)


@pytest.mark.parametrize("ended, names", [((4, 5), "Goroutine 4 took at a.go:4 (step 14); it has ended."), ((4,), "")])
def test_a_send_on_a_channel_whose_receivers_have_ended(ended: tuple[int, ...], names: str, monkeypatch: Patch) -> None:
    monkeypatch.setattr(needs_of_channels, "has_ended", lambda recording, name: name.number in ended)
    monkeypatch.setattr(needs_of_channels, "place_in", lambda stack: f" at {stack}")
    monkeypatch.setattr(needs_of_channels, "GIVES_WORDS", {TOOK: "took"})
    monkeypatch.setattr(needs_of_channels, "have_ended", lambda recording, wait: [f"object {wait.objects[0].object}"])
    given = [
        Made(name=Name(4), what=TOOK, stack="a.go:4", last=14),
        Made(name=Name(5), what=TOOK, stack="a.go:5", last=15),
    ]
    own = Made(_operations=lambda at: given, _recording=None, _does=lambda name, stack: "has ended")
    wait = waiting([(3, FOR_VALUE), (6, FOR_ROOM)])
    need = needs_of_channels.NeedsOfChannels._of_ended_takers(cast(Any, own), wait)
    assert (need.says, need.is_odd) == (([names, "object 6"], True) if names else ([], False))
