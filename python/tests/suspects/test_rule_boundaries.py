"""Rules of nrdb and the recorder at their boundaries: a row for each side of a boundary, with made-up values,
operations and sessions."""

import io
from collections import deque
from types import SimpleNamespace as Made
from typing import Any, cast

import pytest

from netrev.connection.shapes import is_shaped
from netrev.explore import script as scripts
from netrev.explore.control_flow import Operation
from netrev.explore.environment import Environment
from netrev.explore.goroutine_scripts import GoroutineScript
from netrev.explore.schedules import Delay, _late_delays
from netrev.findings.suspects.kept_references import KeptReference
from netrev.recording.notes import By, Hold
from netrev.reduce import reduced
from netrev.reduce.reduced import Wanted, wanted_by
from netrev.reduce.units import Dependencies
from netrev.run.flow import OperationType
from netrev.session.commands import parts_of, whole_words
from netrev.session.line_hints import hint
from netrev.session.session import Session, UsageError
from netrev.timeline.trace import END, write_events
from netrev_go import cli as recorder
from netrev_go.steps.analysis import hanging, never_closed
from nrdb.cli import session_of
from nrdb.dap.moves import Moves
from nrdb.dap.view.presentation import NETWORK, thread_of
from nrdb.prompt.answers import answer_display

# sockets and goroutines at the end


def test_goroutines_that_are_not_at_rest() -> None:
    values = {
        "gor 0": "idle", "gor 1": "parked 0 r", "gor 2": "gone", "gor 3": "absent", "lock 4": "parked 1 r",
    }  # fmt: skip
    assert hanging(values) == {1: "parked 0 r"}


@pytest.mark.parametrize(
    "word, left",
    [
        ("8", None), ("9", 1), ("1", None), ("17", 2), (str(1 | (2**20 - 1) << 3), 2**20 - 1), (str(1 | 1 << 23), None),
        (str(9 | 1 << 23 | 6), 1), ("absent", None),
    ],
)  # fmt: skip
def test_closed_sockets_with_references_left(word: str, left: int | None) -> None:
    assert never_closed({"lock 3": word, "gor 3": "9"}) == ({} if left is None else {3: left})


# words and lines


@pytest.mark.parametrize(
    "what, value, is_dump, can_be",
    [
        ("lock 0", "8", False, True), ("lock 0", "idle", False, False), ("gor 1", "idle", False, True), ("gor 1", "8", False, False),
        ("rq 0", "-", True, True), ("rq 0", "1 2", True, True), ("rq 0", "1,2", True, False), ("rq 0", "-", False, False),
        ("in 0", "00ff", True, True), ("in 0", "0f0", True, False), ("lock 0", "8", True, False), ("shoe 0", "8", False, False),
    ],
)  # fmt: skip
def test_values_that_a_cell_can_have(what: str, value: str, is_dump: bool, can_be: bool) -> None:
    assert is_shaped(what, value, is_dump) is can_be


@pytest.mark.parametrize(
    "typed, whole",
    [
        ("inf gor", "info goroutines"), ("dump in 0", "dump in 0"), ("du i 0", "dump in 0"), ("dump i", "dump i"), ("dump i 0 1", "dump i 0 1"),
        ("delete check 1", "delete checkpoint 1"), ("delete checkpoints 1", "delete checkpoint 1"), ("delete 1", "delete 1"),
        ("delete check 1 2", "delete check 1 2"), ("save br f", "save breakpoints f"), ("save br", "save br"), ("stepi 3", "stepi 3"),
    ],
)  # fmt: skip
def test_words_that_are_cut_short(typed: str, whole: str) -> None:
    assert " ".join(whole_words(typed.split())) == whole


def test_a_command_with_wrong_words_and_no_advice_is_explained_by_its_usage() -> None:
    assert hint(["finish", "stepi"], "fault 202 usage").startswith("finish")
    assert hint(["shoe", "stepi"], "fault 202 usage") == ""


def test_parts_that_the_commands_of_a_mark_take_are_not_answered() -> None:
    answered: list[str] = []
    pending = deque(["late"])

    def answer(part: str) -> bool:
        answered.append(part)
        return part != "last"

    own = Made(
        attached=Made(takes=lambda part: part == "taken", pending=pending), attempt_line=answer, printer=Made(echo=lambda line: None),
        interrupts=Made(check=lambda: None),
    )  # fmt: skip
    assert Session.attempt(cast(Any, own), "taken") and answered == [] and pending
    assert Session.attempt(cast(Any, own), "taken; first") and answered == ["first", "late"] and not pending
    assert not Session.attempt(cast(Any, own), "last; first") and answered[2:] == ["last"]
    assert Session.attempt(cast(Any, own), " # first") and Session.attempt(cast(Any, own), "") and len(answered) == 3
    assert parts_of("stepi; ; save breakpoints a;b") == ["stepi", "save breakpoints a;b"]


@pytest.mark.parametrize("typed, shown", [("", ["clock"]), ("clock", ["clock"]), ("lock 0", ["clock", "lock 0"])])
def test_display_adds_a_cell_once_and_shows_all(typed: str, shown: list[str]) -> None:
    shown_cells: list[list[str]] = []
    session = Made(displays=["clock"])
    session.show_displays = lambda: shown_cells.append(list(session.displays))
    answer_display(cast(Any, session), typed.split())
    assert shown_cells == [shown]
    with pytest.raises(UsageError):
        answer_display(cast(Any, session), ["lock", "0", "1"])


# the adapter for editors


@pytest.mark.parametrize("maker, number", [(None, NETWORK), (0, 1), (4, 5)])
def test_the_number_of_a_thread(maker: int | None, number: int) -> None:
    assert thread_of(maker) == number


@pytest.mark.parametrize(
    "hit, lines, breaks, wrong, target, reason",
    [
        (["2", "3"], [], False, [], None, "mark 2"), ([], [7], False, [], None, "breakpoint"), ([], [], True, [], None, "breakpoint"),
        ([], [], False, ["x"], 5, "exception"), ([], [], False, [], 5, "step"), ([], [], False, [], 6, "end or step"),
    ],
)  # fmt: skip
def test_why_a_move_of_an_editor_stops(
    hit: list[str],
    lines: list[int],
    breaks: bool,
    wrong: list[str],
    target: int | None,
    reason: str,
    monkeypatch: pytest.MonkeyPatch,
) -> None:
    monkeypatch.setattr("nrdb.dap.moves.failure_text", " ".join)
    own = Made(
        _marks=Made(reason=lambda number: f"mark {number}"), _go_lines=Made(at=lambda position: lines), _filters=Made(at=lambda position: wrong),
        _session=Made(breaks=Made(hit=lambda position: breaks)), _end_or=lambda reason, move: Made(reason=f"end or {reason}"),
    )  # fmt: skip
    assert Moves._why(cast(Any, own), hit, cast(Any, Made(position=5)), target).reason == reason


# other schedules


def script(*goroutines: list[Operation], length: int = 20) -> Any:
    return Made(goroutines=list(goroutines), length=length)


SET_BOTH, MOVED, RESET = (3, "rw", 50), (6, "r", 900), 9


@pytest.mark.parametrize(
    "sets, reset, is_late",
    [
        ([SET_BOTH, MOVED], RESET, True), ([SET_BOTH], RESET, False), ([MOVED], RESET, False), ([(3, "w", 50), MOVED], RESET, False),
        ([(3, "rw", 0), MOVED], RESET, False), ([(3, "rw", 1), MOVED], RESET, True), ([(3, "rw", -1), MOVED], RESET, False),
        ([(2, "r", 900), SET_BOTH], RESET, False), ([SET_BOTH, MOVED], 5, False), ([SET_BOTH, MOVED], 6, False), ([SET_BOTH, MOVED], 7, True),
        ([SET_BOTH, MOVED, (7, "w", 5)], RESET, False), ([(2, "w", 4), SET_BOTH, MOVED], RESET, True), ([SET_BOTH, (6, "rw", 60)], RESET, False),
    ],
)  # fmt: skip
def test_a_deadline_of_both_sides_may_pass_after_the_other_one_was_moved(
    sets: list[tuple[int, str, int]], reset: int, is_late: bool
) -> None:
    settings = [
        Operation(OperationType.SET, 0, 4, mode, (value,), steps=[number, number + 1]) for number, mode, value in sets
    ]
    resets = [
        Operation(OperationType.RESET, 0, use, "w", steps=[number]) for use, number in ((4, reset), (5, reset + 1))
    ]
    assert list(_late_delays(script(settings, resets))) == ([Delay(reset, 21)] if is_late else [])


@pytest.mark.parametrize(
    "is_open, tag, sides, fresh",
    [(True, 7, "r", "w"), (True, 7, "rw", ""), (True, 6, "r", "rw"), (False, 7, "r", "rw")],
)
def test_bytes_that_no_event_has_reported(is_open: bool, tag: int, sides: str, fresh: str) -> None:
    environment = Environment(cast(Any, None))
    machine = Made(is_open=lambda d: is_open, descs=[Made(fdseq=7, socket=3)])
    state = cast(Any, Made(machine=machine))
    for step in (("arrive", 3, "00"), ("drain", 3, 1), ("peerclose", 4), ("sysread", 0, 3, 1)):
        environment.record(cast(Any, step), state)
    environment.record(cast(Any, ("pollevent", 0, tag, sides, 0)), state)
    unreported = environment.unreported
    assert {side for (socket, side), is_new in unreported.items() if is_new and socket == 3} == set(fresh)
    assert unreported[4, "r"] and (5, "r") not in unreported
    environment.record(cast(Any, ("increfclose", 0, 4)), state)
    assert environment.closed == {4}


@pytest.mark.parametrize(
    "kind, answer, sort, event, is_brief, cause, ends_unread",
    [
        ("blockarm", ("code", 0), OperationType.WAIT, None, True, None, False), ("blockarm", ("code", 0), OperationType.WAIT, 4, True, None, False),
        ("blockarm", ("code", 0), OperationType.WAIT, 5, False, 5, False), ("blockarm", ("wait",), OperationType.WAIT, 5, False, None, False),
        ("waitcheck", ("code", 0), OperationType.WAIT, 5, False, None, False), ("blockswap", ("yes",), OperationType.WAIT, 4, False, 4, False),
        ("blockswap", ("no",), OperationType.WAIT, 4, False, None, False), ("blockarm", ("code", 0), OperationType.READ, 5, False, None, True),
        ("blockarm", ("code", 0), OperationType.WRITE, 5, False, None, True), ("blockarm", ("wait",), OperationType.READ, 5, False, None, False),
    ],
)  # fmt: skip
def test_what_ended_a_wait(
    kind: str,
    answer: tuple[Any, ...],
    sort: OperationType,
    event: int | None,
    is_brief: bool,
    cause: int | None,
    ends_unread: bool,
) -> None:
    script = GoroutineScript(cast(Any, None), {}, {(8, "r"): event} if event else {})
    script.operations = [Operation(sort, 3, 8, "r", steps=[5])]
    script._extend(cast(Any, Made(kind=kind, number=6, answer=answer)))
    (operation,) = script.operations
    found = operation.steps, operation.is_brief, operation.cause, operation.ends_unread
    assert found == ([5, 6], is_brief, cause, ends_unread)


@pytest.mark.parametrize(
    "sizes, is_open, sorts",
    [({}, True, ["RESET", "WAIT", "UNLOCK"]), ({3: 7}, True, ["RESET", "READ", "UNLOCK"]), ({}, False, ["UNLOCK"])],
)
def test_what_a_lock_that_failed_would_have_led_to(sizes: dict[int, int], is_open: bool, sorts: list[str]) -> None:
    uses = [Made(socket=9), Made(socket=3)] if is_open else []
    script = GoroutineScript(cast(Any, Made(uses=uses, socket_of=lambda event: 3)), sizes, {})
    script._rwlock(cast(Any, Made(kind="rwlock", number=6, arguments=(1, 3, "r"), answer=("no",))))
    supposed = [operation for operation in script.operations if not operation.steps]
    assert [operation.sort.name for operation in supposed] == sorts
    assert [operation.use for operation in supposed] == [1] * (len(sorts) - 1) + [-1]
    assert {(operation.socket, operation.side) for operation in supposed} == {(3, "r")}


# smaller recordings


def test_units_need_those_that_make_their_objects() -> None:
    kinds: list[tuple[str, dict[str, int]]] = [
        ("spawn", {}), ("spawn", {}), ("sockopen", {"g": 1}), ("sockopen", {"g": 0}), ("pollopen", {"g": 2, "s": 1}),
        ("rwlock", {"g": 1, "s": 0}),
    ]  # fmt: skip
    events = Made(all=[Made(kind=kind, named=named.get, timer=None) for kind, named in kinds])
    events.all.append(Made(kind="fire", named={}.get, timer=(0, "r")))
    needs = Dependencies(cast(Any, events), [cast(Any, Made(events=[place])) for place in range(len(events.all))])
    assert needs.of == [set(), set(), {0}, set(), {1, 3}, {0, 2}, {4}]
    assert needs.by == [{2, 5}, {4}, {5}, {4}, {6}, set(), set()]


def wanted(words: str) -> Wanted:
    values = {("clock", 9): "5", ("clock", 4): "5", ("lock 0", 9): "absent", ("lock 0", 4): "9", ("gor 1", 4): "idle"}
    changes = Made(
        value=lambda cell, position: values.get((cell, position), "0"),
        nearest=lambda cells, are, at, back: 6 if are(["7"]) else None,
    )
    session = Made(
        text=lambda: Made(length=9),
        changes=lambda: changes,
        current_position=lambda: Made(position=4),
        words_of=lambda cell, shown: f"{cell} shows {shown}",
    )
    return wanted_by(cast(Any, session), words.split())


@pytest.mark.parametrize(
    "words, found",
    [
        ("", (1, "", "", 9)), ("2", (2, "", "", 9)), ("clock 5", (0, "clock", "5", 4)), ("clock 7", (0, "clock", "7", 6)),
        ("lock 0 9", (0, "lock 0", "9", 4)), ("lock 0 7", (0, "lock 0", "7", 6)), ("gor 1 gor*idle", (0, "gor 1", "gor*idle", 4)),
    ],
)  # fmt: skip
def test_the_target_of_a_reduction(words: str, found: tuple[int, str, str, int]) -> None:
    assert tuple(wanted(words))[:4] == found


@pytest.mark.parametrize("words", ["2 3", "clock", "lock 0", "shoe 5", "clock 8", "lock 0 absent"])
def test_words_that_are_no_target(words: str) -> None:
    with pytest.raises(UsageError):
        wanted(words)


@pytest.mark.parametrize(
    "closer, is_told", [(None, False), (By(7, 2), True), (By(5, 1), False), (By(5, 2), True), (By(7, 1), True)]
)
def test_a_held_reference_of_a_socket_that_another_step_closed(closer: By | None, is_told: bool) -> None:
    notes = Made(closer={3: closer} if closer else {}, is_closed=lambda s: True, now={"gor 1": "idle", "lock 3": "9"})
    run = Made(notes=notes, facts=Made(held_references={}), end=9)
    found = KeptReference(3, Hold(1, 5, "increfclose", ""), False, "", "").suspect(
        cast(Any, run), "and is idle", cast(Any, (1, 2))
    )
    assert found.weight == 2 and any("can't be freed" in says for says in found.says) is is_told
    assert found.steps == ([5, closer.step] if closer else [5])


@pytest.mark.parametrize(
    "shown, number, found",
    [
        ("yes no yes", 1, "a"),
        ("yes no yes", 2, "c"),
        ("yes no yes", 3, ""),
        ("no no no", 1, ""),
        ("yes yes yes", 0, ""),
    ],
)
def test_the_suspect_that_a_reduction_keeps(
    shown: str, number: int, found: str, monkeypatch: pytest.MonkeyPatch
) -> None:
    suspects = [Made(rule=rule, is_shown=word == "yes") for rule, word in zip("abc", shown.split())]
    monkeypatch.setattr(reduced, "suspects_of", lambda recording: Made(suspects=suspects))
    monkeypatch.setattr(reduced, "SuspectTarget", lambda events, suspect, at: (suspect.rule, at))
    wanted = cast(Any, Made(hangs=-1, steps=[], cell="", suspect=number))
    if found:
        assert reduced._target(cast(Any, None), cast(Any, None), wanted) == (found, number)
    else:
        with pytest.raises(UsageError):
            reduced._target(cast(Any, None), cast(Any, None), wanted)


# traces


def test_events_are_written_as_one_list() -> None:
    file = io.StringIO()
    write_events(file, iter([["{1}", "{2}"], ["{3}"]]))
    assert file.getvalue() == '{"displayTimeUnit":"ns","traceEvents":[\n{1},\n{2},\n{3}\n]}\n'
    assert int(END[0]) > 10**9  # (after each step that a recording can have)


# the command lines


@pytest.mark.parametrize("command", ["snapshot", "watch"])
def test_a_running_process_is_copied_or_watched(command: str, monkeypatch: pytest.MonkeyPatch) -> None:
    called: list[tuple[str, str]] = []

    def noting(by: str) -> Any:
        def note(options: Any, *_: object) -> int:
            called.append((by, options.command))
            return 7

        return note

    monkeypatch.setattr(recorder.gc, "disable", lambda: None)
    for name in ("snapshot", "watch"):
        monkeypatch.setattr(recorder, name, noting(name))
    for name in ("check", "offer", "of_a_process"):
        monkeypatch.setattr(recorder, name, lambda *_: None)
    for name in ("go_if_any", "wish_of"):
        monkeypatch.setattr(recorder, name, lambda *_: None)
    assert recorder.main([command, "1"]) == 7 and called == [(command, command)]


def test_a_session_without_a_file_has_no_recording() -> None:
    given = Made(
        file=None, join="localhost:1", netrev="netrev", lines=[], suspects=False, trace="", timeline="", batch=True,
        json=False,
    )  # fmt: skip
    session = session_of(cast(Any, given), cast(Any, None), cast(Any, None), cast(Any, Made(note=print)))
    assert (session.recording, session.path, session.program) == (None, "", "netrev")


@pytest.mark.parametrize(
    "kind, value, held, peer_closed, is_made",
    [
        ("arrive", b"1234", 4, False, True), ("arrive", b"12345", 4, False, None), ("arrive", b"1", 7, False, True), ("arrive", b"1", 8, False, None),
        ("arrive", b"1", 0, True, False), ("drain", 2, 2, False, True), ("drain", 3, 2, False, None), ("drain", 2, 2, True, True),
        ("peerclose", None, 0, False, True), ("peerclose", None, 0, True, False),
    ],
)  # fmt: skip
def test_bytes_that_come_or_go_as_there_is_room(
    kind: str, value: Any, held: int, peer_closed: bool, is_made: bool | None
) -> None:
    environment = Environment(cast(Any, None))
    buffers = (b"x" * held, b"") if kind == "arrive" else (b"", b"x" * held)
    machine = Made(sockets=[Made(peer_closed=peer_closed, buffers=buffers, capacities=(8, 3))])
    values = () if value is None else (value,)
    action = Made(event=Made(kind=kind, arguments=(0, *values), number=5))
    found = environment._transfer(cast(Any, action), cast(Any, Made(machine=machine, sockets={0: 0})))
    assert found == ([(kind, 0, *values)] if is_made else [] if is_made is False else None)
    assert environment.tries == ({5: 1} if is_made is None else {})


@pytest.mark.parametrize(
    "arrivals, every, in_vain, due",
    [
        ([8], [7, 12], [7], 8), ([], [12], [], 20), ([8], [], [], 20), ([8, 11], [12], [], 20), ([8, 13], [12], [], 8), ([6, 8], [12], [7], 8),
        ([7, 8], [12], [7], 8), ([8], [12], [9], 20), ([8], [12], [8], 20), ([10, 13], [12], [], 20), ([8, 9], [12], [], 8),
    ],
)  # fmt: skip
def test_when_what_came_is_due(arrivals: list[int], every: list[int], in_vain: list[int], due: int) -> None:
    events = [Made(number=number, arguments=(0, 1, "r")) for number in arrivals] + [
        Made(number=9, arguments=(0, 1, "w"))
    ]
    item = Made(due=20, event=Made(number=10, kind="arrive"))
    found = scripts._due(cast(Any, item), cast(Any, events), cast(Any, Made(all=every, in_vain=in_vain)))
    assert found == (20 if due == 20 else due - scripts.JUST_BEFORE)
    assert scripts._due(cast(Any, item), cast(Any, events), None) == 20
