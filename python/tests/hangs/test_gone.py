"""Messages that were lost, in recordings of tools/go/samples/gone, some of which are changed: each rule names its line
in the first cause, and says nothing if it doesn't apply."""

import contextlib
from collections.abc import Iterator
from pathlib import Path

import pytest

from netrev.findings.causes import first_words
from netrev.findings.causes.first_output import concerns, failures_of, in_order
from netrev.findings.datagrams.undelivered_datagrams import is_same, unheard
from netrev.findings.evidence.ended_goroutines import leaves_of
from netrev.findings.evidence.ledger import Ledger
from netrev.findings.handovers.dropped_answers import conditions_around, defaults_after
from netrev.findings.handovers.handed_over_requests import puts_of, written_for
from netrev.findings.handovers.needs_of_channels import NeedsOfChannels
from netrev.findings.hangs.wait_graph import Hang, WaitGraph, graph_at
from netrev.findings.locks.group_counts import Count, count_of, count_sentence, ended_sentence
from netrev.findings.locks.needs_of_mutexes import of_once
from netrev.findings.pools.stopped_timers import of_timers, silent_at, silent_sentence
from netrev.recording.goroutines import ADDED, DONE, FOR_VALUE, PUT, TOOK, At, GoGoroutine, ObjectUse, Timer
from netrev.recording.recording import Recording
from netrev.recording.waits import Name, ObjectWait, waits_of
from netrev.recording.where import SourceCall, SourceLines, Stack
from netrev.run.index import run_of
from netrev_go.log.points import Point, PointKind
from netrev_go.log.socket_facts import GOES_TO, OF_DATAGRAMS, Beside, address_words
from tests.failed_calls.test_causes import TWO_ENDS, in_the_folder_of_the_source, with_lines
from tests.trials.go_caused import GONE, NAMES, bug_line

from .test_needs import line, stored, use

SAYS = {
    "unmatched": "dropped the answer: {bug} goes on without main.go:96, where it hands values on.",
    "missed": "dropped the answer: {bug} goes on without main.go:118, where it hands values on.",
    "quits": ", or the end of its range over lines",
    "skipped": "ended without it; only it passed main.go:",
    "surplus": "have called Done: more was added than that.",
    "stilled": "Its ticker was stopped at main.go:",
    "elsewhere": "the system drops what comes from any other address.",
    "nested": "perhaps goroutine 0 takes from it as it ends, at main.go:",
    "readahead": "made a reader with a buffer, which got 10 bytes",
}


@contextlib.contextmanager
def in_source(recording: Recording) -> Iterator[Recording]:
    """A recording whose source exists and isn't newer than the recording."""
    recording.lines.written = float("inf")
    with in_the_folder_of_the_source(GONE):
        yield recording


def first_cause(recording: Recording) -> str:
    """The first cause of a recording, with its tree."""
    with in_source(recording):
        text = "\n".join(first_words(recording, "gone"))
    return text.split("\ncause:")[0]


@pytest.mark.parametrize("name", NAMES[GONE])
def test_the_first_cause_has_the_line_and_the_reason(name: str) -> None:
    words = first_cause(stored(f"{name}-bad"))
    assert f"{bug_line(name)} " in words
    assert SAYS[name].format(bug=bug_line(name)) in words


@pytest.mark.parametrize("name", NAMES[GONE])
def test_a_good_run_has_no_such_reason(name: str) -> None:
    words = first_cause(stored(f"{name}-good"))
    assert not any(says.format(bug="main.go:") in words for says in SAYS.values())
    assert "dropped" not in words and "without an answer" not in words


def graph_of(name: str) -> WaitGraph:
    recording = stored(name)
    return graph_at(recording, recording.length)


def main_wait(graph: WaitGraph) -> ObjectWait:
    """What the main goroutine waits for."""
    wait = graph.waiters[Name(0)].wait
    assert wait is not None
    return wait


def test_an_answer_that_was_handed_on_isnt_dropped() -> None:
    recording, at = stored("unmatched-bad"), main_wait(graph_of("unmatched-bad")).objects[0].object
    recording.lines.uses.setdefault(at, []).append(
        ObjectUse(at, 9, PUT, 0, 1, recording.length, recording.length, 1, 1)
    )
    assert "dropped" not in first_cause(recording)


def test_an_answer_that_never_came_isnt_dropped() -> None:
    recording = stored("unmatched-bad")
    recording.lines.peers.clear()
    assert "dropped" not in first_cause(recording)


SELECT = ["	select {", "	case out <- v:", "	default:", "	}"]


@pytest.mark.parametrize(
    "lines, number, expected",
    [(SELECT, 2, [3]), (["	out <- v"], 1, []), (SELECT[:2] + ["	}"], 2, []), (["	switch {", *SELECT[1:]], 2, [3])],
)
def test_the_default_of_a_select(lines: list[str], number: int, expected: list[int]) -> None:
    assert defaults_after(tuple(lines), number) == expected


@pytest.mark.parametrize(
    "begin, number, expected", [(1, 4, [3]), (3, 4, []), (1, 2, [])], ids=["round it", "before the wait", "none"]
)
def test_the_condition_round_a_line(begin: int, number: int, expected: list[int]) -> None:
    lines = "for {", "	read()", "	if ok {", "		out <- v", "	}"
    assert conditions_around(lines, begin, number) == expected


LOOPS = {
    "over a channel": (["	for v := range in {", "		if v {", "			return", "		}", "	}"], [4]),
    "without a condition": (["	for {", "		if v {", "			break", "		}", "	}"], [4]),
    "of a condition": (["	for i < 3 {", "		if v {", "			return", "		}", "	}"], []),
    "a break of a select": (["	for {", "		select {", "		case <-in:", "			break", "		}", "	}"], []),
    "a break behind a select": (["	for {", "		select {", "		}", "		break", "	}"], [5]),
    "a literal": (["	for {", "		go func() {", "			return", "		}()", "	}"], []),
    "many ways": (["	for {", "		return", "		return", "		return", "	}"], []),
    "no loop": (["	if v {", "		return", "	}"], []),
}


@pytest.mark.parametrize("name", LOOPS)
def test_the_lines_that_leave_a_loop(name: str, tmp_path: Path) -> None:
    lines, expected = LOOPS[name]
    file = tmp_path / "a.go"
    file.write_text("\n".join(["func work() {", *lines, "}", ""]))
    recording = with_lines(TWO_ENDS)
    recording.lines.written = float("inf")
    assert leaves_of(recording, SourceCall("main.work", str(file), 2, "program")) == expected


def of_group(*uses: ObjectUse, ended: tuple[int, ...] = (4, 5, 6)) -> Recording:
    """A recording in which goroutine 1 started goroutines 4 to 6 in `all` at line 8, and some of them have ended. Stack
    1 calls Add, and stack 2 calls Done."""
    recording = with_lines(TWO_ENDS)
    lines = recording.lines
    lines.stacks[1], lines.stacks[2] = Stack((line(7, "all"),), None), Stack((line(20, "one"),), None)
    lines.uses[1] = list(uses)
    for goid in (4, 5, 6):
        lines.goroutines[goid] = GoGoroutine(goid, -1, line(8, "all"), 1, 0, 1 if goid in ended else -1, 5, 9)
    return recording


def added(often: int) -> ObjectUse:
    return use(1, ADDED, 1, often)


def count_in(recording: Recording) -> Count:
    count = count_of(recording, 1)
    assert count is not None
    return count


GROUPS = {
    "one ended without": (
        of_group(added(3), use(4, DONE, 2), use(5, DONE, 2)),
        "1 call of Done is missing: 3 were added at bank.go:7 in all, and 2 done at bank.go:20 in one.",
        "Of the 3 goroutines started at bank.go:8 2 called Done, and goid 6 ended without it.",
    ),
    "one is at work": (of_group(added(3), use(4, DONE, 2), use(5, DONE, 2), ended=(4, 5)), "1 call", None),
    "one is at work and one has ended": (
        of_group(added(3), use(4, DONE, 2), ended=(4, 5)), "2 calls of Done are missing", "1 may yet do so, and goid 5 ended"
    ),
    "more was added": (
        of_group(added(4), *(use(goid, DONE, 2) for goid in (4, 5, 6))), "1 call",
        "All 3 goroutines started at bank.go:8 have called Done: more was added than that.",
    ),
    "none called Done": (of_group(added(3)), "and none done.", "none called Done, and goid 4, 5 and 6 ended without it"),
    "of a pool": (of_group(added(9), use(4, DONE, 2, 8), ended=()), "1 call", None),
}  # fmt: skip


@pytest.mark.parametrize("name", GROUPS)
def test_calls_of_done_that_are_missing(name: str) -> None:
    recording, counted, ended = GROUPS[name]
    count = count_in(recording)
    assert counted in count_sentence(recording, count)
    says = " ".join(ended_sentence(recording, count))
    assert ended in says if ended else not says


@pytest.mark.parametrize("uses", [[], [added(2), use(4, DONE, 2, 2)], [use(4, DONE, 2)]], ids=["none", "all", "no Add"])
def test_a_group_without_a_missing_call(uses: list[ObjectUse]) -> None:
    assert count_of(of_group(*uses), 1) is None


STOPPED = -1
MADE, GOES_OFF = Timer(1, 4, 1, 1, 10, 50), Timer(1, 4, 3, 1, 10, 50)
STOPS = Timer(1, 4, 2, 2, 20, STOPPED)
TIMERS: dict[str, tuple[list[Timer], list[ObjectUse], str | None]] = {
    "a ticker that was stopped": ([MADE, STOPS], [], "ticker"),
    "one that was set anew": ([MADE, STOPS, MADE], [], None),
    "a timer that was stopped": ([GOES_OFF, STOPS], [], "timer"),
    "one whose value was taken": ([GOES_OFF], [use(4, TOOK, 1, begin=60)], "timer"),
    "one whose value was taken before it was set anew": ([GOES_OFF, GOES_OFF._replace(due=90)], [use(4, TOOK, 1, begin=60)], None),
    "one whose value nobody took": ([GOES_OFF], [], None),
    "one that is to go off": ([GOES_OFF._replace(due=10**9)], [use(4, TOOK, 1, begin=60)], None),
    "a ticker that goes on": ([MADE], [use(4, TOOK, 1, begin=60)], None),
    "one whose making isn't here": ([STOPS], [], None),
    "a channel of its own": ([], [use(4, TOOK, 1)], None),
}  # fmt: skip


def of_go(name: str) -> Stack:
    return Stack((SourceCall(name, "time/tick.go", 3, "go"), line(5, "tick")), None)


@pytest.mark.parametrize("name", TIMERS)
def test_timers_from_which_nothing_comes(name: str) -> None:
    timers, uses, expected = TIMERS[name]
    recording = with_lines(TWO_ENDS)
    lines = recording.lines
    for number, function in ((1, "time.NewTicker"), (2, "time.(*Ticker).Stop"), (3, "time.NewTimer")):
        lines.stacks[number] = of_go(function)
    lines.timers[1], lines.uses[1] = timers, uses
    silent = silent_at(recording, 1)
    assert (silent.name if silent else None) == expected
    wait = ObjectWait(Name(7, True), 1, None, "", Stack((line(9, "wait"),), None), None, (At(1, FOR_VALUE),))
    assert (of_timers(recording, wait) is not None) == (expected is not None)
    assert of_timers(recording, wait._replace(objects=(*wait.objects, At(2, FOR_VALUE)))) is None


@pytest.mark.parametrize(
    "setting, time, words",
    [(GOES_OFF, 49, "was stopped"), (GOES_OFF, 50, "was due before the Stop"), (MADE, 50, "was stopped")],
)
def test_a_timer_that_was_due_before_its_stop(setting: Timer, time: int, words: str) -> None:
    recording = with_lines(TWO_ENDS)
    lines = recording.lines
    for number, function in ((1, "time.NewTicker"), (2, "time.(*Timer).Stop"), (3, "time.NewTimer")):
        lines.stacks[number] = of_go(function)
    lines.timers[1] = [setting, STOPS._replace(time=time)]
    silent = silent_at(recording, 1)
    assert silent and words in silent_sentence(recording, silent)


@pytest.mark.parametrize(
    "address, other, expected",
    [
        ("127.0.0.1:5", "127.0.0.1:5", True), ("127.0.0.1:5", "127.0.0.2:5", False), ("127.0.0.1:5", "127.0.0.1:6", False),
        ("0.0.0.0:5", "127.0.0.1:5", True), ("127.0.0.1:5", "[::]:6", False),
    ],
)  # fmt: skip
def test_addresses_that_may_be_the_same(address: str, other: str, expected: bool) -> None:
    assert is_same(address, other) is expected


@pytest.mark.parametrize("peer, is_heard", [("", True), ("the sender's", True), ("another", False)])
def test_a_datagram_from_another_address(peer: str, is_heard: bool) -> None:
    recording = stored("elsewhere-bad")
    addresses = recording.lines.addresses
    own, connected = addresses[2]
    addresses[2] = own, {"": "", "the sender's": addresses[1][0], "another": connected}[peer]
    index = run_of(recording)
    (call,) = [call for call in index.by_socket[2] if call.name == "Read"]
    assert (unheard(index, call, recording.length) is None) == is_heard


@pytest.mark.parametrize(
    "packed, words",
    [
        (0, ""), (1 << 56 | 0x7F000001 << 16 | 53, "127.0.0.1:53"), (3 << 56 | 8080, "[::1]:8080"), (4 << 56 | 9, "[::]:9"),
        (2 << 56 | 0xABCDEF << 16 | 7, "[..abcdef]:7"),
    ],
)  # fmt: skip
def test_addresses_in_words(packed: int, words: str) -> None:
    assert address_words(packed) == words


def test_addresses_are_kept_by_socket_and_step() -> None:
    beside, own = Beside(), 1 << 56 | 0x7F000001 << 16 | 53
    beside.named(4, Point(1, PointKind.NAMED, 1, 0, own, 0, OF_DATAGRAMS, 0, 0))
    beside.named(4, Point(2, PointKind.NAMED, 1, 0, own, 0, GOES_TO, 0, 0), 17)
    assert (beside.addresses, beside.sent) == ([(4, "127.0.0.1:53", "")], [(17, "127.0.0.1:53")])
    assert (beside.ends, beside.peers) == ([], [])


@pytest.mark.parametrize(
    "text, is_good",
    [
        ('{"addresses":[[4,"a:1",""]]}', True), ('{"addresses":[[4,"a:1",7]]}', False), ('{"addresses":[["4","a:1",""]]}', False),
        ('{"sent":[[17,"a:1"]]}', True), ('{"sent":[[17,2]]}', False), ('{"sent":[[17]]}', False),
    ],
)  # fmt: skip
def test_lines_of_addresses(text: str, is_good: bool) -> None:
    assert (SourceLines(f'{{"where":2,"steps":3}}\n{text}', 3).fault == "") is is_good


def ordered(name: str) -> tuple[WaitGraph, list[object], Hang]:
    """The causes of a recording in order, and its first hang."""
    recording = stored(name)
    with in_source(recording):
        graph = graph_at(recording, recording.length)
        hangs = [hang for hang in graph.shown if not hang.is_quiet]
        return graph, list(in_order(graph, failures_of(recording), hangs)), hangs[0]


def test_a_hang_comes_before_a_failure_that_it_has_nothing_to_do_with() -> None:
    graph, causes, hang = ordered("skipped-bad")
    failed = failures_of(graph.recording)
    assert causes[0] is hang and len(causes) == 2
    assert not concerns(graph, hang, failed[0].call)


def test_a_failure_of_a_goroutine_that_hangs_comes_first() -> None:
    graph, _, hang = ordered("skipped-bad")
    (failed,) = failures_of(graph.recording)
    failed.call.goroutine = hang.root.name.number
    assert concerns(graph, hang, failed.call)
    assert in_order(graph, [failed], [hang]) == [failed, hang]


def test_a_hang_without_a_reason_comes_last() -> None:
    graph, _, hang = ordered("skipped-bad")
    failed = failures_of(graph.recording)
    bare = hang._replace(needs=[hang.needs[0]._replace(says=[], more=[])])
    assert in_order(graph, failed, [bare]) == [*failed, bare]


def once(*numbers: int) -> Stack:
    """A stack with calls of a sync.Once's Do at these lines."""
    calls = []
    for number in numbers:
        calls += [
            SourceCall("sync.(*Once).doSlow", "sync/once.go", 7, "go"),
            SourceCall("sync.(*Once).Do", "sync/once.go", 5, "go"),
        ]
        calls.append(line(number, "get"))
    return Stack(tuple(calls), None)


@pytest.mark.parametrize(
    "stack, begins",
    [(once(9, 9), "It waits for itself"), (once(9, 30), "Perhaps it waits for itself"), (once(9), None)],
    ids=["itself", "perhaps another", "once"],
)
def test_a_once_that_waits_for_itself(stack: Stack, begins: str | None) -> None:
    says = of_once(stack)
    assert says.startswith(begins) if begins else not says


def test_a_request_that_another_goroutine_wrote() -> None:
    recording = stored("unmatched-bad")
    with in_source(recording):
        wait = main_wait(graph_at(recording, recording.length))
        index = run_of(recording)
        wrote = next(call for call in reversed(index.by_goroutine[0]) if call.name == "Write")
        lines, step = recording.lines, wrote.first - 1
        lines.stacks[10_000] = wait.stack
        put, took = (
            ObjectUse(99, goid, what, 10_000, 1, step, step, 0, wait.begin)
            for goid, what in ((5, PUT), (lines.goid_of(0), TOOK))
        )
        for uses, is_found in (list[ObjectUse](), False), ([put, took], True), ([put], False):
            lines.uses[99] = uses
            puts_of.cache_clear()
            assert written_for(index, wait._replace(name=Name(5, True)), wrote.socket) == (wrote if is_found else None)


@pytest.mark.parametrize("is_used", [False, True])
def test_a_wait_at_an_object_whose_use_is_not_known(is_used: bool) -> None:
    recording = with_lines(TWO_ENDS)
    recording.lines.stacks[1] = Stack((line(5, "fill"),), None)
    recording.lines.uses[1] = [use(4, PUT, 1)] if is_used else []
    waits = waits_of(recording)
    channels = NeedsOfChannels(recording, waits, Ledger(recording, waits), {}, {}, lambda *_: "")
    wait = ObjectWait(
        Name(7, True), 1, None, "a value from a channel", Stack((line(9, "drain"),), None), None, (At(1, ""),)
    )
    assert channels.of(wait).by is None
