"""The wait-for graph at a recording's end: what all goroutines wait for comes first, then the goroutines that wait for
it; cycles are deadlocks, and waits that may be normal come last."""

import json
import re
from pathlib import Path
from typing import Any

from netrev.findings.causes.first_output import first_words, opening_words
from netrev.findings.evidence.need import Certainty
from netrev.findings.hangs.hang_words import hang_sentences, tree_lines
from netrev.findings.hangs.wait_graph import DEEP, MAIN, Hang, WaitGraph, graph_at
from netrev.findings.suspects.ranking import all_suspects_of
from netrev.recording.goroutines import GoGoroutine
from netrev.recording.recording import Recording
from netrev.recording.where import SourceLines
from netrev.views.goroutine_stacks import stack_of
from tests.failed_calls.test_causes import CAUSED, READS_ON, TWO_ENDS, in_the_folder_of_the_source, with_lines, writes
from tests.suspects.test_suspects import WHILE, Steps
from tests.trials.go_caused import bug_line, source_of

SOURCE = """\
package main

func (h *hub) join() {
	h.mu.Lock()
	defer h.mu.Unlock()
}

func (h *hub) broadcast() {
	h.mu.Lock()
	defer h.mu.Unlock()
	fmt.Fprintln(h.c)
}

func (h *hub) names() {
	h.mu.Lock()
	h.mu.Unlock()
	fmt.Fprintln(h.c)
}
"""
JOIN, BROADCAST, WRITES, NAMES, NAMES_WRITE = 4, 9, 11, 15, 17
FUNCTIONS = {JOIN: "join", BROADCAST: "broadcast", WRITES: "broadcast", NAMES: "names", NAMES_WRITE: "names"}
LOCKS = "sync.(*Mutex).lockSlow"
WAITS_AT = "a value from a channel"


def lines_with(
    steps: Steps, stacks: dict[int, list[int]], of_steps: int, waits: list[list[Any]], file: str
) -> SourceLines:
    """Lines of NAME.where: stacks of source lines, the stack of all steps, and waits. Line 0 is the wait for a mutex."""
    result: list[Any] = [
        {"where": 1, "steps": len(steps)},
        {"call": 1, "function": LOCKS, "file": "sync/mutex.go", "line": 7, "of": "go"},
    ]
    numbers = {0: 1}
    for line, function in FUNCTIONS.items():
        numbers[line] = len(numbers) + 1
        function = f"main.(*hub).{function}"
        result.append({"call": numbers[line], "function": function, "file": file, "line": line, "of": "program"})
    result += [{"stack": number, "calls": [numbers[line] for line in calls]} for number, calls in stacks.items()]
    result += [{"step": 1, "stacks": [of_steps] * len(steps)}, {"peers": [[0, 1]]}, {"waits": waits}]
    lines = SourceLines("\n".join(map(json.dumps, result)), len(steps))
    assert not lines.fault, lines.fault
    return lines


def graph_of(steps: Steps, waits: list[list[Any]], wrote: int = WRITES, file: str = "hub.go") -> WaitGraph:
    """The graph of these steps, whose calls have a source line, and of these waits: stack 2 waits for the mutex in
    `broadcast`, stack 3 in `join`, stack 4 in `names`, and stack 5 for a value from a channel."""
    recording = with_lines(steps)
    stacks = {1: [wrote], 2: [0, BROADCAST], 3: [0, JOIN], 4: [0, NAMES], 5: [NAMES]}
    recording.lines = lines_with(steps, stacks, 1, waits, file)
    recording.lines.written = float("inf")
    return graph_at(recording, recording.length)


def said(graph: WaitGraph, number: int = 0) -> str:
    hang = graph.shown[number]
    return "\n".join([*hang_sentences(graph, hang), *tree_lines(graph, hang)])


BLOCKED: Steps = [*TWO_ENDS, *writes(0)]


def test_what_all_wait_for_is_said_first() -> None:
    graph = graph_of(BLOCKED, [[9, 0, 2, "", 2, -1], [10, 0, 3, "", 2, -1]])
    assert said(graph).split("\n") == [
        "All 2 wait perhaps for one call: Write at hub.go:11 in (*hub).broadcast (goroutine 0), on socket 0 since step 6.",
        "Socket 0 has no room: its other end, socket 1, was never read.",
        "Nobody has read or written there since it was opened at hub.go:11 in (*hub).broadcast (goroutine 0, step 5).",
        "  - a mutex at hub.go:9 in (*hub).broadcast (goroutines 2 and 3); perhaps goroutine 0 holds it",
    ]
    assert graph.shown[0].needs[0].certainty == Certainty.PERHAPS


def test_another_method_that_locks_the_same_mutex_may_hold_it(folder: Path) -> None:
    """The source shows that a method may hold the mutex. Without the source, no holder is named, and a method that
    has already unlocked the mutex is never named."""
    waits = [[9, 0, 2, "", 3, -1]]
    assert len(graph_of(BLOCKED, waits).shown) == 2
    file = str(folder / "hub.go")
    Path(file).write_text(SOURCE, encoding="utf-8")
    (hang,) = graph_of(BLOCKED, waits, WRITES, file).shown
    assert (hang.waiting, hang.perhaps) == (1, 1)
    assert len(graph_of(BLOCKED, waits, NAMES_WRITE, file).shown) == 2
    assert len(graph_of(BLOCKED, [[9, 0, 2, "", 4, -1]], NAMES_WRITE, file).shown) == 2


def test_a_goroutine_that_ended_a_wait_before_is_waited_for() -> None:
    waits = [[5, 7, 2, WAITS_AT, 5, 0], [9, 0, 2, WAITS_AT, 5, -1]]
    (hang,) = graph_of(BLOCKED, waits).shown
    assert (hang.root.name.number, hang.waiting, hang.perhaps) == (0, 1, 0)
    assert len(graph_of(BLOCKED, waits[1:]).shown) == 2


def test_cycles_are_deadlocks_and_come_first() -> None:
    """Goroutines 2 and 3 have woken each other before, and 4 has waited for 3."""
    ended = [[5, 6, 2, WAITS_AT, 5, 3], [6, 7, 3, WAITS_AT, 5, 2], [7, 8, 4, WAITS_AT, 5, 3]]
    left = [[7 + number, 0, number, WAITS_AT, 5, -1] for number in (2, 3, 4)]
    graph = graph_of(BLOCKED, ended + left)
    assert said(graph).split("\n") == [
        "Deadlock: two goroutines wait for one another, and 1 goroutine more for them.",
        "Goroutine 2 waits at hub.go:15 in (*hub).names for a value from a channel since step 9; goroutine 3 ended its wait there before.",
        "Goroutine 3 waits at hub.go:15 in (*hub).names for a value from a channel since step 10; goroutine 2 ended its wait there before.",
        "  - a value from a channel at hub.go:15 in (*hub).names (goroutine 4); goroutine 3 ended its wait there before",
    ]
    assert graph.shown[0].is_deadlock


def test_those_that_may_have_nothing_to_do_come_last_and_alike_ones_together() -> None:
    waits = [[number, 0, number, WAITS_AT, 5, -1] for number in (2, 3, 4, 5)]
    graph = graph_of(BLOCKED, waits)
    assert [hang.root.name.number for hang in graph.shown] == [0, 2]
    assert hang_sentences(graph, graph.shown[1]) == [
        "Goroutines 2, 3, 4 and 5 wait at hub.go:15 in (*hub).names for a value from a channel since steps 2 to 5."
    ]
    assert graph.count == 1


def test_a_goroutine_that_sleeps_for_good_may_have_nothing_to_do() -> None:
    """A program's main goroutine may wait forever in this way, and so may a goroutine that a test has left
    running."""
    for kind, is_quiet in (("a select without cases", True), ("a nil channel", False)):
        graph = graph_of(BLOCKED, [[7, 0, 2, kind, 5, -1]])
        assert [hang.is_quiet for hang in graph.shown] == [False, is_quiet], kind


def test_what_nobody_waits_for_is_no_cause_where_the_program_ended_by_itself() -> None:
    """When a session opens, such a goroutine's wait is shown as one that may be normal, unless other goroutines
    wait for it or the program was killed."""
    left = [[6, 0, 2, "room in a channel", 5, -1]]
    waited_for = [[3, 4, 3, WAITS_AT, 5, 2], *left, [7, 0, 3, WAITS_AT, 5, -1]]
    quiet = "1 goroutine waits at the end, at hub.go:15 in (*hub).names: info hangs"
    cause = "cause:  Goroutine 2 waits at hub.go:15 in (*hub).names for room in a channel since step 6."
    waits = "cause:  Goroutine 3 waits for goroutine 2, which waits at hub.go:15 in (*hub).names for room in a channel since step 6."
    for waiting, has_ended, first in ((left, True, quiet), (left, False, cause), (waited_for, True, waits)):
        graph = graph_of([*TWO_ENDS, *WHILE], waiting)
        if has_ended:
            main = GoGoroutine(MAIN, 0, None, 0, -1, -1, -1, -1)
            graph.recording.lines.goroutines[MAIN] = main
        assert graph.has_ended == has_ended
        assert opening_words(graph.recording)[0] == first


def test_a_reader_and_the_writer_at_its_other_end_do_not_wait_for_each_other() -> None:
    recording = with_lines([*TWO_ENDS, *writes(0), *READS_ON])
    graph = graph_at(recording, recording.length)
    assert (len(graph.waiters), graph.edges) == (2, {})


def test_a_long_chain_is_a_tree_of_some_levels() -> None:
    many = 3000
    ended = [[1, 2, number, WAITS_AT, 5, number - 1] for number in range(1, many)]
    waits = [[9, 0, number, WAITS_AT, 5, -1] for number in range(1, many)]
    graph = graph_of(BLOCKED, ended + waits)
    (hang,) = graph.shown
    assert (hang.waiting, depth_of(hang)) == (many - 1, DEEP + 1)


def test_it_is_of_a_position() -> None:
    recording = with_lines(BLOCKED)
    assert graph_at(recording, 5).shown == []
    assert len(graph_at(recording, recording.length).shown) == 1


def first_finding(name: str) -> list[str]:
    """The first paragraph of the first output."""
    recording = Recording.read(str(CAUSED / f"{name}-bad.jsonl"))
    recording.lines.written = float("inf")  # (a clone's files are newer than the recording)
    with in_the_folder_of_the_source(source_of(name)):
        lines = first_words(recording, name)
    ends = [at for at, line in enumerate(lines) if at and not line.startswith(" ")]
    return [line[8:] for line in lines[: ends[0]]]


def test_a_lock_that_is_held_over_a_write() -> None:
    first, room, last, *tree = first_finding("hub")
    line = bug_line("hub")
    assert re.search(rf"^3 of 5 wait, 2 of them perhaps, for one call: Write at {line} in \(\*room\).say", first)
    assert re.search(r"^Socket \d+ has no room: its other end, socket \d+, was never read\.$", room)
    assert re.search(r"was the last, .*; it sleeps at main.go:\d+ in talk", last)
    (lock,) = [item for item in tree if "a mutex" in item]
    assert re.search(
        r"- a mutex at main.go:\d+ in \(\*room\).join, .* \(goid \d+\); perhaps goroutine \d+ holds it", lock
    )


def test_bodies_that_are_left_open() -> None:
    first, bodies, *_ = first_finding("bodies")
    line = bug_line("bodies")
    assert re.search(
        rf"^Goid \d+ waits perhaps for 2 goroutines: goid \d+ and \d+ wait at {line} in name, .* a connection of net/http",
        first,
    )
    assert re.search(
        r"^2 connections are kept by responses whose body was neither read to its end nor closed: of the request "
        rf"at {line} in name, .* \(goid \d+ and \d+\)\.$",
        bodies,
    )


def test_an_end_that_a_relay_does_not_pass_on() -> None:
    first, reader, waits, *hang = first_finding("relay")
    assert re.search(rf"^The end of a stream isn't passed on: Read at {bug_line('relay')} in pass, ", first)
    assert re.search(r"^Read at main.go:\d+ in relay.func1 .* waits for it at the other end, socket \d+", reader)
    assert re.search(r"^Goroutine \d is still waiting\.$", waits)
    assert all(line.startswith("  ") for line in hang[:3]), hang
    recording = Recording.read(str(CAUSED / "relay-bad.jsonl"))
    rules = [suspect.rule for suspect in all_suspects_of(recording).suspects if suspect.is_shown]
    assert rules == ["end not passed on"]


def test_a_semaphore_that_is_not_given_back() -> None:
    first, kept, passed, way, *tree = first_finding("slots")
    assert re.search(
        r"^All \d wait perhaps for \d goroutines: goid \d+.* wait at main.go:\d+ in serve, .* for room in a channel",
        first,
    )
    assert re.search(
        r"^Calls that are over have kept what they took: goroutine \d+ put 1 value there at main.go:\d+ in serve and took none out again; "
        r"goroutine \d+ put",
        kept,
    )
    assert re.search(
        rf"^Of the goroutines of one go statement only they passed {bug_line('slots')} in serve; .*2 others kept nothing\.$",
        passed,
    )
    assert re.search(
        rf"^Perhaps they kept it on this way: {bug_line('slots')} returns without main.go:\d+, which gives it back\.$",
        way,
    )
    assert re.search(r"- Read at main.go:\d+ in visit, .*; perhaps goid \d+.* should use the other end", tree[0])


def test_a_server_that_asks_itself_while_it_holds_a_lock() -> None:
    first, asks, needs_lock, client = first_finding("itself")
    assert first == "Perhaps a deadlock: two goroutines wait for one another, and 1 goroutine more for them."
    assert re.search(
        rf"^Goroutine \d+ waits at {bug_line('itself')} in .* a response of net/http since step \d+; goroutine \d+ serves",
        asks,
    )
    assert re.search(
        r"^Goroutine \d+ waits at main.go:\d+ in .* for a mutex since step \d+; perhaps goroutine \d+ holds it, locked at main.go:\d+\.$",
        needs_lock,
    )
    assert re.search(
        r"- a response of net/http at main.go:\d+ in itself.func1, .*; goroutine \d+ serves the request$", client
    )


def test_connections_of_net_http_that_are_idle_are_no_deadlock() -> None:
    recording = Recording.read(str(CAUSED / "bodies-good.jsonl"))
    graph = graph_at(recording, recording.length)
    assert (graph.shown, graph.has_ended) == ([], True)
    assert graph.idle > 1


def test_a_goroutine_without_steps_has_a_stack() -> None:
    recording = Recording.read(str(CAUSED / "bodies-bad.jsonl"))
    graph = graph_at(recording, recording.length)
    name = graph.shown[0].root.name
    assert name.is_goid
    found = stack_of(recording, name, recording.length)
    assert found is not None
    assert re.search(
        r"goid \d+: waits for a connection of net/http since step \d+, at main.go:\d+ net/http", found.words()
    )
    assert stack_of(recording, name, 0) is None


def depth_of(hang: Hang) -> int:
    depth, branches = 0, hang.branches
    while branches:
        depth, branches = depth + 1, [below for branch in branches for below in branch.branches]
    return depth
