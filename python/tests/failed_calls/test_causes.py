"""The first output for programs that failed, in recordings of tools/go/samples/causes and oversights (made by
tests.trials.go_caused): it has the line of the bug. Each rule about calls finds its bug, and finds nothing in a similar
correct program."""

import contextlib
import json
import os
import re
from collections.abc import Iterator
from pathlib import Path
from typing import Any, NamedTuple

import pytest

from dev.fuzz.generators.injections import Traffic
from netrev.findings.causes import errors_table, first_words
from netrev.findings.causes.failed_calls import cause_of
from netrev.findings.causes.tables import hangs_table
from netrev.findings.evidence.call_words import duration
from netrev.findings.source.later_source import behind
from netrev.findings.streams.unpassed_ends import SETTLED
from netrev.findings.suspects.ranking import all_suspects_of
from netrev.findings.suspects.rule_loader import RULES_OF_CALLS
from netrev.findings.suspects.rules_of_calls.left_open import SINCE
from netrev.findings.suspects.rules_of_calls.timeout_again import MANY
from netrev.recording.recording import Recording
from netrev.recording.where import SourceLines
from netrev.run.index import run_of
from tests.suspects.test_suspects import OPEN, Steps, recording_of
from tests.trials.go_caused import NAMES, SOURCE, bug_line, source_of

CAUSED = Path(__file__).parents[1] / "caused"
ALL = [name for names in NAMES.values() for name in names]
# no goroutine is at the line where a Close or an Unlock is missing, or that copies, sets a length or skips a Reset
WITHOUT_A_LINE = ("body", "abandoned", "copied", "shortened", "timed")
TWO_ENDS: Steps = [*OPEN, ["sockopen", 16, 16], ["pollopen", 0, 1]]
SETS: Steps = [["incref", 0, 0], ["setdeadline", 0, 0, "r", 5], ["decref", 0, 0]]
PASSES: Steps = [["tick", 9], ["pop"], ["fire", 0]]
GETS: Steps = [["arrive", 0, "6869"], ["rwlock", 1, 0, "r"], ["pollreset", 1, 0, "r"], ["sysread", 1, 0, 16]]
UNLOCKS: Steps = [["rwunlock", 1, 0, "r"]]
LATE: Steps = [["rwlock", 1, 0, "r"], ["pollreset", 1, 0, "r"], *UNLOCKS]
FILLS = "00" * 16
WAITS: Steps = [["rwlock", 1, 1, "r"], ["pollreset", 1, 1, "r"], ["sysread", 1, 1, 16], ["waitbegin", 1, 1, "r"]]
READS_ON: Steps = [*WAITS, ["blockarm", 1], ["blockcheck", 1], ["parkcommit", 1]]


def writes(g: int) -> Steps:
    """Goroutine `g` fills the output of socket `g`, and parks for room."""
    put = [["rwlock", g, g, "w"], ["pollreset", g, g, "w"], ["syswrite", g, g, FILLS], ["syswrite", g, g, "00"]]
    return [*put, ["waitbegin", g, g, "w"], ["blockarm", g], ["blockcheck", g], ["parkcommit", g]]


CLOSES_IT: Steps = [["increfclose", 0, 0], ["evict", 0, 0], ["decref", 0, 0], ["pollclose", 0, 0]]
CLOSES: Steps = [["increfclose", 0, 1], ["evict", 0, 1], ["decref", 0, 1], ["pollclose", 0, 1]]
SECOND: Steps = [["arrive", 0, "6869"], ["rwlock", 0, 0, "r"], ["pollreset", 0, 0, "r"], ["sysread", 0, 0, 16]]
TAKES_TURN: Steps = [["rwlock", 0, 0, "r"], ["acquire", 0], *UNLOCKS, ["release", 1], ["acquire", 0], *SECOND]


class Pair(NamedTuple):
    """Steps with a bug, and some similar steps without it."""

    bad: Steps
    good: Steps


DEADLINE: Steps = [["incref", 1, 0], ["setdeadline", 1, 0, "r", 5], ["decref", 1, 0]]
REST: Steps = [
    ["rwlock", 1, 0, "r"], ["pollreset", 1, 0, "r"], ["sysread", 1, 0, 14], ["waitbegin", 1, 0, "r"], ["blockarm", 1],
]  # fmt: skip
GIVES_UP: Steps = [*REST, ["blockcheck", 1], ["parkcommit", 1], *PASSES, ["blockswap", 1], ["waitcheck", 1], *UNLOCKS]
PARTLY: Steps = [
    *OPEN, *DEADLINE, *GETS, *UNLOCKS, *GIVES_UP, ["incref", 1, 0], ["setdeadline", 1, 0, "r", 0], ["decref", 1, 0],
]  # fmt: skip


def asks(count: int) -> Steps:
    """A Read that asks for this many bytes and gets two."""
    return [["arrive", 0, "6869"], ["rwlock", 1, 0, "r"], ["pollreset", 1, 0, "r"], ["sysread", 1, 0, count], *UNLOCKS]


READER: Steps = [["rwlock", 0, 1, "r"], ["pollreset", 0, 1, "r"], ["sysread", 0, 1, 16], ["waitbegin", 0, 1, "r"]]
THREE: Steps = [
    *TWO_ENDS, ["sockopen", 16, 16], ["pollopen", 0, 2], *READER, ["blockarm", 0], ["blockcheck", 0],
    ["parkcommit", 0],
]  # fmt: skip
TAKES: Steps = [["rwlock", 1, 2, "r"], ["pollreset", 1, 2, "r"], ["sysread", 1, 2, 16], ["rwunlock", 1, 2, "r"]]
PUTS: Steps = [["rwlock", 1, 0, "w"], ["pollreset", 1, 0, "w"], ["syswrite", 1, 0, "6869"], ["rwunlock", 1, 0, "w"]]
RELAYS: Steps = [*THREE, ["arrive", 2, "6869"], *TAKES, *PUTS, ["peerclose", 2], *TAKES]
SHUTS: Steps = [["incref", 1, 0], ["closewrite", 1, 0], ["decref", 1, 0]]
TICKS: Steps = [["tick", time] for time in range(1, SETTLED + 1)]
PAIRS = {
    "end not passed on": Pair(RELAYS + TICKS, RELAYS + SHUTS + TICKS),
    "bytes thrown away": Pair(PARTLY + asks(16), PARTLY + asks(14)),
    "timeout again and again": Pair(OPEN + SETS + PASSES + LATE * MANY, OPEN + SETS + PASSES + LATE * (MANY - 1)),
    "both ends write": Pair(TWO_ENDS + writes(0) + writes(1), TWO_ENDS + writes(0) + writes(1)[:-1]),
    "left open": Pair(
        TWO_ENDS + GETS + UNLOCKS + CLOSES + [["tick", time] for time in range(1, SINCE + 6)],
        TWO_ENDS + GETS + CLOSES + [["tick", time] for time in range(1, SINCE + 6)],
    ),
    "two readers": Pair(
        TWO_ENDS + GETS + TAKES_TURN + [["rwunlock", 0, 0, "r"]],
        TWO_ENDS + GETS + UNLOCKS + SECOND + [["rwunlock", 0, 0, "r"]],
    ),
}


def with_lines(steps: Steps, of: str = "program") -> Recording:
    """A recording of these steps, all of which have the source line of the same call. Sockets 0 and 1 are the ends of
    one connection."""
    recording = recording_of(steps)
    result: list[Any] = [
        {"where": 1, "steps": len(steps)},
        {"call": 1, "function": "main.main", "file": "a.go", "line": 1, "of": of},
        {"stack": 1, "calls": [1]},
        {"step": 1, "stacks": [1] * len(steps)},
        {"peers": [[0, 1]]},
    ]
    recording.lines = SourceLines("\n".join(map(json.dumps, result)), len(steps))
    assert recording.lines and not recording.lines.fault, recording.lines.fault
    return recording


def rules_of(recording: Recording) -> list[object]:
    return [suspect.rule for suspect in all_suspects_of(recording).suspects if suspect.is_shown]


@contextlib.contextmanager
def in_the_folder_of_the_source(source: Path = SOURCE) -> Iterator[None]:
    here = os.getcwd()
    os.chdir(source.parent)
    try:
        yield
    finally:
        os.chdir(here)


def test_the_line_of_each_bug_is_said_first() -> None:
    for name in ALL:
        recording = Recording.read(str(CAUSED / f"{name}-bad.jsonl"))
        recording.lines.written = float("inf")  # (a clone's files are newer than the recording)
        with in_the_folder_of_the_source(source_of(name)):
            text = "\n".join(first_words(recording, name))
            assert (re.search(rf"{bug_line(name)}\b", text) is not None) == (name not in WITHOUT_A_LINE), text


@pytest.mark.parametrize("name", ALL)
def test_good_runs_have_no_suspect(name: Any) -> None:
    assert rules_of(Recording.read(str(CAUSED / f"{name}-good.jsonl"))) == []


def test_what_is_said_of_a_timeout() -> None:
    text = first_words(Recording.read(str(CAUSED / "pool-bad.jsonl")), "pool.jsonl")
    assert re.search(
        r"cause:  Read at main.go:\d+ in ask, called at main.go:\d+ \(goroutine 0\) ended with a timeout\.", text[0]
    )
    assert re.search(
        r" Its deadline was set at main.go:\d+ in pool.func1, called at main.go:\d+ \(goroutine 0, step \d+\), 80 ms ahead; 1 Read went",
        text[1],
    )
    assert re.search(r"next:   \S*nrdb pool.jsonl -ex 'goto \d+' -ex 'history rd 1'", text[-1])


def test_calls_that_wait_for_one_another() -> None:
    recording = Recording.read(str(CAUSED / "both-bad.jsonl"))
    rows = hangs_table(recording, recording.length).rows
    assert rows[0].text == "Deadlock: two calls wait for one another."
    assert rules_of(recording) == ["both ends write"]
    assert hangs_table(recording, 10).rows == []


def test_who_reads_what_another_writes_is_in_no_ring() -> None:
    recording = with_lines(TWO_ENDS + writes(0) + READS_ON)
    result = "\n".join(row.text for row in hangs_table(recording, recording.length).rows)
    assert "There Write at a.go:1 in main (goroutine 0) is itself under way" in result
    assert "wait for one another" not in result
    assert rules_of(recording) == []


def test_a_write_needs_room_also_where_its_reader_has_shut_its_own_writing() -> None:
    text = "\n".join(first_words(Recording.read(str(CAUSED / "unread-bad.jsonl")), "unread"))
    assert re.search(r"Write at main.go:\d+ in unread.func1 .* waits on socket 3", text)
    assert "Socket 3 has no room: its other end, socket 2, was never read." in text
    assert "closed for writing" not in text


def test_pieces_of_two_messages_that_are_mixed() -> None:
    text = "\n".join(first_words(Recording.read(str(CAUSED / "writers-bad.jsonl")), "writers"))
    assert re.search(
        r"Perhaps: writes of two goroutines are mixed at socket \d\.\n +Write at main.go:\d+ in writers.func1", text
    )
    assert first_words(Recording.read(str(CAUSED / "writers-good.jsonl")), "writers") == []


def test_a_wait_that_go_ended_itself_is_no_failed_call() -> None:
    recording = Recording.read(str(CAUSED / "body-good.jsonl"))
    table = errors_table(recording, recording.length, None)
    assert [row for row in table.rows if "timed out" in row.text] == []
    assert "waits of Go's own code, which it ended itself" in table.rest


def test_a_broken_connection_is_told_by_its_other_end() -> None:
    recording = Recording.read(str(CAUSED / "body-bad.jsonl"))
    table = errors_table(recording, recording.length, None)
    assert "ECONNRESET" in table.rows[0].text
    assert re.search(r"The other end, socket 2, was closed in net/http", table.rows[1].text)


def test_of_calls_that_fail_alike_one_cause_is_looked_for(monkeypatch: pytest.MonkeyPatch) -> None:
    """A program that spins on a closed descriptor has a failed call for each step."""
    recording = with_lines([*OPEN, *CLOSES_IT, *[["rwlock", 1, 0, "r"]] * 500])
    calls = []

    def counted(*arguments: Any) -> Any:
        calls.append(arguments)
        return cause_of(*arguments)

    monkeypatch.setattr("netrev.findings.causes.first_output.cause_of", counted)
    text = first_words(recording, "spin")
    assert len(calls) == 1
    assert "499 more like it." in text[2]


def test_the_source_is_shown_to_the_end_of_its_function() -> None:
    assert behind(["func f() {", "\tx()", "}", "", "y"], 2) == [(2, "    x()")]


def test_under_a_deadline_are_the_calls_that_ended_since_it_was_set() -> None:
    found = 0
    for seed in range(5):
        index = run_of(Recording(Traffic(seed, None, 800).run().text()))
        for call in index.calls:
            same_side = [item for item in index.by_socket[call.socket] if item.name == call.name]
            under = [item for item in same_side if call.cause < item.last <= call.first]
            assert index.under_its_deadline(call) == under
            found += bool(call.cause and under)
    assert found > 0


def test_times_are_in_the_largest_unit() -> None:
    assert [duration(time) for time in (0, 999, 1500, 999_499_999, 999_999_900, 90 * 10**9)] == [
        "0 ns", "999 ns", "1.5 µs", "999 ms", "1 s", "90 s",
    ]  # fmt: skip


def test_each_finds_its_bug_and_not_what_is_nearly_that() -> None:
    assert set(PAIRS) == {rule.name for rule in RULES_OF_CALLS}
    for rule, pair in PAIRS.items():
        assert rule in rules_of(with_lines(pair.bad)), rule
        assert rule not in rules_of(with_lines(pair.good)), rule


def test_those_of_lines_and_of_other_ends_say_nothing_without() -> None:
    for rule in {rule.name for rule in RULES_OF_CALLS} - {"timeout again and again", "bytes thrown away"}:
        assert rule not in rules_of(recording_of(PAIRS[rule].bad)), rule


def test_an_end_that_was_not_passed_on_is_said_first() -> None:
    recording = with_lines(PAIRS["end not passed on"].bad)
    text = first_words(recording, "a.jsonl")
    assert re.search(
        r"cause:  The end of a stream isn't passed on: Read at a.go:1 in main \(goroutine 1\) met it on socket 2",
        text[0],
    )
    assert "waits for it at the other end, socket 1" in text[1]


def test_a_relay_that_has_not_written_all_or_reads_elsewhere_is_none() -> None:
    for steps in (
        [
            *THREE,
            *PUTS,
            ["arrive", 2, "6869"],
            *TAKES,
            ["peerclose", 2],
            *TAKES,
            *TICKS,
        ],  # (its last line isn't passed on)
        [*RELAYS, *TICKS[:-1]],  # (it may still close)
        [*RELAYS, *PUTS, *TICKS],
    ):
        assert "end not passed on" not in rules_of(with_lines(steps))


def test_a_timeout_by_a_deadline_under_which_calls_went_well_is_no_suspect() -> None:
    """The text about the failed call has the line that set the deadline and the number of calls that succeeded
    before the deadline passed."""
    for name in ("forgotten", "pool"):
        recording = Recording.read(str(CAUSED / f"{name}-bad.jsonl"))
        assert all_suspects_of(recording).suspects == []
        text = "\n".join(first_words(recording, name))
        assert re.search(rf"Its deadline was set at {bug_line(name)} in .*; 1 (Read|Write) went well under it", text)


def test_go_s_own_code_is_not_suspected() -> None:
    for rule in {rule.name for rule in RULES_OF_CALLS} - {"both ends write"}:
        assert rule not in rules_of(with_lines(PAIRS[rule].bad, "go")), rule


def test_they_come_after_the_others_and_say_perhaps() -> None:
    for rule in ("left open", "two readers"):
        found = all_suspects_of(with_lines(PAIRS[rule].bad)).suspects
        assert found[-1].sentence().startswith("perhaps: "), rule
