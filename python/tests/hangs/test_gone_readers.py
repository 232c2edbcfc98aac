"""A connection's only reader, a goroutine, has ended while bytes still arrive. An io.ReadFull waits for
the rest of its bytes. Its next Read asks only for the missing bytes, and so shows how many have come."""

import re
from typing import Any

from netrev.findings.causes.leftovers import leftovers_of
from netrev.findings.evidence.read_sizes import read_sizes_of
from netrev.findings.evidence.waiters import waiters_at
from netrev.findings.hangs.hang_words import reader_words
from netrev.findings.streams.exchanges import begin_of_full, lacking
from netrev.findings.streams.gone_readers import gone_readers
from netrev.recording.goroutines import GoGoroutine
from netrev.recording.recording import Recording
from netrev.recording.waits import Name
from netrev.run.index import run_of
from tests.failed_calls.test_causes import GETS, TWO_ENDS, UNLOCKS, with_lines

from .test_needs import put, stored

READER = 8  # Go's number of goroutine 1, which reads on socket 0
CLOSES: list[Any] = [["increfclose", 0, 0], ["evict", 0, 0], ["decref", 0, 0], ["pollclose", 0, 0]]
READS = [*TWO_ENDS, *GETS, *UNLOCKS]
ENDED = len(READS)


def recording_of(steps: list[Any], ended: int = ENDED) -> Recording:
    """A recording of these steps; goroutine 1 ended after step `ended` (-1: it hasn't ended)."""
    recording = with_lines(steps)
    recording.lines.goroutines[READER] = GoGoroutine(READER, 1, None, 0, 0, ended, 0, 0)
    recording.lines._goids[1] = READER
    return recording


def found(steps: list[Any], ended: int = ENDED) -> int:
    recording = recording_of(steps, ended)
    return sum(reader.write is not None for reader in gone_readers(run_of(recording), recording.length))


def test_bytes_that_come_after_its_end() -> None:
    recording = recording_of([*READS, *put(1, "6869")])
    (text,) = [leftover.says for leftover in leftovers_of(recording) if "nobody reads" in leftover.says[0]]
    assert (
        text[0]
        == f"Perhaps: nobody reads on socket 0 any more: goroutine 1, which alone had read there, ended after step {ENDED}."
    )
    assert re.search(r"^Write .* came after that, in steps \d+ to \d+: nobody has read it\.$", text[2])


def test_one_that_is_there_yet_or_after_which_nothing_came() -> None:
    assert found([*READS, *put(1, "6869")]) == 1
    assert found([*READS, *put(1, "6869")], -1) == 0
    assert found(READS) == 0


def test_a_connection_that_was_closed_or_that_another_reads_too() -> None:
    assert found([*READS, *CLOSES, *put(1, "6869")]) == 0
    others = [[step[0], 0, *step[2:]] if step[0] != "arrive" else step for step in [*GETS, *UNLOCKS]]
    assert found([*READS, *others, *put(1, "6869")]) == 0


def test_it_is_said_of_a_hang_of_the_goroutine_that_wrote_there() -> None:
    recording = recording_of([*READS, *put(0, "6869"), *put(1, "6869")])
    index = run_of(recording)
    assert re.search(r"^Nobody reads on socket 0 any more: ", reader_words(index, {Name(0)}, recording.length)[0])
    assert reader_words(index, {Name(1)}, recording.length) == []


def test_it_is_said_of_a_hang_also_if_nothing_came_since() -> None:
    recording = recording_of([*READS, *put(0, "6869")])
    assert len(reader_words(run_of(recording), {Name(0)}, recording.length)) == 2
    assert [leftover.says for leftover in leftovers_of(recording) if "nobody reads" in leftover.says[0]] == []


def test_its_number_may_be_another_s_since_then() -> None:
    recording = recording_of([*READS, *put(1, "6869")])
    lines, index = recording.lines, run_of(recording)
    assert len(index.by_goid(READER)) > 0
    lines.add_owners([[1, 0, READER], [1, ENDED, READER + 1]])
    lines.goroutines[READER + 1] = GoGoroutine(READER + 1, 1, None, 0, 0, -1, 0, 0)
    lines._goids[1] = READER + 1
    assert len(list(gone_readers(index, recording.length))) == 1
    later = [call for call in index.by_goroutine[1] if call.first > ENDED]
    assert (index.by_goid(READER), index.by_goid(READER + 1)) == ([], later)
    assert len(index.by_goroutine[1]) > len(later)


def test_the_next_read_says_how_many_bytes_one_got() -> None:
    recording = stored("longer-bad")
    index, request = run_of(recording), read_sizes_of(recording)
    calls = [waiter.call for waiter in waiters_at(index, recording.length).values() if waiter.call]
    (call,) = [call for call in calls if lacking(index, call, index.other_end(call.socket) or 0)]
    before, other = request.before(call), index.other_end(call.socket) or 0
    assert before is not None
    recording.lines.bytes = before.moved or 0
    request._sizes.update({before.first: 8_800, call.first: 8_719})
    assert begin_of_full(index, request, call) is before
    assert re.search(
        r"^Perhaps fewer bytes .* asked for 8800 and has 81, so 8719 more must come\.", lacking(index, call, other)[0]
    )
    request._sizes.update({before.first: 8_800, call.first: 8_799})
    assert lacking(index, call, other) == []
