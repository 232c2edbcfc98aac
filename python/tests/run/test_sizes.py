"""The bytes of calls for which a recording counts fewer bytes, datagrams that were cut off, and Unix sockets that are
the two ends of one connection."""

import pytest

from netrev.findings.datagrams.cut_datagrams import cut_datagrams
from netrev.findings.evidence.sizes import are_known, moved_at, size_of
from netrev.recording.recording import Recording
from netrev.recording.where import SourceLines
from netrev.run.index import run_of
from netrev_go.log.points import Point, PointKind
from netrev_go.log.socket_facts import OF_UNIX, Beside
from tests.hangs.test_needs import stored


@pytest.mark.parametrize(
    "order, peers",
    [
        ("d1 a2", [(1, 2)]), ("a2 d1", [(1, 2)]), ("d1 d3 a2 a4", [(1, 2), (3, 4)]), ("d1 a2 d3", [(1, 2)]),
        ("d1 a2 p3 q4", [(1, 2), (3, 4)]), ("d1 e3 a2 a4", []), ("d1 d3 a2 b4", []), ("d1", []), ("a2", []), ("e1 e3 b2 b4", [(1, 2), (3, 4)]),
    ],
)  # fmt: skip
def test_unix_sockets_of_one_connection(order: str, peers: list[tuple[int, int]]) -> None:
    beside = Beside()
    for actor, socket in ((word[0], int(word[1:])) for word in order.split()):
        own, other = (9 if actor in "pq" else 7, 0)[:: 1 if actor in "abq" else -1]
        beside.named(socket, Point(socket, PointKind.NAMED, ord(actor), 0, own, other, OF_UNIX, 0, 0))
    beside.pair_unix()
    assert (beside.peers, beside.ends, beside.addresses) == (peers, [], [])


def calls_of(recording: Recording, name: str) -> list[int]:
    """The sizes of the calls with this name on the sockets of a recording, in order."""
    index = run_of(recording)
    return [size_of(index, call) for call in index.calls if call.name == name and call.moved]


def test_sizes_are_those_that_were_moved() -> None:
    recording = stored("partly-bad")
    index = run_of(recording)
    wrote = next(call for call in index.calls if call.name == "Write" and call.moved)
    assert are_known(index) and (wrote.moved, size_of(index, wrote)) == (64, 1 << 20)
    assert moved_at(index, wrote.socket, "Write", recording.length) == 1 << 20
    assert moved_at(index, wrote.socket, "Write", wrote.last - 1) == 0
    recording.lines.sizes.clear()
    again = stored("partly-bad")
    again.lines.sizes.clear()
    index = run_of(again)
    assert not are_known(index) and max(calls_of(again, "Write")) == 64


@pytest.mark.parametrize(
    "text, is_good", [('{"sizes":[[1,100]]}', True), ('{"sizes":[[1,"100"]]}', False), ('{"sizes":[[1]]}', False)]
)
def test_lines_of_sizes(text: str, is_good: bool) -> None:
    assert (SourceLines(f'{{"where":2,"steps":3}}\n{text}', 3).fault == "") is is_good


def test_datagrams_that_were_cut() -> None:
    index = run_of(stored("datagram-bad"))
    found = [(size_of(index, datagram.write), size_of(index, datagram.read)) for datagram in cut_datagrams(index)]
    assert found == [(20, 16)]
    assert not cut_datagrams(run_of(stored("datagram-good")))


def test_datagrams_of_which_one_was_lost_are_no_pairs() -> None:
    recording = stored("datagram-bad")
    index = run_of(recording)
    first = next(call for call in index.calls if call.name == "Write" and call.moved)
    index.by_socket[first.socket].remove(first)  # as if it belonged to another socket
    cut_datagrams.cache_clear()
    assert not cut_datagrams(index)
