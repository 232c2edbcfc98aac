"""The rules about reads and writes of a connection's two ends, clause by clause: waits for a connect or a deadline,
bytes that were never read, readers that ended, and flushes."""

from types import SimpleNamespace as Made
from typing import Any, cast

import pytest

from netrev.findings.causes import leftovers
from netrev.findings.evidence import call_words, deadlines_ahead
from netrev.findings.streams import exchanges, gone_readers
from netrev.recording.where import OF_GO, SourceCall, Stack

Patch = pytest.MonkeyPatch


@pytest.mark.parametrize(
    "place, says",
    [("a.go:3", "the Read at a.go:3"), ("in net.Dial", "the Read in net.Dial"), ("", "the Read")],
)
def test_the_call_whose_deadline_ends_a_wait(place: str, says: str, monkeypatch: Patch) -> None:
    monkeypatch.setattr(deadlines_ahead, "name_of", lambda recording, call: call.name)
    index = Made(recording=Made(lines=Made(of=lambda step: Made(place=lambda: place if step == 8 else "b.go:1"))))
    found = deadlines_ahead.until_words(cast(Any, index), cast(Any, Made(first=8, name="Read")))
    assert found == f"until the deadline of {says} passes"


@pytest.mark.parametrize(
    "functions, is_connecting",
    [(("net.(*netFD).connect",), True), (("net.Dial", "net.(*netFD).connect", "main.ask"), True), (("net.Dial", "main.ask"), False), ((), False)],
)  # fmt: skip
def test_a_wait_in_a_connect(functions: tuple[str, ...], is_connecting: bool) -> None:
    stack = Stack(tuple(SourceCall(function, "a.go", 3, OF_GO) for function in functions), None)
    assert call_words.is_connecting(stack) is is_connecting


@pytest.mark.parametrize(
    "is_cut, are_known, counts", [(False, False, True), (True, False, False), (True, True, True), (False, True, True)]
)
def test_bytes_that_were_never_read_in_a_recording_of_a_part(
    is_cut: bool, are_known: bool, counts: bool, monkeypatch: Patch
) -> None:
    read, wrote = Made(first=5, last=6, steps=lambda: "step 5"), Made(first=3, last=4, steps=lambda: "step 3")
    monkeypatch.setattr(leftovers, "is_cut", lambda recording, index, sockets: is_cut)
    monkeypatch.setattr(leftovers, "are_known", lambda index: are_known)
    monkeypatch.setattr(leftovers, "moved_at", lambda index, socket, name, until: 9 if name == "Write" else 4)
    monkeypatch.setattr(
        leftovers, "first_beyond", lambda index, socket, count: wrote if (socket, count) == (1, 4) else None
    )
    monkeypatch.setattr(leftovers, "is_of_go", lambda recording, call: False)
    monkeypatch.setattr(leftovers, "text_of_call", lambda recording, call: f"call {call.first}")
    monkeypatch.setattr(leftovers, "result_words", lambda recording, call: "which got 4 bytes")
    monkeypatch.setattr(leftovers, "place_of_step", lambda recording, step, goroutine: f" in step {step}")
    lines = Made(peers={1: 2}, of=lambda step: Made(calls=()))
    index = Made(
        recording=Made(lines=lines, length=20), by_socket={1: [], 2: []}, closing=lambda socket, until, whole: Made(first=8, goroutine=3),
        last_use=lambda socket, until, names: read,
    )  # fmt: skip
    causes = list(leftovers.never_read(cast(Any, index)))
    assert [cause.says[0] for cause in causes] == ["5 bytes that call 3 wrote in step 3 were never read."] * counts


@pytest.mark.parametrize(
    "position, writes, answer",
    [(20, [(8, 9)], 8), (20, [(7, 9)], None), (20, [(6, 9), (8, 9), (12, 13)], 8), (8, [(8, 9)], 8), (7, [(8, 9)], None), (20, [(8, 0)], None)],
)  # fmt: skip
def test_the_first_write_after_a_reader_ended(
    position: int, writes: list[tuple[int, int]], answer: int | None, monkeypatch: Patch
) -> None:
    monkeypatch.setattr(gone_readers, "ended_after", lambda index, call, until: 7)
    monkeypatch.setattr(gone_readers, "is_of_go", lambda recording, call: False)
    read = Made(name="Read", first=3, goroutine=2)
    written = [Made(name="Write", first=first, last=last, moved=4) for first, last in writes]
    index = Made(recording=Made(lines=Made(peers={1: 2})), by_socket={1: [read], 2: written})
    found = gone_readers.gone_reader(cast(Any, index), 1, position)
    assert found is not None and (found.write.first if found.write else None) == answer


@pytest.mark.parametrize(
    "opened, stack, dialed, moves, is_client",
    [
        (True, True, True, [("Read", 2), ("Write", 2)], True), (True, True, False, [("Write", 2)], False), (True, False, False, [("Write", 2), ("Read", 2)], True),
        (True, False, True, [("Read", 2), ("Write", 2)], False), (False, True, True, [("Read", 2)], False), (False, True, False, [("Write", 2)], True),
        (True, True, True, [("Read", 2), ("Write", 3)], False), (True, True, True, [], False),
    ],
)  # fmt: skip
def test_the_end_that_a_goroutine_dialed(
    opened: bool, stack: bool, dialed: bool, moves: list[tuple[str, int]], is_client: bool, monkeypatch: Patch
) -> None:
    monkeypatch.setattr(exchanges, "is_dialed", lambda index, socket: dialed and socket == 5)
    calls = [Made(name="Open", first=3, goroutine=2, moved=0)] * opened
    calls += [Made(name=name, first=at, goroutine=goroutine, moved=4) for at, (name, goroutine) in enumerate(moves, 4)]
    lines = Made(of=lambda step: Made(calls=["a call"] if stack and step == 3 else []))
    index = Made(by_socket={5: calls}, recording=Made(lines=lines))
    assert exchanges.is_client(cast(Any, index), 2, 5) is is_client
