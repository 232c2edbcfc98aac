"""How an editor's connection begins and ends: the requests before a launch, the arguments of a launch, the messages
about a recording, and the exit status; and the steps that an editor shows for a thread."""

import io
import os
import socket
import sys
from collections.abc import Iterator
from contextlib import ExitStack, contextmanager
from pathlib import Path
from typing import Any

import pytest

from netrev.connection.collected_output import Collecting
from nrdb.dap import adapter, handshakes, server
from nrdb.dap.adapter import Adapter
from nrdb.dap.admission import NAMED_BY
from nrdb.dap.handshakes import Connection
from nrdb.dap.inspection import page
from nrdb.dap.message_reader import Reading
from nrdb.dap.target import AT_END, AT_START, Launch
from nrdb.dap.view import debuggee
from nrdb.dap.view.debuggee import Debuggee
from nrdb.dap.view.messages import EditorStreams, Request, UnanswerableError
from nrdb.dap.view.presentation import GOIDS, NETWORK, maker_of, thread_of
from tests.support.stubs import raising, stub
from tests.suspects.test_suspects import COMES, OPEN, READ, recording_of

from .test_message_reader import framed, messages_in

TOKEN = "right"
INITIALIZE, LAUNCH, STRANGE = (
    framed(1, "initialize"),
    framed(2, "launch", token=TOKEN),
    framed(2, "launch", token="wrong"),
)


@pytest.mark.parametrize(
    ("sent", "is_admitted", "answered"),
    [
        (INITIALIZE + LAUNCH, True, [("initialize", True)]),
        (LAUNCH, True, []),
        (INITIALIZE + INITIALIZE + LAUNCH, True, [("initialize", True), ("initialize", True)]),
        (INITIALIZE, False, [("initialize", True)]),
        (INITIALIZE + STRANGE + LAUNCH, False, [("initialize", True), ("launch", False)]),
        (INITIALIZE + framed(2, "disconnect") + LAUNCH, False, [("initialize", True), ("disconnect", True)]),
        (INITIALIZE + framed(2, "threads") + LAUNCH, True, [("initialize", True), ("threads", False)]),
        (b"", False, []),
    ],
)
def test_a_connection_is_admitted_by_a_launch_with_the_token(
    sent: bytes, is_admitted: bool, answered: list[tuple[str, bool]]
) -> None:
    """The connection answers the requests before the launch. The adapter gets the initialize request and the launch."""
    editor, ours = socket.socketpair()
    with editor, editor.makefile("rb") as reader:
        connection = Connection(_Unoptioned(ours), TOKEN)
        editor.sendall(sent)
        editor.shutdown(socket.SHUT_WR)
        assert connection.admitted() == is_admitted
        assert (connection.launch is not None) == is_admitted
        begins = [item for item in (connection.initialize, connection.launch) if item]
        if is_admitted:
            assert [item.command for item in begins] == ["initialize", "launch"][sent == LAUNCH :]
            assert connection.wire.most is None  # (from now on, it may send as much as it likes)
        connection.close()
        result = [(message["command"], message["success"]) for message in messages_in(reader.read())]
        assert result == answered
        with pytest.raises(OSError):
            ours.send(b"x")  # (it has been closed)


class _Unoptioned(socket.socket):
    """One end of a pair. It has no TCP options, so it ignores them."""

    def __init__(self, of: socket.socket) -> None:
        super().__init__(of.family, of.type, of.proto, of.detach())

    def setsockopt(self, *_: Any) -> None:
        pass


@pytest.mark.parametrize(
    ("address", "wanted"),
    [
        ("localhost:80", ("localhost", 80)), (":80", ("127.0.0.1", 80)), ("80", ("127.0.0.1", 80)), ("[::1]:8080", ("::1", 8080)), ("h:0", ("h", 0)),
        ("h:65535", ("h", 65_535)), ("h:65536", None), ("h:99999", None), ("h:00080", ("h", 80)), ("h:000080", None), ("h:", None), ("h", None), ("", None),
        ("h:-1", None), ("h:8o", None), ("h:\u0662", None),
    ],
)  # fmt: skip
def test_the_address_of_an_attach(address: str, wanted: tuple[str, int] | None) -> None:
    request = Request(1, "attach", {"program": "x.jsonl", "address": address})
    if wanted is None:
        with pytest.raises(UnanswerableError):
            Launch.of_attach(request)
    else:
        assert Launch.of_attach(request).address == wanted


@pytest.mark.parametrize(
    ("stop_at", "is_taken"), [(AT_END, True), (AT_START, True), (0, True), (7, True), (-1, False), ("7", False), (None, False), (1.5, False)]
)  # fmt: skip
def test_where_a_launch_stops(stop_at: Any, is_taken: bool) -> None:
    request = Request(1, "launch", {"program": "x.jsonl", "stopAt": stop_at})
    if is_taken:
        assert Launch.of(request).stop_at == stop_at
    else:
        with pytest.raises(UnanswerableError):
            Launch.of(request)
    assert Launch.of(Request(1, "launch", {"program": "x.jsonl"})).stop_at == AT_END


@pytest.mark.parametrize("fault", ["", "no stack"])
@pytest.mark.parametrize("begins", ["", "the recording begins at step 5"])
def test_an_editor_is_told_what_a_recording_lacks(monkeypatch: pytest.MonkeyPatch, fault: str, begins: str) -> None:
    lines = stub(fault=fault, why_unused=lambda path: f"{path}: {fault}")
    calls: list[str] = []
    debugged = stub(recording=stub(lines=lines), length=0, say_nothing_yet=lambda: calls.append("say_nothing_yet"))

    @contextmanager
    def opened(*_: Any) -> Iterator[Any]:
        yield debugged

    written = io.BytesIO()
    wire = EditorStreams(io.BytesIO(), written)
    began = Adapter(wire, Reading(wire), "netrev")
    monkeypatch.setattr(adapter, "debuggee", opened)
    monkeypatch.setattr(adapter, "DebugTarget", lambda *_: stub(moves=stub(goto=lambda *_: None)))
    monkeypatch.setattr(adapter, "begin_words", lambda _: begins)
    outcome = began._begin(Launch.of(Request(1, "launch", {"program": "x.jsonl"})))
    output = [
        message["body"]["output"] for message in messages_in(written.getvalue()) if message.get("event") == "output"
    ]
    assert output == [*([f"| x.jsonl: {fault}\n"] if fault else []), *([f"| {begins}\n"] if begins else [])]
    assert outcome.event == "initialized"
    assert calls == ["say_nothing_yet"]


@pytest.mark.parametrize(
    ("sent", "status", "says"), [(b"", 0, ""), (INITIALIZE, 0, ""), (framed(1, "disconnect"), 0, ""), (b"Hello\r\n\r\n", 3, "nrdb --dap: ")]
)  # fmt: skip
def test_the_exit_status(
    monkeypatch: pytest.MonkeyPatch, sent: bytes, status: int, says: str, capsys: pytest.CaptureFixture[str]
) -> None:
    assert server.serve(EditorStreams(io.BytesIO(sent), io.BytesIO()), "netrev") == status
    assert capsys.readouterr().err.startswith(says)
    monkeypatch.setattr(Adapter, "serve", raising(BrokenPipeError))
    assert server.serve(EditorStreams(io.BytesIO(), io.BytesIO()), "netrev") == 3


def test_an_editor_is_served_over_the_standard_streams(monkeypatch: pytest.MonkeyPatch) -> None:
    reader, writer = os.pipe()
    os.write(writer, INITIALIZE)
    os.close(writer)
    with open(reader, "rb") as stdin, monkeypatch.context() as patch:
        patch.setattr(sys, "stdin", stdin)
        written = io.BytesIO()
        patch.setattr(sys, "stdout", stub(buffer=written))
        assert server.serve_streams("netrev") == 0
        assert not stdin.closed
    (answer, *_) = messages_in(written.getvalue())
    assert (answer["command"], answer["success"]) == ("initialize", True)


def test_who_says_nothing_delays_nobody_and_is_ended(monkeypatch: pytest.MonkeyPatch) -> None:
    monkeypatch.setattr(handshakes, "IN_TIME", 0.3)
    with socket.create_server(("127.0.0.1", 0)) as listening:
        shaking = handshakes.Handshakes(listening, TOKEN)
        with socket.create_connection(listening.getsockname()) as silent:
            with socket.create_connection(listening.getsockname()) as editor:
                editor.sendall(INITIALIZE + LAUNCH)
                connection = shaking.next()
                assert connection.launch and connection.launch.arguments == {"token": TOKEN}
                silent.settimeout(60)
                assert silent.recv(1) == b""  # (after a while)
                editor.sendall(framed(3, "threads"))
                request = connection.wire.request()
                assert request and request.command == "threads"  # (an admitted connection isn't ended)
                connection.close()


def test_of_many_who_say_nothing_the_oldest_is_ended(monkeypatch: pytest.MonkeyPatch) -> None:
    monkeypatch.setattr(handshakes, "MOST", 2)
    with socket.create_server(("127.0.0.1", 0)) as listening, ExitStack() as opened:
        handshakes.Handshakes(listening, TOKEN)
        silent = [opened.enter_context(socket.create_connection(listening.getsockname())) for _ in range(3)]
        silent[0].settimeout(60)
        assert silent[0].recv(1) == b""
        for connection in silent[1:]:
            connection.settimeout(0.05)
            with pytest.raises(TimeoutError):
                connection.recv(1)


def test_a_port_can_be_served_again_at_once(capsys: pytest.CaptureFixture[str]) -> None:
    """The system still remembers the previous editor's connection."""

    def served(port: int) -> tuple[int, int]:
        """The exit status, and the port; an editor connects meanwhile, and nrdb ends the connection."""

        def connected(listening: socket.socket, _: str) -> Any:
            ports.append(listening.getsockname()[1])
            with socket.create_connection(listening.getsockname()) as editor:
                accepted, _ = listening.accept()
                accepted.close()
                assert editor.recv(1) == b""
            return stub(next=raising(KeyboardInterrupt))

        ports: list[int] = []
        with pytest.MonkeyPatch.context() as patch:
            patch.setattr(server, "Handshakes", connected)
            return server.serve_port("netrev", port), ports[-1] if ports else 0

    status, port = served(0)
    assert status == 0
    assert served(port) == (0, port)
    assert capsys.readouterr().out.count(f"nrdb --dap: editors are served at 127.0.0.1:{port}\n") == 2


@pytest.mark.parametrize("port", [65_536, -1])
def test_a_port_that_cannot_be_served(port: int, capsys: pytest.CaptureFixture[str]) -> None:
    assert server.serve_port("netrev", port) == 3
    assert capsys.readouterr().err.startswith(f"nrdb --dap-port {port}: ")


@pytest.mark.parametrize("token", ["short", "\u00e4" * 40, "line\n" * 10])
def test_a_token_that_is_none(monkeypatch: pytest.MonkeyPatch, token: str, capsys: pytest.CaptureFixture[str]) -> None:
    monkeypatch.setenv(NAMED_BY, token)
    assert server.serve_port("netrev", 0) == 2
    assert capsys.readouterr().err.startswith("nrdb --dap-port: ")


# ---- what it shows


def debugged(position: int) -> Debuggee:
    recording = recording_of(OPEN + READ + COMES + [["tick", 5]] + [["rwunlock", 1, 0, "r"], ["tick", 9], ["tick", 12]])
    return Debuggee(stub(known_position=position), recording, Collecting(), "x.jsonl")


MAKERS = [None, None, None, 0, 1, 1, 1, None, None, None, 1, None, None]  # of the steps from 1 on


@pytest.mark.parametrize("position", range(len(MAKERS)))
def test_the_steps_of_a_thread(monkeypatch: pytest.MonkeyPatch, position: int) -> None:
    shown = debugged(position)
    assert [shown.maker(number) for number in range(1, len(MAKERS))] == MAKERS[1:]
    assert shown.maker_here() == MAKERS[min(position + 1, len(MAKERS) - 1)]
    for maker in (None, 0, 1, 2):
        steps = [number for number in range(1, position + 1) if MAKERS[number] == maker]
        assert shown.last_step_of(maker) == max(steps, default=0)
    monkeypatch.setattr(debuggee, "FAR", 2)
    near = [number for number in range(max(position - 1, 1), position + 1) if MAKERS[number] is None]
    assert shown.last_step_of(None) == max(near, default=0)


def test_the_step_on_a_line_or_after_it() -> None:
    shown = debugged(0)
    lines = [shown.recording.step(number).line for number in range(1, len(MAKERS))]
    for line in range(lines[0] - 1, lines[-1] + 2):
        following = [number for number, one in enumerate(lines, 1) if one >= line]
        step = shown.step_at(line)
        assert (step.number if step else None) == (following[0] if following else None)


@pytest.mark.parametrize(("path", "is_it"), [("x.jsonl", True), ("./x.jsonl", True), ("y.jsonl", False), ("\0", False)])
def test_the_path_of_the_recording(path: str, is_it: bool) -> None:
    shown = debugged(0)
    assert shown.is_at(path) == is_it
    assert shown.source() == {"name": "x.jsonl", "path": str(Path("x.jsonl").resolve())}


@pytest.mark.parametrize(("thread", "maker"), [(1, 0), (8, 7), (NETWORK - 1, NETWORK - 2), (NETWORK, None)])
def test_threads_are_numbered_from_1(thread: int, maker: int | None) -> None:
    assert (maker_of(thread), thread_of(maker)) == (maker, thread)


@pytest.mark.parametrize("thread", [0, -1, NETWORK + 1, GOIDS, GOIDS + 1])
def test_threads_that_no_goroutine_has(thread: int) -> None:
    with pytest.raises(UnanswerableError) as refused:
        maker_of(thread)
    assert ("goid 1 " in str(refused.value)) == (thread == GOIDS + 1)


@pytest.mark.parametrize(
    ("arguments", "shown"),
    [
        ({}, "abcde"), ({"start": 0, "count": 0}, "abcde"), ({"start": 2}, "cde"), ({"count": 2}, "ab"), ({"start": 1, "count": 3}, "bcd"),
        ({"start": 4, "count": 3}, "e"), ({"start": 5}, ""), ({"start": None, "count": 1}, "a"),
    ],
)  # fmt: skip
def test_a_part_of_a_list(arguments: dict[str, Any], shown: str) -> None:
    found = page(Request(1, "variables", arguments), [{"name": letter} for letter in "abcde"], "start", "count")
    assert "".join(item["name"] for item in found) == shown


@pytest.mark.parametrize("arguments", [{"start": -1}, {"count": -1}, {"start": "1"}, {"count": 1.5}])
def test_a_part_that_is_none(arguments: dict[str, Any]) -> None:
    with pytest.raises(UnanswerableError):
        page(Request(1, "variables", arguments), [], "start", "count")
