"""`nrdb --dap-port` serves editors on a port, one after the other, and refuses all other connections."""

import json
import os
import socket
import struct
import subprocess
from collections.abc import Iterator
from contextlib import ExitStack, closing, suppress
from pathlib import Path
from typing import Any

import pytest

from nrdb.dap import handshakes as handshaking
from nrdb.dap.handshakes import Handshakes
from tests.program.nrdb.common.dap_client import Client, RefusalError
from tests.program.nrdb.common.support import EXAMPLES, NRDB
from tests.program.support.sharing import NETREV
from tests.support.stubs import stub

LOST = str(EXAMPLES / "lost-wakeup.jsonl")
LOOPBACK = "127.0.0.1"
PATIENCE = 60  # seconds
TOKEN = "a token of this test"


def framed(*messages: dict[str, Any]) -> bytes:
    """Messages in the form in which they are sent."""
    texts = [json.dumps(message).encode() for message in messages]
    return b"".join(b"Content-Length: %d\r\n\r\n%s" % (len(text), text) for text in texts)


def asked(number: int, command: str, **arguments: Any) -> dict[str, Any]:
    return {"seq": number, "type": "request", "command": command, "arguments": arguments}


class Port:
    """A port that is served, and connections to it."""

    def __init__(self, cleanups: ExitStack, **settings: str) -> None:
        environment = os.environ | {"NETREV": NETREV} | settings
        self.serving = subprocess.Popen(
            [NRDB, "--dap-port", "0"], stdout=subprocess.PIPE, stderr=subprocess.PIPE, env=environment, text=True
        )
        cleanups.callback(self.end)
        assert self.serving.stdout
        self.port = int(self.serving.stdout.readline().rpartition(":")[2])
        self.token = self.serving.stdout.readline().split('"')[3]

    def end(self) -> None:
        self.serving.kill()
        self.serving.communicate()

    def connect(self) -> socket.socket:
        return socket.create_connection((LOOPBACK, self.port), timeout=PATIENCE)

    def editor(self, connection: socket.socket) -> Client:
        return Client(connection.makefile("rb"), connection.makefile("wb"))

    def said_to(self, data: bytes) -> bytes:
        """Sends these data to nrdb, closes the sending side, and returns everything that nrdb sends back."""
        with self.connect() as connection:
            connection.sendall(data)
            connection.shutdown(socket.SHUT_WR)
            return b"".join(iter(lambda: received(connection), b""))

    def goes_on(self) -> None:
        """Checks that an editor with the token is still served."""
        with self.connect() as connection:
            editor = self.editor(connection)
            assert editor.begin(LOST, token=self.token)["reason"] == "entry"
            editor("disconnect")


def received(connection: socket.socket) -> bytes:
    try:
        return connection.recv(65_536)
    except ConnectionError:
        return b""


@pytest.fixture
def port(cleanups: ExitStack) -> Port:
    return Port(cleanups)


def test_two_editors(port: Port) -> None:
    assert len(port.token) > 40
    port.goes_on()
    port.goes_on()


def test_one_that_leaves_in_the_middle_ends_nothing(port: Port) -> None:
    launch = asked(1, "launch", program=LOST, token=port.token)
    begun = framed(launch, asked(2, "configurationDone"))
    for data in (begun, b"Content-Length: 100\r\n\r\n{", framed(asked(1, "initialize")), b""):
        for resets in (False, True):
            with port.connect() as connection:
                if resets:
                    connection.setsockopt(socket.SOL_SOCKET, socket.SO_LINGER, struct.pack("ii", 1, 0))
                connection.sendall(data)
    port.goes_on()


def test_a_page_of_a_browser_has_nothing_run(folder: Path, port: Port) -> None:
    process, program = folder / "ran", folder / "program"
    program.write_text(f"#!/bin/sh\ntouch {process}\n")
    program.chmod(0o700)
    tokens: list[dict[str, Any]] = [{}, {"token": port.token}]
    for token in tokens:
        body = json.dumps(asked(1, "launch", program=LOST, netrev=str(program), **token)).encode()
        head = f"POST / HTTP/1.1\r\nHost: {LOOPBACK}:{port.port}\r\nOrigin: http://evil.example\r\n"
        head += f"Content-Type: text/plain\r\nContent-Length: {len(body)}\r\n\r\n"
        assert port.said_to(head.encode() + body) == b""
    port.goes_on()
    assert not process.exists()


def test_without_the_token_nothing_is_answered(port: Port) -> None:
    tokens: list[dict[str, Any]] = [
        {},
        {"token": ""},
        {"token": port.token[:-1]},
        {"token": 7},
        {"token": "\ud800"},
    ]
    for token in tokens:
        launch = asked(2, "launch", program=LOST, **token)
        result = port.said_to(framed(asked(1, "threads"), launch, asked(3, "initialize")))
        assert result.count(b'"success": false') == 2, result
        assert b'"success": true' not in result
    with port.connect() as connection, pytest.raises(RefusalError, match="needs the token that nrdb printed"):
        port.editor(connection).begin(LOST)
    port.goes_on()


def test_a_token_of_the_environment_is_taken(cleanups: ExitStack) -> None:
    port = Port(cleanups, NRDB_TOKEN="sixteen letters!")
    assert port.token == "sixteen letters!"
    port.goes_on()


def test_a_short_token_is_refused() -> None:
    environment = os.environ | {"NRDB_TOKEN": "fifteen letters"}
    ended = subprocess.run([NRDB, "--dap-port", "0"], env=environment, capture_output=True, text=True, check=False)
    assert (ended.returncode, ended.stdout) == (2, "")
    assert "at least 16 printable ASCII characters" in ended.stderr


@pytest.fixture
def handshakes() -> Iterator[tuple[Handshakes, tuple[str, int]]]:
    """The handshakes on a port of this process, and the port's address."""
    with closing(socket.create_server((LOOPBACK, 0))) as listening:
        yield Handshakes(listening, TOKEN), listening.getsockname()


def is_ended(connection: socket.socket) -> bool:
    """Whether the other side ends a connection in time; text that it sends before that is skipped."""
    connection.settimeout(PATIENCE)
    try:
        while connection.recv(65_536):
            pass
    except ConnectionError:
        pass
    except TimeoutError:
        return False
    return True


def test_one_without_the_token_is_ended_in_time(
    monkeypatch: pytest.MonkeyPatch, handshakes: tuple[Handshakes, tuple[str, int]]
) -> None:
    monkeypatch.setattr(handshaking, "IN_TIME", 0.2)
    with socket.create_connection(handshakes[1]) as stranger:
        stranger.sendall(b"Content-Length: 100\r\n\r\n{")
        assert is_ended(stranger)


def test_one_with_the_token_is_not_ended(
    monkeypatch: pytest.MonkeyPatch, handshakes: tuple[Handshakes, tuple[str, int]]
) -> None:
    opened, address = handshakes
    timers: list[tuple[float, Any]] = []
    calls: list[str] = []

    def timer(seconds: float, function: Any) -> Any:
        timers.append((seconds, function))
        return stub(start=lambda: calls.append("start"), cancel=lambda: calls.append("cancel"), daemon=False)

    monkeypatch.setattr(handshaking, "Timer", timer)
    with socket.create_connection(address) as editor:
        editor.sendall(framed(asked(1, "initialize"), asked(2, "launch", token=TOKEN), asked(3, "threads")))
        connection = opened.next()
        assert connection.initialize and connection.launch
        assert timers == [(handshaking.IN_TIME, connection.hang_up)]
        assert calls == ["start", "cancel"]
        request = connection.wire.request()
        assert request and request.command == "threads"
        connection.close()


def test_silent_strangers_hold_up_no_editor(
    monkeypatch: pytest.MonkeyPatch, handshakes: tuple[Handshakes, tuple[str, int]]
) -> None:
    """(nobody reads it)"""
    opened, address = handshakes
    monkeypatch.setattr(handshaking, "IN_TIME", 600)
    with ExitStack() as connected:
        strangers = [connected.enter_context(socket.create_connection(address)) for _ in range(handshaking.MOST + 6)]
        editor = connected.enter_context(socket.create_connection(address))
        editor.sendall(framed(asked(1, "launch", token=TOKEN)))
        connection = opened.next()
        assert connection.launch and connection.launch.arguments == {"token": TOKEN}
        assert is_ended(strangers[0])
        connection.close()


def test_an_editor_that_is_served_holds_up_no_answer_to_another(
    monkeypatch: pytest.MonkeyPatch, handshakes: tuple[Handshakes, tuple[str, int]]
) -> None:
    opened, address = handshakes
    monkeypatch.setattr(handshaking, "IN_TIME", 600)
    with socket.create_connection(address) as first, socket.create_connection(address) as second:
        first.sendall(framed(asked(1, "launch", token=TOKEN)))
        served = opened.next()
        client = Client(second.makefile("rb"), second.makefile("wb"))
        assert client("initialize")["supportsStepBack"]
        served.close()


def test_many_requests_before_the_token_are_not_read(
    monkeypatch: pytest.MonkeyPatch, handshakes: tuple[Handshakes, tuple[str, int]]
) -> None:
    _, address = handshakes
    empty: list[dict[str, Any]] = [{}] * 4_000
    for flood in (framed(*[asked(number, "cancel") for number in range(2_000)]), framed(*empty)):
        with socket.create_connection(address) as stranger, monkeypatch.context() as patch:
            patch.setattr(handshaking, "IN_TIME", 600)
            assert len(flood) > handshaking.MOST_BYTES
            with suppress(ConnectionError):
                stranger.sendall(flood)
            assert is_ended(stranger)
