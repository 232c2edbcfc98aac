"""A client of nrdb's page that uses plain sockets: requests exactly as written, and the events of a session."""

from __future__ import annotations

import json
import re
import socket
import time
from collections.abc import Callable
from contextlib import suppress
from typing import Any, NamedTuple

PATIENCE = 30  # seconds
LOOPBACK = "127.0.0.1"
ADDRESS = re.compile(r"http://127\.0\.0\.1:(\d+)/\?token=([\w-]+)")

Event = dict[str, Any]


class Answer(NamedTuple):
    """The answer to a request: the status, 0 if the connection ended without one; the headers, and the body."""

    status: int
    headers: dict[str, str]
    body: bytes

    @classmethod
    def of(cls, data: bytes) -> Answer:
        """Parses an answer from these bytes."""
        head, _, body = data.partition(b"\r\n\r\n")
        first, *lines = head.decode("ascii").split("\r\n")
        if not first:
            return cls(0, {}, b"")
        return cls(int(first.split()[1]), dict(line.split(": ", 1) for line in lines), body)


class Address(NamedTuple):
    """The address of a page, and its token."""

    port: int
    token: str

    @classmethod
    def printed(cls, text: str) -> Address:
        """The address in a text that nrdb has printed."""
        found = ADDRESS.search(text)
        assert found, text
        return cls(int(found[1]), found[2])

    def __str__(self) -> str:
        return f"http://{LOOPBACK}:{self.port}/?token={self.token}"

    def connect(self) -> socket.socket:
        """A connection."""
        return socket.create_connection((LOOPBACK, self.port), timeout=PATIENCE)

    def request(self, method: str, target: str, body: bytes = b"", /, **headers: str) -> bytes:
        """A request as the page makes it, with the given headers, whose names have _ in place of -. A header with an
        empty text is omitted."""
        own = {"Host": f"{LOOPBACK}:{self.port}", "Netrev-Token": self.token}
        if method == "POST":
            own |= {"Origin": f"http://{LOOPBACK}:{self.port}", "Content-Length": str(len(body))}
        own |= {name.replace("_", "-"): value for name, value in headers.items()}
        lines = [f"{method} {target} HTTP/1.1", *(f"{name}: {value}" for name, value in own.items() if value)]
        return "".join(f"{line}\r\n" for line in [*lines, ""]).encode("latin-1") + body

    def send(self, data: bytes) -> Answer:
        """The answer to these bytes."""
        with self.connect() as connection:
            with suppress(ConnectionError):
                connection.sendall(data)
            return Answer.of(rest_of(connection))

    def get(self, target: str, **headers: str) -> Answer:
        """The answer to a GET."""
        return self.send(self.request("GET", target, **headers))

    def type(self, line: str, **headers: str) -> Answer:
        """The answer to a line: whether it was accepted, or why it was refused."""
        return self.send(self.request("POST", "/line", line.encode("utf-8"), **headers))


def rest_of(connection: socket.socket) -> bytes:
    """Everything that arrives until the connection ends."""
    data = b""
    with suppress(ConnectionError):
        while came := connection.recv(1 << 16):
            data += came
    return data


class Listener:
    """A client that listens to the events of a session, and types lines."""

    def __init__(self, address: Address):
        self._address, self._connection = address, address.connect()
        self._connection.sendall(address.request("GET", f"/events?token={address.token}", Netrev_Token=""))
        self._lines = self._connection.makefile("rb")
        self.status = int(self._lines.readline().split()[1])
        while self._lines.readline().strip():
            pass
        self.events: list[Event] = []
        self.you: Event = self.until(lambda event: event["event"] == "you") if self.status == 200 else {}

    def __enter__(self) -> Listener:
        return self

    def __exit__(self, *_: object) -> None:
        self._lines.close()
        self._connection.close()

    def next(self) -> Event:
        """The next event; raises EOFError if there are no more, and TimeoutError if only pulses come."""
        limit = time.monotonic() + PATIENCE
        while line := self._lines.readline():
            if line.startswith(b"data: "):
                event: Event = json.loads(line[len(b"data: ") :])
                self.events.append(event)
                return event
            if time.monotonic() > limit:
                raise TimeoutError(f"no event came after {self.events[-5:]}")
        raise EOFError

    def until(self, is_it: Callable[[Event], bool]) -> Event:
        """The next event for which this is true."""
        limit = time.monotonic() + PATIENCE
        while time.monotonic() < limit:
            if is_it(event := self.next()):
                return event
        raise TimeoutError(f"it didn't come: {self.events[-5:]}")

    def named(self, name: str) -> Event:
        """The next event of that name."""
        return self.until(lambda event: event["event"] == name)

    def asks(self, line: str) -> list[Event]:
        """Types a line; returns the events from its beginning to its end, without the events about participants."""
        taken = self._address.type(line, Netrev_Browser=str(self.you["number"]))
        assert taken.status == 202, taken
        mine = {"who": self.you["who"], "line": line}
        self.until(lambda event: event == {"event": "line", **mine})
        before = len(self.events)
        self.until(lambda event: event["event"] in ("answered", "unanswered") and mine.items() <= event.items())
        return [event for event in self.events[before:] if event["event"] != "browsers"]

    def said(self, line: str) -> list[str]:
        """Types a line; returns the reply."""
        return [text for event in self.asks(line) if event["event"] == "said" for text in event["lines"]]
