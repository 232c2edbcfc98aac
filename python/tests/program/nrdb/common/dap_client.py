"""A client that talks to an adapter as an editor does: it sends requests, and checks the form of each message."""

from __future__ import annotations

import json
import os
import subprocess
from typing import Any, BinaryIO, cast

from netrev.errors import NetrevError
from tests.program.support.sharing import NETREV

from .dap_forms import misfit_of_message
from .support import NRDB

Body = dict[str, Any]


class RefusalError(NetrevError):
    """Raised, with the reason, if a request was refused."""


class Client:
    """Talks to an adapter over two streams."""

    def __init__(self, reader: BinaryIO, writer: BinaryIO) -> None:
        self._reader, self._writer = reader, writer
        self._sent = 0
        self._came = 0
        self.thread = 0
        self.events: list[Body] = []

    def __call__(self, command: str, **arguments: Any) -> Body:
        """The answer to a request; raises RefusalError if the request is refused."""
        self._sent += 1
        self.send({"seq": self._sent, "type": "request", "command": command, "arguments": arguments})
        while True:
            message = self.message()
            assert message is not None, f"it ended at {command}"
            if message["type"] == "response":
                break
            self.events.append(message)
        assert (message["request_seq"], message["command"]) == (self._sent, command), message
        if not message["success"]:
            raise RefusalError(message["message"])
        body: Body = message["body"]
        return body

    def send(self, message: Body) -> None:
        self.send_bytes(json.dumps(message).encode())

    def send_bytes(self, data: bytes) -> None:
        self._writer.write(b"Content-Length: %d\r\n\r\n%s" % (len(data), data))
        self._writer.flush()

    def message(self) -> Body | None:
        """The next message, with its form checked; None if the adapter has ended."""
        head = self._reader.readline()
        if not head:
            return None
        assert head.startswith(b"Content-Length: ") and self._reader.readline() == b"\r\n", head
        message: Body = json.loads(self._reader.read(int(head.split()[1])))
        assert not misfit_of_message(message), misfit_of_message(message)
        self._came += 1
        assert message["seq"] == self._came, message
        return message

    def event(self, name: str) -> Body:
        """The body of the next event with this name; earlier messages are skipped."""
        while True:
            while self.events:
                event = self.events.pop(0)
                if event["event"] == name:
                    body: Body = event["body"]
                    return body
            message = self.message()
            assert message is not None and message["type"] == "event", message
            self.events.append(message)

    def move(self, command: str, **arguments: Any) -> Body:
        """Makes a move, and returns the body of the `stopped` event."""
        self.events.clear()
        self(command, **arguments)
        return self.stopped()

    def stopped(self) -> Body:
        """The body of the next `stopped` event; afterwards `thread` is the thread that it names."""
        body = self.event("stopped")
        self.thread = body["threadId"]
        return body

    def begin(self, recording: str, **launch: Any) -> Body:
        """Launches a recording, and returns the body of the first `stopped` event."""
        self("initialize", adapterID="netrev", linesStartAt1=True, columnsStartAt1=True)
        self("launch", program=recording, **launch)
        self.event("initialized")
        return self.move("configurationDone")

    def line(self) -> int:
        """The line of the first frame."""
        line: int = self("stackTrace", threadId=self.thread)["stackFrames"][0]["line"]
        return line


class Adapter(Client):
    """A client that has its own adapter."""

    def __init__(self) -> None:
        self.process = subprocess.Popen(
            [NRDB, "--dap"],
            stdin=subprocess.PIPE,
            stdout=subprocess.PIPE,
            stderr=subprocess.PIPE,
            env=os.environ | {"NETREV": NETREV},
        )
        super().__init__(cast(BinaryIO, self.process.stdout), cast(BinaryIO, self.process.stdin))

    def __enter__(self) -> Adapter:
        return self

    def __exit__(self, *_: object) -> None:
        for stream in (self.process.stdin, self.process.stdout, self.process.stderr):
            assert stream
            stream.close()
        self.process.wait(timeout=60)
