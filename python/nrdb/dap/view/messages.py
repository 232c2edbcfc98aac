"""The protocol's messages: Each message is JSON after a header with its length. Messages go in both directions."""

import json
from dataclasses import dataclass, field
from threading import Lock
from typing import Any, BinaryIO

from netrev.errors import NetrevError
from netrev.messages import editors as texts

LONGEST = 16 * 2**20  # the maximum number of bytes in a message
LONGEST_HEADER = 1_024
HEADERS = (b"content-length", b"content-type")  # the header lines of the protocol

Body = dict[str, Any]


class MalformedMessageError(NetrevError):
    """Raised, with the reason, if the input isn't a message. Where such an input ends is unknown, so nothing after it
    can be read."""


class EditorGoneError(NetrevError, OSError):
    """Raised if nothing can be written to the editor any more."""


class UnanswerableError(NetrevError):
    """Raised for a request that can't be answered, with the reason for the editor to show."""


@dataclass(frozen=True)
class Request:
    """A request: its number, its name and its arguments."""

    number: int
    command: str
    arguments: Body = field(default_factory=dict)

    def text(self, name: str) -> str:
        """The argument with this name, which must be a string."""
        value = self.arguments.get(name)
        if not isinstance(value, str):
            raise UnanswerableError(texts.STRING.format(command=self.command, name=name))
        return value

    def whole_number(self, name: str) -> int:
        """The argument with this name, which must be a whole number."""
        value = self.arguments.get(name)
        if not isinstance(value, int) or isinstance(value, bool):
            raise UnanswerableError(texts.INTEGER.format(command=self.command, name=name))
        return value

    def objects(self, name: str) -> list[Body]:
        """The argument with this name, which must be a list of objects; an empty list if it is missing."""
        value = self.arguments.get(name) or []
        if not isinstance(value, list) or not all(isinstance(item, dict) for item in value):
            raise UnanswerableError(texts.OBJECTS.format(command=self.command, name=name))
        return value


class EditorStreams:
    """The two streams to the editor. Several threads may write messages, but only one thread may read them."""

    def __init__(self, reader: BinaryIO, writer: BinaryIO, most: int | None = None):
        self._reader, self._writer = reader, writer
        self.most = most  # the maximum number of bytes that may arrive in all, headers included
        self._arrived_bytes = 0
        self._sent, self._lock = 0, Lock()
        self.received = 0  # the bytes of all messages so far

    def request(self) -> Request | None:
        """The next request; None if the editor has gone. Messages of other types are skipped."""
        while True:
            length = self._length()
            if length is None:
                return None
            data = self._reader.read(length)
            if len(data) < length:
                return None
            self.received += length
            message = _object(data)
            if message.get("type") == "request":
                return _request(message)

    def _length(self) -> int | None:
        """The length in the header; None at the end of the input. Any other line ends the input, because a browser's
        request for a web page begins with such a line."""
        found: dict[bytes, bytes] = {}
        while (line := self._reader.readline(LONGEST_HEADER)) not in (b"\r\n", b"\n"):
            if not line:
                return None
            self._arrived_bytes += len(line)
            name, _, value = line.partition(b":")
            name = name.strip().lower()
            if name not in HEADERS or name in found:
                raise MalformedMessageError(texts.ONE_HEADER)
            found[name] = value.strip()
        length = found.get(HEADERS[0], b"")
        if not length.isdigit() or int(length) > LONGEST:
            raise MalformedMessageError(texts.CONTENT_LENGTH)
        self._arrived_bytes += int(length)
        if self.most is not None and self._arrived_bytes > self.most:
            raise MalformedMessageError(texts.TOO_MUCH.format(most=self.most))
        return int(length)

    def respond(self, request: Request, body: Body) -> None:
        """Answers a request that succeeded."""
        self._send("response", request_seq=request.number, command=request.command, success=True, body=body)

    def refuse(self, request: Request, why: str) -> None:
        """Answers a request that failed, with the reason."""
        error = {"id": 1, "format": why.replace("{", "(").replace("}", ")"), "showUser": True}
        response = {"success": False, "message": why, "body": {"error": error}}
        self._send("response", request_seq=request.number, command=request.command, **response)

    def event(self, name: str, **body: Any) -> None:
        """Sends an event."""
        self._send("event", event=name, body=body)

    def _send(self, sort: str, **message: Any) -> None:
        with self._lock:
            self._sent += 1
            data = json.dumps({"seq": self._sent, "type": sort, **message}).encode("ascii")
            try:
                self._writer.write(b"Content-Length: %d\r\n\r\n%s" % (len(data), data))
                self._writer.flush()
            except (OSError, ValueError) as gone:  # the other end, or nrdb, has closed the stream
                raise EditorGoneError(str(gone)) from gone


def _object(data: bytes) -> Body:
    """The JSON object in these bytes."""
    try:
        message = json.loads(data)
    except (ValueError, RecursionError):
        raise MalformedMessageError(texts.NOT_JSON) from None
    if not isinstance(message, dict):
        raise MalformedMessageError(texts.NOT_AN_OBJECT)
    return message


def _request(message: Body) -> Request:
    """The request that an object represents."""
    number, command, arguments = message.get("seq"), message.get("command"), message.get("arguments")
    if not isinstance(number, int) or not isinstance(command, str):
        raise MalformedMessageError(texts.NO_COMMAND)
    return Request(number, command, arguments if isinstance(arguments, dict) else {})
