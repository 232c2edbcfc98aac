"""Reads a request from a connection and answers it. Each connection has one request. A request that is too slow or too
long is rejected."""

import asyncio
from contextlib import suppress
from http import HTTPStatus

from netrev.messages import browsers as texts

from .requests import BrowserRequest, RejectedRequestError

LONGEST_HEAD = 8_192  # the maximum number of bytes before a body
IN_TIME = 5.0  # how many seconds a request may take to arrive, and a part of the response to be accepted
# after a response: the maximum number of bytes read, and how many seconds this may take
TAKEN_STILL, STILL = 65_536, 0.3
PLAIN, JSON, EVENT_STREAM = "text/plain; charset=utf-8", "application/json", "text/event-stream"
ALWAYS = {
    "Cache-Control": "no-store",
    "X-Content-Type-Options": "nosniff",
    "Referrer-Policy": "no-referrer",
    "X-Frame-Options": "DENY",
    "Cross-Origin-Opener-Policy": "same-origin",
    "Cross-Origin-Resource-Policy": "same-origin",
    "Connection": "close",
}


class BrowserConnection:
    """A connection."""

    def __init__(self, reader: asyncio.StreamReader, writer: asyncio.StreamWriter, policy: str):
        self._reader, self._writer = reader, writer
        self._headers = ALWAYS | {"Content-Security-Policy": policy}

    async def head(self) -> BrowserRequest:
        """The request without its body. Raises RejectedRequestError if the request doesn't arrive completely in time,
        and EOFError if no byte arrives."""
        try:
            head = await asyncio.wait_for(self._reader.readuntil(b"\r\n\r\n"), IN_TIME)
        except asyncio.LimitOverrunError:
            raise RejectedRequestError(HTTPStatus.REQUEST_HEADER_FIELDS_TOO_LARGE, texts.LONG_HEADERS) from None
        except asyncio.TimeoutError:
            raise RejectedRequestError(HTTPStatus.REQUEST_TIMEOUT, texts.SLOW_REQUEST) from None
        except asyncio.IncompleteReadError as ended:
            if ended.partial:
                raise RejectedRequestError(HTTPStatus.BAD_REQUEST, texts.NOT_A_REQUEST) from None
            raise
        return BrowserRequest.of(head)

    async def body(self, length: int) -> bytes:
        """The next `length` bytes of the body; raises RejectedRequestError if they don't arrive in time."""
        try:
            return await asyncio.wait_for(self._reader.readexactly(length), IN_TIME)
        except (asyncio.TimeoutError, asyncio.IncompleteReadError):
            raise RejectedRequestError(HTTPStatus.REQUEST_TIMEOUT, texts.SLOW_LINE) from None

    async def answer(self, status: HTTPStatus, body: bytes, sort: str = PLAIN) -> None:
        """Answers the request."""
        await self.begin(status, sort, {"Content-Length": str(len(body))})
        await self.send(body)

    async def begin(self, status: HTTPStatus, sort: str, more: dict[str, str] = {}) -> None:
        """Begins a response. Its data follow later."""
        lines = [f"HTTP/1.1 {status.value} {status.phrase}"]
        lines += [f"{name}: {value}" for name, value in ({"Content-Type": sort} | self._headers | more).items()]
        await self.send("\r\n".join([*lines, "", ""]).encode("ascii"))

    async def send(self, data: bytes) -> None:
        """Sends these bytes; raises ConnectionError if the other end doesn't accept them in time."""
        self._writer.write(data)
        try:
            await asyncio.wait_for(self._writer.drain(), IN_TIME)
        except asyncio.TimeoutError:
            self._writer.transport.abort()
            raise ConnectionAbortedError from None

    async def gone(self) -> None:
        """Returns when the other end has gone or has sent more than its request."""
        with suppress(ConnectionError):
            await self._reader.read(1)

    async def close(self) -> None:
        """Ends the connection. It first reads for a moment, so that a reset doesn't destroy the response."""
        with suppress(OSError, asyncio.TimeoutError):
            self._writer.write_eof()
            await asyncio.wait_for(self._take_rest(), STILL)
        self._writer.close()
        try:
            await asyncio.wait_for(self._writer.wait_closed(), IN_TIME)
        except (OSError, asyncio.TimeoutError):
            self._writer.transport.abort()

    async def _take_rest(self) -> None:
        left = TAKEN_STILL
        while left > 0 and (data := await self._reader.read(left)):
            left -= len(data)
