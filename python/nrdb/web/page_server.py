"""The page's server. The server listens only on the loopback interface, in a thread of its own, and answers six kinds
of requests. It passes requests about the session to the thread that runs the session."""

import asyncio
import socket
import threading
from concurrent.futures import Future
from contextlib import suppress
from http import HTTPStatus
from typing import Protocol

from netrev.errors import NetrevError
from netrev.messages import browsers as texts

from .document import Document
from .http_connection import EVENT_STREAM, JSON, LONGEST_HEAD, BrowserConnection
from .requests import (
    BROWSER,
    COMPLETE,
    EVENTS,
    LINE,
    PAGE,
    PART,
    BrowserRequest,
    Gate,
    RejectedRequestError,
    line_of,
    positions_of,
)
from .streams import BrowserStream, Streams

LOOPBACK = "127.0.0.1"
MOST_CONNECTIONS = 64
PULSE = 15.0  # seconds after which the server sends something to a browser, to detect that the browser has gone
# how long the server waits for connections that the system has already accepted, and how long it may take to end (in
# seconds)
LAST, ENDING = 0.02, 4.0
BEGINNING = b"retry: 1000\n\n"
UNAVAILABLE = HTTPStatus.SERVICE_UNAVAILABLE


class UnavailableError(NetrevError):
    """Raised, with the reason, if the requested data aren't available now."""


class SessionRunner(Protocol):
    """The part of a session's runner that the server calls. Each call returns at once."""

    def post(self, user: str, line: str) -> None:
        """Queues a line. The answer follows in events. Raises UnavailableError if the line can't be queued."""

    def complete(self, line: str) -> "Future[bytes]":
        """The completions of the last word of a line, as JSON; raises UnavailableError if the session can't find any."""

    def timeline(self) -> "Future[bytes]":
        """The timeline's data, as JSON; raises UnavailableError if it can't be made."""

    def part(self, first: int, last: int) -> "Future[bytes]":
        """The timeline's data of these positions, as JSON; raises UnavailableError if they can't be made."""


def listening(port: int) -> socket.socket:
    """A socket that listens on a port of 127.0.0.1; port 0 means any free port. Raises an OSError if listening
    fails."""
    listener = socket.socket()
    try:
        listener.setsockopt(socket.SOL_SOCKET, socket.SO_REUSEADDR, 1)
        listener.bind((LOOPBACK, port))
        listener.listen(2 * MOST_CONNECTIONS)
    except OverflowError as error:
        listener.close()
        raise OSError(0, str(error)) from None
    except OSError:
        listener.close()
        raise
    return listener


class Server:
    """Serves the page on a socket, from `start` to `stop`."""

    def __init__(self, at: socket.socket, gate: Gate, document: Document, streams: Streams, session: SessionRunner):
        self._socket, self._gate, self._document = at, gate, document
        self._streams, self._session = streams, session
        self._open: dict[asyncio.Task[None], asyncio.StreamWriter] = {}
        self._asking: dict[asyncio.Task[None], None] = {}  # connections whose requests are incomplete, oldest first
        self._closing: dict[asyncio.Task[None], None] = {}  # connections whose requests were answered
        self._ready = threading.Event()
        self._thread = threading.Thread(target=lambda: asyncio.run(self._serve()), daemon=True)

    def start(self) -> None:
        """Starts serving."""
        self._thread.start()
        self._ready.wait()

    def stop(self) -> None:
        """Ends all connections and stops serving, within a fixed time."""
        self._loop.call_soon_threadsafe(self._ended.set)
        self._thread.join(ENDING)

    async def _serve(self) -> None:
        self._loop, self._ended = asyncio.get_running_loop(), asyncio.Event()
        self._streams.begin(self._loop)
        server = await asyncio.start_server(self._accept, sock=self._socket, limit=LONGEST_HEAD)
        self._ready.set()
        await self._ended.wait()
        # (if the socket were closed at once, the server would lose connections that it has just accepted)
        self._loop.remove_reader(self._socket)
        await asyncio.sleep(LAST)
        server.close()
        limit = self._loop.time() + ENDING / 2
        while self._open and self._loop.time() < limit:
            for task in self._open:
                task.cancel()
            await asyncio.sleep(0)

    def _accept(self, reader: asyncio.StreamReader, writer: asyncio.StreamWriter) -> None:
        """Accepts a connection. If too many connections are open, the server closes the oldest connection that was
        answered, or else the connection that has taken longest to send its request."""
        is_full = len(self._open) >= MOST_CONNECTIONS
        if is_full and (spared := self._closing or self._asking):
            longest = next(iter(spared))
            del spared[longest]
            longest.cancel()  # (if that connection has just ended, its place is free already)
            is_full = False
        task = self._loop.create_task(
            self._connected(BrowserConnection(reader, writer, self._document.policy), is_full)
        )
        self._open[task] = writer
        self._asking[task] = None
        task.add_done_callback(self._leave)

    def _leave(self, task: "asyncio.Task[None]") -> None:
        """Removes a connection that has ended."""
        self._asking.pop(task, None)
        self._closing.pop(task, None)
        self._open.pop(task).transport.abort()

    async def _connected(self, wire: BrowserConnection, is_full: bool) -> None:
        """Answers a connection's request, or rejects it with the reason."""
        task = asyncio.current_task()
        assert task
        with suppress(ConnectionError, EOFError):
            try:
                if is_full:
                    raise RejectedRequestError(UNAVAILABLE, texts.TOO_MANY_REQUESTS)
                request = await wire.head()
                self._gate.check(request)
                body = await wire.body(request.length())
                self._asking.pop(task, None)
                await self._answer(wire, request, body)
            except RejectedRequestError as why:
                await wire.answer(why.status, str(why).encode("utf-8"))
            except UnavailableError as why:
                await wire.answer(UNAVAILABLE, str(why).encode("utf-8"))
        self._asking.pop(task, None)
        self._closing[task] = None
        await wire.close()

    async def _answer(self, wire: BrowserConnection, request: BrowserRequest, body: bytes) -> None:
        """Answers an admitted request."""
        if request.path == PAGE:
            await wire.answer(HTTPStatus.OK, self._document.data, "text/html; charset=utf-8")
        elif request.path == EVENTS:
            with self._streams.joined() as stream:
                await self._tell(wire, stream)
        elif request.path == LINE:
            self._session.post(self._streams.name_of(request.headers.get(BROWSER, "")), line_of(body))
            await wire.answer(HTTPStatus.ACCEPTED, b"")
        elif request.path == COMPLETE:
            found = await asyncio.wrap_future(self._session.complete(line_of(body)))
            await wire.answer(HTTPStatus.OK, found, JSON)
        else:
            future = self._session.part(*positions_of(request)) if request.path == PART else self._session.timeline()
            await wire.answer(HTTPStatus.OK, await asyncio.wrap_future(future), JSON)

    async def _tell(self, wire: BrowserConnection, stream: BrowserStream) -> None:
        """Sends events to a browser until it disconnects or falls too far behind."""
        await wire.begin(HTTPStatus.OK, EVENT_STREAM)
        await wire.send(BEGINNING)
        gone = asyncio.create_task(wire.gone())
        try:
            while not gone.done() and not stream.is_after:
                arrival = asyncio.create_task(stream.come())
                await asyncio.wait({arrival, gone}, timeout=PULSE, return_when=asyncio.FIRST_COMPLETED)
                arrival.cancel()
                await wire.send(stream.take() or b":\n\n")
        finally:
            gone.cancel()
            await asyncio.wait({gone})  # (because two tasks must not read at the same time)
