"""Sends the events of a session, as JSON, to all browsers that listen. A new browser first gets the latest events. All
functions except `tell` are called in the server's own thread."""

import asyncio
from collections import deque
from collections.abc import Callable, Iterator
from contextlib import contextmanager
from http import HTTPStatus
from itertools import count
from typing import Any

from netrev.messages import browsers as texts
from netrev.timeline.page import plain_json

from .requests import RejectedRequestError

MOST_STREAMS = 16
MOST_KEPT, KEPT_BYTES = 400, 2**20  # the maximum number of events stored for later browsers, and of their bytes
WAITING_BYTES = 8 * 2**20  # the maximum number of bytes that wait for a slow browser
STATES = ("stands", "marks", "netrev", "picture")  # events of which only the latest matters

Event = dict[str, Any]


def message(event: Event) -> bytes:
    """An event in the form in which it is sent. Each text in the event is escaped."""
    return f"data: {plain_json(event)}\n\n".encode("ascii")


class BrowserStream:
    """A browser that listens, with its number."""

    def __init__(self, number: int) -> None:
        self.number = number
        self.is_after = False
        self._waiting: deque[bytes] = deque()
        self._bytes = 0
        self._arrival = asyncio.Event()

    @property
    def name(self) -> str:
        """The name of the browser."""
        return f"browser {self.number}"

    def put(self, data: bytes) -> None:
        """Queues data for the browser. If too much data is queued already, the browser is too slow, and its stream
        ends."""
        if self._waiting and self._bytes + len(data) > WAITING_BYTES:
            self.is_after = True
        else:
            self._waiting.append(data)
            self._bytes += len(data)
        self._arrival.set()

    async def come(self) -> None:
        """Waits until the stream has data to send."""
        await self._arrival.wait()

    def take(self) -> bytes:
        """The data to send."""
        data = b"".join(self._waiting)
        self._waiting.clear()
        self._bytes = 0
        self._arrival.clear()
        return data


class Streams:
    """All browsers that listen, and the latest events."""

    def __init__(self, recording: str) -> None:
        self._recording = recording
        self._streams: dict[int, BrowserStream] = {}
        self._numbers = count(1)
        self._kept: deque[bytes] = deque()
        self._bytes = 0
        self._states: dict[str, bytes] = {}
        self._soon: Callable[[Event], object] = self._tell

    def begin(self, loop: asyncio.AbstractEventLoop) -> None:
        """Sends events in this loop from now on."""
        self._soon = lambda event: loop.call_soon_threadsafe(self._tell, event)

    def tell(self, event: str, **values: Any) -> None:
        """Sends an event to all browsers. Any thread may call it."""
        self._soon({"event": event, **values})

    def listening(self) -> int:
        """The number of browsers that listen."""
        return len(self._streams)

    def name_of(self, number: str) -> str:
        """The name of the browser with this number."""
        stream = self._streams.get(int(number)) if number.isdecimal() and len(number) < 10 else None
        return stream.name if stream else "somebody"

    @contextmanager
    def joined(self) -> Iterator[BrowserStream]:
        """A context with a browser's event stream; raises RejectedRequestError if too many browsers listen."""
        if len(self._streams) >= MOST_STREAMS:
            raise RejectedRequestError(
                HTTPStatus.SERVICE_UNAVAILABLE, texts.TOO_MANY_BROWSERS.format(most=MOST_STREAMS)
            )
        stream = BrowserStream(next(self._numbers))
        you = {"event": "you", "who": stream.name, "number": stream.number, "recording": self._recording or None}
        stream.put(b"".join([message(you), *self._kept, *self._states.values()]))
        self._streams[stream.number] = stream
        self._notify_browsers()
        try:
            yield stream
        finally:
            del self._streams[stream.number]
            self._notify_browsers()

    def _notify_browsers(self) -> None:
        data = message({"event": "browsers", "here": [stream.name for stream in self._streams.values()]})
        for stream in self._streams.values():
            stream.put(data)

    def _tell(self, event: Event) -> None:
        data = message(event)
        if event["event"] in STATES:
            self._states[event["event"]] = data
        else:
            self._keep(data)
        for stream in self._streams.values():
            stream.put(data)

    def _keep(self, data: bytes) -> None:
        """Keeps an event for later browsers, and drops the oldest event if too many are kept."""
        self._kept.append(data)
        self._bytes += len(data)
        while len(self._kept) > MOST_KEPT or self._bytes > KEPT_BYTES:
            self._bytes -= len(self._kept.popleft())
