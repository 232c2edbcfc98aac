"""The beginnings of connections to a port. Several handshakes run at once, each in a thread of its own until its launch
carries the token. A connection without the token therefore doesn't delay an editor."""

import socket
from contextlib import ExitStack, suppress
from queue import SimpleQueue
from threading import Lock, Thread, Timer

from .admission import StrangerError, is_let_in
from .view.capabilities import CAPABILITIES
from .view.messages import EditorStreams, MalformedMessageError, Request, UnanswerableError

IN_TIME = 10.0  # seconds that an editor at the port has to send a launch
MOST = 64  # the maximum number of connections that haven't sent the token; a further one closes the oldest
MOST_BYTES = 65_536  # the maximum number of bytes that a connection may send before the token


class Connection:
    """A connection, and the requests that its editor has sent so far."""

    def __init__(self, connected: socket.socket, token: str):
        self._connected, self._token, self._opened = connected, token, ExitStack()
        self._opened.enter_context(connected)
        connected.setsockopt(socket.IPPROTO_TCP, socket.TCP_NODELAY, 1)
        reader = self._opened.enter_context(connected.makefile("rb"))
        writer = self._opened.enter_context(connected.makefile("wb"))
        self._opened.callback(self.hang_up)  # so that no thread still reads when the streams are closed
        self.wire = EditorStreams(reader, writer, MOST_BYTES)
        self.initialize: Request | None = None
        self.launch: Request | None = None

    def admitted(self) -> bool:
        """Answers the requests that need no token, until a launch with the token arrives. Returns False if the
        connection ends first."""
        while (request := self.wire.request()) is not None:
            try:
                if is_let_in(request, self._token):
                    self.launch, self.wire.most = request, None
                    return True
            except UnanswerableError as why:
                self.wire.refuse(request, str(why))
                if isinstance(why, StrangerError):
                    return False
                continue
            is_beginning = request.command == "initialize"
            self.wire.respond(request, CAPABILITIES if is_beginning else {})
            if not is_beginning:
                return False
            self.initialize = request
        return False

    def hang_up(self) -> None:
        """Ends the connection, even while it is being read."""
        with suppress(OSError):
            self._connected.shutdown(socket.SHUT_RDWR)

    def close(self) -> None:
        with suppress(OSError, ValueError):
            self._opened.close()


class Handshakes:
    """The connections to a port. Connections that have sent the token are queued, and served one after the other."""

    def __init__(self, listening: socket.socket, token: str):
        self._listening, self._token = listening, token
        self._begun: dict[Connection, Timer] = {}
        self._lock = Lock()
        self._admitted: "SimpleQueue[Connection]" = SimpleQueue()
        Thread(target=self._accept, daemon=True).start()

    def next(self) -> Connection:
        """The next connection that has sent the token."""
        return self._admitted.get()

    def _accept(self) -> None:
        while True:
            try:
                connected, _ = self._listening.accept()
            except OSError:  # the connection was reset, or the port was closed
                if self._listening.fileno() < 0:
                    return
                continue
            with suppress(OSError):
                self._begin(Connection(connected, self._token))

    def _begin(self, connection: Connection) -> None:
        late = Timer(IN_TIME, connection.hang_up)
        late.daemon = True
        with self._lock:
            oldest = next(iter(self._begun)) if len(self._begun) >= MOST else None
            self._begun[connection] = late
        if oldest:
            self._ended(oldest)
            oldest.hang_up()
        late.start()
        Thread(target=self._shake, args=(connection,), daemon=True).start()

    def _shake(self, connection: Connection) -> None:
        """Begins a connection, in a thread of its own."""
        is_admitted = False
        # (an error means that the other end has gone, or has sent something that isn't a message)
        with suppress(MalformedMessageError, OSError, ValueError):
            is_admitted = connection.admitted()
        is_admitted = self._ended(connection) and is_admitted
        if is_admitted:
            self._admitted.put(connection)
        else:
            connection.close()

    def _ended(self, connection: Connection) -> bool:
        """Marks a connection's handshake as ended. Returns False if it had ended already."""
        with self._lock:
            late = self._begun.pop(connection, None)
        if late:
            late.cancel()
        return late is not None
