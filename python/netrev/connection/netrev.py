"""A connection to netrev: a process `netrev run FILE`, or a connection to a session that netrev serves."""

import errno
import os
import select
import socket
import subprocess
from collections import deque
from collections.abc import Callable, Sequence
from contextlib import suppress
from dataclasses import dataclass

from netrev.errors import NetrevError
from netrev.messages import session as messages
from netrev.system.interrupts import Interrupts

from .shapes import ListedMark, StrangeReplyError, entries_in, mark_of, value_of

AT_ONCE = 16_384  # the maximum number of bytes sent before the replies are read; every pipe has room for that many
READ = 65_536
LONGEST = 2 * 1_048_576 + 64  # the bytes of the longest reply, which is a dump of a full buffer
QUERIES = ("print ", "dump ", "info position")  # queries whose replies only other lines change
MOST_KEPT, LONGEST_KEPT = 65_536, 200  # the maximum number of stored replies, and the maximum bytes of one
SILENCE = 1  # after this many seconds without a first reply, the caller is notified


def bytes_of(text: str) -> bytes:
    """Lines as bytes. Bytes that aren't UTF-8 are sent unchanged, as is half a surrogate pair, which an editor's JSON
    can contain."""
    try:
        return text.encode("utf-8", "surrogateescape")
    except UnicodeEncodeError:
        return text.encode("utf-8", "surrogatepass")


class NetrevEndedError(NetrevError):
    """Raised when netrev, or the connection to it, has ended. `status` is its exit status, if known."""

    def __init__(self, status: int | None = None):
        super().__init__("netrev ended")
        self.status = status


@dataclass(frozen=True)
class Reply:
    """netrev's reply to a line: its first line, and the entries of a list."""

    first: str
    entries: tuple[str, ...] = ()

    @property
    def lines(self) -> list[str]:
        """All lines of the reply."""
        return [self.first, *self.entries]


def is_kept(reply: Reply) -> bool:
    """Whether the reply may be stored: a repeated query would get it again, since it isn't an error (such as a lack of
    memory), and it isn't long."""
    return len(reply.first) <= LONGEST_KEPT and not reply.first.startswith("fault")


class LineReader:
    """The lines that arrive through a file descriptor."""

    def __init__(self, descriptor: int, silent: Callable[[], None] | None = None):
        self._descriptor, self._silent = descriptor, silent
        self._whole: deque[bytes] = deque()
        self._rest = b""

    def next(self, sent: str) -> str | None:
        """The next line, without its line feed; None at the end. If a line has no end, raises StrangeReplyError with
        the line that was sent."""
        while not self._whole:
            if len(self._rest) > LONGEST:
                raise StrangeReplyError(sent, self._rest[:READ].decode("latin-1"))
            piece = self._read()
            if not piece:
                return None
            *whole, self._rest = (self._rest + piece).split(b"\n")
            self._whole.extend(whole)
        self._silent = None
        return self._whole.popleft().decode("utf-8", "surrogateescape")

    def has_one(self) -> bool:
        """Whether a line has arrived already."""
        return bool(self._whole)

    def _read(self) -> bytes:
        with suppress(OSError, ValueError):
            if self._silent and not select.select([self._descriptor], [], [], SILENCE)[0]:
                self._silent()
                self._silent = None
            return os.read(self._descriptor, READ)
        return b""


class Netrev:
    """Sends lines, and reads a reply to each line. A reply has one line; each of the two lists has one more line for
    each entry. No line is sent while a reply is unread, so each reply belongs to its line."""

    asks_ahead = True  # whether no other user of the session can change the reply to a query

    def __init__(self, interrupts: Interrupts):
        self._interrupts = interrupts
        self._unread = 0
        self._ahead: deque[tuple[str, Reply | Exception]] = deque()  # queries that were sent early, with their results
        self._kept: dict[
            str, Reply
        ] = {}  # replies to queries; other lines clear them, and none is kept if other users can change the session

    def ask(self, line: str) -> Reply:
        """The reply to this line: a stored reply to the same query if no other line was sent since, else netrev's."""
        if self._ahead and self._ahead[0][0] == line:
            self._interrupts.check_given_up()
            _, reply = self._ahead.popleft()
            if isinstance(reply, Exception):
                raise reply
            return reply
        return self._answers([line])[0]

    def ask_ahead(self, queries: Sequence[str]) -> None:
        """Sends several queries at once. The queries change nothing, and each has a reply of one line. `ask` returns
        these replies, in the same order, until another line is sent. If a query failed, `ask` raises the error when
        that reply is requested."""
        self._begin(list(queries))
        for query in queries:
            try:
                self._ahead.append((query, self._reply(query)))
            except (NetrevEndedError, StrangeReplyError) as wrong:
                self._ahead.append((query, wrong))
                return

    def ask_all(self, lines: Sequence[str]) -> list[str]:
        """The replies to these lines, one line each. The lines are sent in batches that don't fill a pipe. Ctrl-C is
        checked between batches."""
        replies: list[str] = []
        batch: list[str] = []
        size = 0
        for line in lines:
            batch.append(line)
            size += len(line) + 1
            if size >= AT_ONCE:
                replies += self._ask_batch(batch)
                batch, size = [], 0
        return replies + self._ask_batch(batch)

    def values(self, cells: Sequence[str]) -> list[str]:
        """The values of the cells at the position."""
        return self.looks([f"print {cell}" for cell in cells])

    def looks(self, lines: Sequence[str]) -> list[str]:
        """The results of these queries, `print CELL` and `dump WHAT S`."""
        return [value_of(line, reply) for line, reply in zip(lines, self.ask_all(lines))]

    def marks(self) -> list[ListedMark]:
        """The current marks."""
        return [mark_of(entry) for entry in self.ask("info breakpoints").entries]

    def _ask_batch(self, batch: list[str]) -> list[str]:
        self._interrupts.check()
        return [reply.first for reply in self._answers(batch)]

    def _answers(self, batch: list[str]) -> list[Reply]:
        """The replies to these lines. A query with a stored reply isn't sent again."""
        if not self.asks_ahead or not all(line.startswith(QUERIES) for line in batch):
            self._begin(batch)
            return [self._reply(line) for line in batch]
        new = [line for line in dict.fromkeys(batch) if line not in self._kept]
        self._begin(new)
        new_replies = {line: self._reply(line) for line in new}
        replies = [new_replies.get(line) or self._kept[line] for line in batch]
        if len(self._kept) + len(new_replies) <= MOST_KEPT:
            self._kept.update((line, reply) for line, reply in new_replies.items() if is_kept(reply))
        return replies

    def _begin(self, lines: list[str]) -> None:
        self._interrupts.check_given_up()
        self._ahead.clear()
        if not all(line.startswith(QUERIES) for line in lines):
            self._kept.clear()
        if self._unread:  # the next line would be the reply to another query
            self.drop()
            raise NetrevEndedError
        self._unread = len(lines)
        if lines:
            self._send(bytes_of("".join(f"{line}\n" for line in lines)))

    def _reply(self, line: str) -> Reply:
        first = self._line(line)
        entries = tuple(self._line(line) for _ in range(entries_in(line, first)))
        self._unread -= 1
        return Reply(first, entries)

    def _line(self, sent: str) -> str:
        line = self._next(sent)
        if line is None:
            raise NetrevEndedError(self.close())
        return line

    def _send(self, text: bytes) -> None:
        """Sends these lines. If netrev has ended, its remaining output can still be read; reading then reports the
        end."""
        raise NotImplementedError

    def _next(self, sent: str) -> str | None:
        """netrev's next line in reply to a line; None if netrev has ended."""
        raise NotImplementedError

    def close(self) -> int | None:
        """Ends the connection, and returns the exit status if netrev has one. Further calls do nothing."""
        raise NotImplementedError

    def drop(self) -> None:
        """Ends the connection without waiting for netrev to finish."""
        self.close()


class NetrevProcess(Netrev):
    """`netrev run FILE`, in a process group of its own, so that Ctrl-C at the keyboard doesn't reach netrev."""

    def __init__(self, program: str, path: str, interrupts: Interrupts):
        super().__init__(interrupts)
        self._process = subprocess.Popen(
            [program, "run", path], stdin=subprocess.PIPE, stdout=subprocess.PIPE, start_new_session=True
        )
        assert self._process.stdin and self._process.stdout
        self._commands, self._replies = self._process.stdin, self._process.stdout
        self._lines = LineReader(self._replies.fileno())

    def _send(self, text: bytes) -> None:
        with suppress(OSError, ValueError):
            self._commands.write(text)
            self._commands.flush()

    def _next(self, sent: str) -> str | None:
        return self._lines.next(sent)

    def close(self) -> int | None:
        for stream in (self._commands, self._replies):
            with suppress(OSError):
                stream.close()
        return self._process.wait()

    def drop(self) -> None:
        self._process.kill()
        self.close()


class ServedSession(Netrev):
    """A connection to a session of `netrev serve`, at its address. `silent` is called if the first reply takes a long
    time."""

    asks_ahead = False

    def __init__(self, address: tuple[str, int], interrupts: Interrupts, silent: Callable[[], None]):
        super().__init__(interrupts)
        try:
            self._socket = socket.create_connection(address, timeout=10)
        except UnicodeError:
            raise OSError(errno.EINVAL, messages.UNKNOWN_HOST) from None
        self._socket.settimeout(None)
        self._socket.setsockopt(socket.IPPROTO_TCP, socket.TCP_NODELAY, 1)
        self._lines = LineReader(self._socket.fileno(), silent)

    def _send(self, text: bytes) -> None:
        with suppress(OSError):
            self._socket.sendall(text)

    def _next(self, sent: str) -> str | None:
        return self._lines.next(sent)

    def close(self) -> int | None:
        with suppress(OSError):
            self._socket.close()
        return None
