"""A log's facts about sockets that aren't steps: which two sockets are the ends of one connection, and system errors
without a step."""

from __future__ import annotations

import errno
from dataclasses import dataclass, field

from .point_answers import BROKEN_PIPE
from .points import Point, PointKind
from .sockets import AGAIN
from .waits import LoggedWait

# Errors that end a call of the program. After other errors, Go tries another way,
# for example if it can't splice a file.
OF_CONNECTIONS = frozenset(
    (
        errno.EPIPE, errno.ECONNRESET, errno.ECONNABORTED, errno.ECONNREFUSED, errno.ETIMEDOUT, errno.EHOSTUNREACH,
        errno.ENETUNREACH, errno.EMFILE, errno.ENFILE,
    )
)  # fmt: skip


OF_DATAGRAMS, GOES_TO, OF_UNIX = 1, 2, 3  # the kinds of a NAMED point, as in go/log/poll.go
OF_IPV4, LOOPBACK, UNSPECIFIED = 1, 3, 4  # kinds of addresses there


def address_words(packed: int) -> str:
    """An address and its port as text; empty for none. For an IPv6 address, only a hash is known."""
    sort, address, port = packed >> 56, packed >> 16 & 2**40 - 1, packed & 65_535
    if sort == OF_IPV4:
        return f"{'.'.join(str(address >> shift & 255) for shift in (24, 16, 8, 0))}:{port}"
    plain = {LOOPBACK: "::1", UNSPECIFIED: "::"}.get(sort, f"..{address:x}")
    return f"[{plain}]:{port}" if sort else ""


@dataclass
class Beside:
    """Facts for NAME.where: pairs of sockets that are the ends of one connection, the names of both ends, the step
    after which a goroutine got an error, and waits outside the poller."""

    peers: list[tuple[int, int]] = field(default_factory=list)
    errors: list[tuple[int, str]] = field(default_factory=list)
    waits: list[LoggedWait] = field(default_factory=list)  # outside the poller
    ends: list[tuple[int, int, int]] = field(default_factory=list)  # sockets with the numbers of both ends' names
    # the addresses of datagram sockets, and the addresses that they are connected to
    addresses: list[tuple[int, str, str]] = field(default_factory=list)
    # the steps after which datagrams were sent, with their addresses
    sent: list[tuple[int, str]] = field(default_factory=list)
    # the steps whose reads and writes moved more bytes than the recording counts, with the real number
    sizes: list[tuple[int, int]] = field(default_factory=list)
    # for each path, the sockets that were accepted and dialed there, with the goroutines that did so
    _unix: dict[int, tuple[list[tuple[int, int]], list[tuple[int, int]]]] = field(default_factory=dict)
    _names: dict[int, int] = field(default_factory=dict)  # a number for each name
    # sockets by name, while their other end isn't known
    _ends: dict[tuple[int, int], list[int]] = field(default_factory=dict)

    def named(self, socket: int, point: Point, step: int = 0) -> None:
        """Records a socket's own name and the other end's; a newer name replaces an older name. For a datagram socket,
        records its addresses, or the step after which a datagram is sent."""
        if point.c == OF_DATAGRAMS:
            self.addresses.append((socket, address_words(point.a), address_words(point.b)))
        elif point.c == GOES_TO:
            self.sent.append((step, address_words(point.a)))
        elif point.c == OF_UNIX:
            self._is_of_unix(socket, point)
        else:
            self._is_connected(socket, point)

    def _is_connected(self, socket: int, point: Point) -> None:
        own, other = (self._names.setdefault(name, len(self._names) + 1) for name in (point.a, point.b))
        self.ends.append((socket, own, other))
        others = self._ends.get((point.b, point.a))
        if others:
            self.peers.append((others.pop(), socket))
        else:
            self._ends.setdefault((point.a, point.b), []).append(socket)

    def _is_of_unix(self, socket: int, point: Point) -> None:
        """Records a socket that was connected to a path, or accepted there."""
        path, is_dialed = (point.b, True) if point.b else (point.a, False)
        self._unix.setdefault(path, ([], []))[is_dialed].append((socket, point.goroutine))

    def pair_unix(self) -> None:
        """Pairs the ends of connections to a Unix path. If one goroutine dialed them all and one goroutine accepted
        them all, the first dialed socket belongs to the first accepted socket, and so on. Otherwise their order isn't
        known."""
        for accepted, dialed in self._unix.values():
            if len({goroutine for _, goroutine in accepted}) == len({goroutine for _, goroutine in dialed}) == 1:
                self.peers += [(one, other) for (one, _), (other, _) in zip(dialed, accepted)]

    def failed(self, step: int, point: Point) -> None:
        """Records a read or a write without a step, because the machine has no such answer."""
        if not step or point.c == AGAIN:
            return
        number = errno.EPIPE if point.kind == PointKind.WRITE and point.c == BROKEN_PIPE else -point.b
        if number in OF_CONNECTIONS:
            self.errors.append((step, errno.errorcode[number]))
