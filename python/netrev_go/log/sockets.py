"""The socket of each point, and the sockets that fit into a recording.

Steps of different sockets share only the order of their goroutines, the clock and the list of firings. So the points
of a subset of the sockets form a recording too. A socket is left out if the log has neither its opening nor a note of
it.
"""

from __future__ import annotations

from collections import Counter
from collections.abc import Callable
from dataclasses import dataclass, field
from operator import itemgetter

from .notes import NAMED as NOTED_NAMED
from .notes import NOTED, Debts, Note
from .points import AT_A_SOCKET, AT_A_WORD, GOROUTINE, LOCKING, NOTING, NUMBER, Point, PointKind
from .prelude import Lead, UnreachableStateError, led

BUFFER = 65_536
OUTPUT = 4_096
CLOSED = 1
AGAIN = 1
READ, WRITE, NAMED = int(PointKind.READ), int(PointKind.WRITE), int(PointKind.NAMED)
DEADLINE_CALL, INCREF, SET_DEADLINE, DECREF = map(
    int, (PointKind.DEADLINE_CALL, PointKind.INCREF, PointKind.SET_DEADLINE, PointKind.DECREF)
)
UNLIKE = {READ, WRITE, NAMED, NOTED, NOTED_NAMED, DEADLINE_CALL}  # points with more than one step of their socket
# one reference in a lock word; the bit of a point that says that Go's function returned true
REFERENCE, RETURNS_TRUE = 8, 2
INIT, OPEN, OPEN_FAILED, CLOSE = (
    int(PointKind.INIT),
    int(PointKind.OPEN),
    int(PointKind.OPEN_FAILED),
    int(PointKind.CLOSE),
)
EVENT, FIRE = int(PointKind.EVENT), int(PointKind.FIRE)
# points about the descriptor's newest use
AT_USE = AT_A_SOCKET - AT_A_WORD - {INIT, OPEN, OPEN_FAILED, CLOSE, EVENT, FIRE}
POINT, SOCKET = itemgetter(0), itemgetter(1)  # of a pair
MOST_SOCKETS, MOST_GOROUTINES, MOST_STEPS = 256, 4_096, 1_000_000
MEGABYTE, MOST_MEGABYTES = 2**20, 1_024  # the text for moved bytes
STEPS_OF_A_NOTE = 32  # steps that lead to it, if no goroutine is queued for its locks
LOW = 2**32 - 1
FEW_BYTES = 64  # a read or a write of more bytes is recorded with this many, unless the user requests all bytes


@dataclass(eq=False)
class LoggedSocket:
    """A socket from its opening on: what the log says about it, and the converter's own data."""

    opening: int
    opener: int = 0  # the goroutine
    goroutines: set[int] = field(default_factory=set)
    steps: int = 0  # a lower bound
    text: int = 0  # how many characters of the recording its bytes take
    has_descriptor: bool = False
    failed: bool = False  # the poller rejected it, for example because it is a regular file
    closed: bool = False  # the log contains its end
    sequences: tuple[int, int] = (0, 0)  # Go's sequences for reading and for writing when it was opened
    go_tag: int = 0  # the tag of Go's events for it; 0 in releases without tags
    written: int = 0
    largest: int = OUTPUT
    full_at: int = 0
    last_write: Point | None = None  # the last point of a write that wrote bytes, or found no room
    number: int = -1
    descriptor: int = -1
    is_open: bool = False  # the converter's place
    tag: int = 0
    held: int = 0
    peer_closed: bool = False
    shut: bool = False
    word: int = 0  # the address of its lock word
    before: LoggedSocket | None = None  # the socket that had the same lock word when it was opened
    note: Note | None = None  # the note of its state, if its opening isn't in the log
    leads: list[Lead] = field(default_factory=list)  # the steps that lead to that state
    is_filled: bool = False  # a noted socket whose output a later write found full
    # by point, the number of bytes that were moved, if the recording counts fewer
    whole: dict[int, int] = field(default_factory=dict)

    def capacity(self) -> int:
        """The capacity of its output, at most BUFFER: large enough to be full exactly when Go first found it full, or
        otherwise to hold the largest write."""
        return self.full_at or self.largest


class Owners:
    """Finds the socket of each point."""

    def __init__(self) -> None:
        self.sockets: list[LoggedSocket] = []
        self.words: dict[int, LoggedSocket] = {}
        self.uses: dict[int, list[LoggedSocket]] = {}
        self.opening: dict[int, LoggedSocket] = {}
        self.noted: dict[int, LoggedSocket] = {}  # by both addresses, sockets whose notes are incomplete

    def of(self, point: Point) -> LoggedSocket | None:
        """The socket of the next point, if it is known."""
        kind = point.kind
        if kind in AT_A_WORD:
            return self.at_a_word(point)
        if kind == INIT:
            socket = LoggedSocket(len(self.sockets), point.goroutine, word=point.at, before=self.words.get(point.at))
            self.sockets.append(socket)
            self.words[point.at] = self.opening[point.goroutine] = socket
            return socket
        if kind == OPEN:
            return self.opened(point)
        if kind == FIRE:
            return self.fired(point)
        if kind == EVENT and point.c:
            return self.tagged(point)
        if kind in NOTING:
            return self.note(point)
        uses = self.uses.get(point.at)
        if not uses:
            return None
        if kind == CLOSE:
            if uses[-1].closed:  # a descriptor that couldn't be opened is freed
                return None
            uses[-1].closed = True
        elif kind == OPEN_FAILED:
            return self.not_opened(uses.pop())
        return uses[-1]

    def not_opened(self, socket: LoggedSocket) -> LoggedSocket:
        """Marks a socket as rejected by the poller. If an earlier socket with the same lock word is still open, that
        socket continues."""
        socket.failed = True
        if socket.before and not socket.before.closed:
            self.words[socket.word] = socket.before
        return socket

    def note(self, point: Point) -> LoggedSocket | None:
        """Reads one of a note's points. Returns the note's socket if this is the note's first point and the socket
        isn't known yet, or if this is a point with the socket's names."""
        kind, at = point.kind, point.at
        if kind == NOTED:
            known = self.words.get(at)
            self.noted.pop(at, None)
            self.noted.pop(point.b, None)
            if known and not known.closed:
                return None
            socket = LoggedSocket(len(self.sockets), word=at, has_descriptor=True)
            socket.note = Note(point.number, point.a, (point.c & LOW, point.c >> 32))
            self.sockets.append(socket)
            self.words[at] = self.noted[at] = self.noted[point.b] = socket
            self.uses.setdefault(point.b, []).append(socket)
            return socket
        noted = self.noted.get(at)
        if noted is None or noted.note is None:
            return None
        if kind == NOTED_NAMED:
            return noted
        noted.note.add(point)
        noted.sequences, noted.go_tag = noted.note.sequences, noted.note.tag
        return None

    def at_a_word(self, point: Point) -> LoggedSocket | None:
        socket = self.words.get(point.at)
        if socket and socket.closed and point.kind in LOCKING and not point.a & CLOSED:
            del self.words[point.at]  # the address now belongs to another socket, whose opening isn't in the log
            return None
        return socket

    def opened(self, point: Point) -> LoggedSocket | None:
        socket = self.opening.pop(point.goroutine, None)
        uses = self.uses.setdefault(point.at, [])
        if socket is None:
            uses.clear()
            return None
        socket.has_descriptor = True
        socket.sequences = point.b, point.c
        socket.go_tag = point.a >> 32
        uses.append(socket)
        return socket

    def tagged(self, point: Point) -> LoggedSocket | None:
        """The descriptor's use to which an event belongs, by the event's tag."""
        return next((use for use in reversed(self.uses.get(point.at, ())) if use.go_tag == point.c), None)

    def fired(self, point: Point) -> LoggedSocket | None:
        """The descriptor's use that set the timer: an earlier use if the firing has an old sequence."""
        side = 0 if point.b & 1 else 1
        for socket in reversed(self.uses.get(point.at, ())):
            if socket.sequences[side] <= point.a:
                return socket
        return None


def of_few(point: Point) -> Point:
    """The point of a read or a write, with at most FEW_BYTES bytes."""
    number, kind, goroutine, at, requested, moved, failed, time, stack = point
    if kind == WRITE:
        requested = min(requested, FEW_BYTES)
    return Point(number, kind, goroutine, at, requested, min(moved, FEW_BYTES), failed, time, stack)


def points_of_call(point: Point, socket: LoggedSocket) -> list[tuple[Point, LoggedSocket]]:
    """The three points of a call that sets a deadline: it takes a reference to the socket, sets the deadline, and drops
    the reference."""
    number, _, g, at, mode, deadline, state, time, stack = point
    held, word = state + REFERENCE, socket.word
    return [
        (Point(number, INCREF, g, word, state, held, RETURNS_TRUE, time, stack), socket),
        (Point(number, SET_DEADLINE, g, at, mode, deadline, 0, time, stack), socket),
        (Point(number, DECREF, g, word, held, state, 0, time, stack), socket),
    ]


def count_bytes(socket: LoggedSocket, point: Point) -> None:
    """Counts a read or a write for its socket: the characters of its text, and the steps of a read or the bytes of a
    write. A write also updates the last and the largest write, and whether the output is full."""
    _, kind, _, _, requested, got, failed, _, _ = point
    got = max(got, 0)
    if kind == READ:
        socket.text += 2 * got
        socket.steps += 2 * -(-got // BUFFER) - 1
        return
    socket.text += 2 * (got or min(max(requested, 1), BUFFER))
    socket.written += got
    if got or failed == AGAIN:
        socket.last_write = point
    if got:
        if got > socket.largest:
            socket.largest = min(got, BUFFER)
    if failed == AGAIN and socket.note:
        socket.is_filled = True
    elif failed == AGAIN and not socket.full_at:
        socket.full_at = max(1, min(socket.written, BUFFER))


def count_parts(points: list[tuple[Point, LoggedSocket]]) -> None:
    """Counts the steps of writes once the sizes of the outputs are known: a write is split into parts that fit."""
    for point, socket in points:
        socket.steps += -(-max(point.b, 0) // socket.capacity()) - 1


def count_points(points: list[tuple[Point, LoggedSocket]]) -> None:
    """Counts each point as a step of its socket, and adds the point's goroutine to the socket's goroutines."""
    goroutines = map(GOROUTINE, map(POINT, points))
    for (goroutine, socket), steps in Counter(zip(goroutines, map(SOCKET, points))).items():
        socket.steps += steps
        if goroutine:
            socket.goroutines.add(goroutine)


def find_debts(points: list[tuple[Point, LoggedSocket]]) -> None:
    """Finds which goroutines had the locks and the references of noted sockets."""
    debts: dict[LoggedSocket, Debts] = {}
    for point, socket in points:
        if socket.note:
            if socket not in debts:
                debts[socket] = Debts(socket.note)
                socket.goroutines |= socket.note.goroutines()
            debts[socket].point(point)


@dataclass
class Owned:
    """Points with their sockets, and all sockets."""

    points: list[tuple[Point, LoggedSocket]]
    sockets: list[LoggedSocket]
    cut: int  # how many reads and writes are recorded with fewer bytes than they moved

    def began(self) -> dict[int, int]:
        """For each goroutine, the number of its first point. If a note says that the goroutine waited for a socket or
        was using it, the note's number counts too; the smaller number is returned. (The points are read from the last
        to the first, so that the first one wins. No loop is used, because there may be a million points.)"""
        points = list(map(POINT, reversed(self.points)))
        began = dict(zip(map(GOROUTINE, points), map(NUMBER, points)))
        for note in (socket.note for socket in self.sockets if socket.note):
            for goroutine in note.goroutines() | note.known():
                began[goroutine] = min(began.get(goroutine, note.number), note.number)
        began.pop(0, None)
        return began


def owned(points: list[Point], all_bytes: bool = True) -> Owned:
    """Each point with its socket. Also finds each socket's goroutines, and a lower bound on the number of its steps."""
    owners = Owners()
    of, words, uses = owners.of, owners.words, owners.uses
    mine: list[tuple[Point, LoggedSocket]] = []
    writes: list[tuple[Point, LoggedSocket]] = []
    cut = 0
    for point in points:
        kind, at = point[1], point[3]
        # (there may be a million points: nearly all are handled without calling `of`)
        socket = words.get(at) if kind in AT_A_WORD else used[-1] if kind in AT_USE and (used := uses.get(at)) else None
        if socket is None or socket.closed:
            socket = of(point)
            if socket is None:
                continue
        if kind in UNLIKE:
            if kind == DEADLINE_CALL:
                mine += points_of_call(point, socket)
                continue
            if kind == NAMED or kind == NOTED_NAMED:
                socket.steps -= 1
            elif kind == NOTED:
                socket.steps += STEPS_OF_A_NOTE
            else:
                if not all_bytes and (point[5] > FEW_BYTES or point[4] > FEW_BYTES and kind == WRITE):
                    cut += point.b > FEW_BYTES
                    if point.b > FEW_BYTES:
                        socket.whole[point.number] = point.b
                    point = of_few(point)
                count_bytes(socket, point)
                if kind == WRITE:
                    writes.append((point, socket))
        mine.append((point, socket))
    if any(socket.note for socket in owners.sockets):
        find_debts(mine)
    count_points(mine)
    count_parts(writes)
    known = [socket for socket in owners.sockets if socket.has_descriptor and not socket.failed]
    return Owned(mine, known, cut)


def lead_to(sockets: list[LoggedSocket], begin: int) -> dict[str, int]:
    """Finds the steps that lead to noted sockets. If no steps lead to a socket, it is left out; returns the reasons,
    each with the number of such sockets."""
    left_out: Counter[str] = Counter()
    for socket in [socket for socket in sockets if socket.note]:
        assert socket.note
        is_full = socket.is_filled or socket.note.waits_to_write()
        try:
            socket.leads = led(socket.note, (BUFFER, socket.capacity()), is_full, begin)
            socket.held = socket.capacity() if is_full else 0
        except UnreachableStateError as why:
            left_out[str(why)] += 1
            sockets.remove(socket)
    return left_out


def chosen(
    sockets: list[LoggedSocket],
    most: int = MOST_SOCKETS,
    megabytes: int = MOST_MEGABYTES,
    room: int = MOST_STEPS,
    at_once: Callable[[set[int]], int] = len,
    first: int = 0,
) -> set[LoggedSocket]:
    """The sockets that fit into a recording of this many steps: the open ones first, and within each group the newest;
    before all others, the socket whose lock word has the address `first`. `at_once` gives the number of goroutines that
    exist at one time."""
    kept: set[LoggedSocket] = set()
    goroutines: set[int] = set()
    steps, text = 0, 0
    everybody = set[int]().union(*(socket.goroutines for socket in sockets))
    may_be_crowd = len(everybody) > MOST_GOROUTINES and at_once(everybody) > MOST_GOROUTINES
    for socket in sorted(sockets, key=lambda socket: (socket.closed, socket.word != first, -socket.opening)):
        if len(kept) == min(most, MOST_SOCKETS):
            break
        together = goroutines | socket.goroutines
        has_room = text + socket.text <= megabytes * MEGABYTE
        is_crowd = may_be_crowd and len(together) > MOST_GOROUTINES and at_once(together) > MOST_GOROUTINES
        if has_room and not is_crowd and steps + socket.steps + len(together) - 1 <= room:
            kept.add(socket)
            goroutines = together
            steps += socket.steps
            text += socket.text
    return kept
