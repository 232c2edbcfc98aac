"""A small runtime that logs the recorder's points, modelled on internal/poll/fd_mutex.go and runtime/netpoll.go. It
shares no code with the model in Python: whether its log becomes a recording shows whether the two agree. A function
that may be interrupted is a generator, which yields after each of its points."""

from __future__ import annotations

from collections.abc import Generator
from dataclasses import dataclass, field
from typing import Any

from netrev_go.log.points import Point, PointKind

Turns = Generator[None, None, Any]
CLOSED, READ_BIT, WRITE_BIT, REFERENCE = 1, 2, 4, 8
WAITS = {"r": 1 << 23, "w": 1 << 43}
MASKS = {"r": (2**20 - 1) << 23, "w": (2**20 - 1) << 43}
REFERENCES = (2**20 - 1) << 3
LOCKED = {"r": READ_BIT, "w": WRITE_BIT}
MODES = {"r": ord("r"), "w": ord("w"), "rw": ord("r") + ord("w")}
NIL, READY, WAIT = "nil", "ready", "wait"
NO_ERROR, AGAIN, BROKEN_PIPE, OTHER = range(4)
NEVER = 2**63 - 1


@dataclass(eq=False)
class RuntimeTimer:
    """A timer of a descriptor: `read` and `write` say whose deadline it is."""

    pd: PollDescriptor
    when: int
    seq: int
    read: bool
    write: bool


@dataclass(eq=False)
class PollDescriptor:
    """runtime.pollDesc."""

    address: int
    fdseq: int
    rseq: int
    wseq: int
    closing: bool = False
    error: bool = False
    words: dict[str, Any] = field(default_factory=lambda: {"r": NIL, "w": NIL})
    rd: int = 0
    wd: int = 0
    rrun: bool = False
    wrun: bool = False
    is_free: bool = True
    places: dict[str, tuple[int, str]] = field(default_factory=dict)  # of goroutines inside a wait, by side

    def check(self, side: str) -> int:
        if self.closing:
            return 1
        if (self.rd if side == "r" else self.wd) < 0:
            return 2
        return 3 if side == "r" and self.error else 0


@dataclass(eq=False)
class Descriptor:
    """A poll.FD: its lock word, and the system's data about its socket."""

    address: int
    number: int
    capacity: int  # of the output
    word: int = 0
    counts: dict[str, int] = field(default_factory=lambda: {"r": 0, "w": 0})
    queues: dict[str, list[int]] = field(default_factory=lambda: {"r": [], "w": []})
    pd: PollDescriptor | None = None
    tag: int = 0
    input: int = 0
    output: int = 0
    peer_closed: bool = False
    shut: bool = False
    was_shut: bool = False  # whether the log shows that it was shut
    reset: bool = False  # whether the other end reset the connection
    is_gone: bool = False
    first: int = -1  # the number of its first point
    notes: list[int] = field(default_factory=list)  # the numbers of the points that note its state


@dataclass
class Runtime:
    """The state that all goroutines share, and the log."""

    has_tags: bool
    begin: int
    clock: int = 0
    points: list[Point] = field(default_factory=list)
    newest: dict[int, int] = field(default_factory=dict)  # the number of each goroutine's last point
    free: list[PollDescriptor] = field(default_factory=list)
    descriptors: list[PollDescriptor] = field(default_factory=list)
    heap: list[RuntimeTimer] = field(default_factory=list)
    popped: list[RuntimeTimer] = field(default_factory=list)
    asleep: set[int] = field(default_factory=set)
    first_sequences: tuple[int, int] = (0, 0)

    def log(self, kind: PointKind, g: int, at: int, a: int = 0, b: int = 0, c: int = 0, time: int = 0) -> None:
        self.newest[g] = len(self.points)
        self.points.append(Point(len(self.points), int(kind), g, at, a, b, c, time, 0))

    # internal/poll/fd_mutex.go

    def incref(self, g: int, fd: Descriptor) -> Turns:
        old = fd.word
        if old & CLOSED:
            self.log(PointKind.INCREF, g, fd.address, old, old, 0)
            yield
            return False
        fd.word = old + REFERENCE
        self.log(PointKind.INCREF, g, fd.address, old, fd.word, 2)
        yield
        return True

    def incref_and_close(self, g: int, fd: Descriptor) -> Turns:
        old = fd.word
        if old & CLOSED:
            self.log(PointKind.INCREF_CLOSE, g, fd.address, old, old, 0)
            yield
            return False
        fd.word = ((old | CLOSED) + REFERENCE) & ~(MASKS["r"] | MASKS["w"])
        self.log(PointKind.INCREF_CLOSE, g, fd.address, old, fd.word, 2)
        yield
        for side in "rw":
            for _ in range((old & MASKS[side]) // WAITS[side]):
                yield from self.semrelease(g, fd, side)
        return True

    def decref(self, g: int, fd: Descriptor) -> Turns:
        old = fd.word
        fd.word = old - REFERENCE
        is_last = fd.word & (CLOSED | REFERENCES) == CLOSED
        self.log(PointKind.DECREF, g, fd.address, old, fd.word, 2 * is_last)
        yield
        if is_last:
            yield from self.destroy(g, fd)

    def rwlock(self, g: int, fd: Descriptor, side: str) -> Turns:
        is_read = int(side == "r")
        while True:
            old = fd.word
            if old & CLOSED:
                self.log(PointKind.RW_LOCK, g, fd.address, old, old, is_read)
                yield
                return False
            is_free = not old & LOCKED[side]
            fd.word = (old | LOCKED[side]) + REFERENCE if is_free else old + WAITS[side]
            self.log(PointKind.RW_LOCK, g, fd.address, old, fd.word, is_read + 2 * is_free)
            yield
            if is_free:
                return True
            yield from self.semacquire(g, fd, side)

    def rwunlock(self, g: int, fd: Descriptor, side: str) -> Turns:
        old = fd.word
        new = (old & ~LOCKED[side]) - REFERENCE
        if old & MASKS[side]:
            new -= WAITS[side]
        fd.word = new
        is_last = new & (CLOSED | REFERENCES) == CLOSED
        self.log(PointKind.RW_UNLOCK, g, fd.address, old, new, int(side == "r") + 2 * is_last)
        yield
        if old & MASKS[side]:
            yield from self.semrelease(g, fd, side)
        if is_last:
            yield from self.destroy(g, fd)

    def semacquire(self, g: int, fd: Descriptor, side: str) -> Turns:
        while True:
            has_one = fd.counts[side] > 0
            if has_one:
                fd.counts[side] -= 1
            else:
                fd.queues[side].append(g)
                self.asleep.add(g)
            self.log(PointKind.ACQUIRE, g, fd.address, int(has_one), int(side == "r"))
            yield
            if has_one:
                return

    def semrelease(self, g: int, fd: Descriptor, side: str) -> Turns:
        fd.counts[side] += 1
        if fd.queues[side]:
            self.asleep.discard(fd.queues[side].pop(0))
        self.log(PointKind.RELEASE, g, fd.address, 0, int(side == "r"))
        yield

    # runtime/netpoll.go

    def open(self, g: int, fd: Descriptor) -> Turns:
        fd.first = len(self.points)
        self.log(PointKind.INIT, g, fd.address, fd.number)
        yield
        if self.free:
            pd = self.free.pop()
        else:
            pd = PollDescriptor(900_000 + 300 * len(self.descriptors), 1, *self.first_sequences)
            self.descriptors.append(pd)
        pd.closing = pd.error = pd.is_free = False
        pd.rseq += 1
        pd.wseq += 1
        pd.words = {"r": NIL, "w": NIL}
        pd.rd = pd.wd = 0
        fd.pd, fd.tag = pd, pd.fdseq if self.has_tags else 0
        self.log(PointKind.OPEN, g, pd.address, fd.number | fd.tag << 32, pd.rseq, pd.wseq)
        yield

    def destroy(self, g: int, fd: Descriptor) -> Turns:
        pd = fd.pd
        assert pd and pd.closing and not pd.is_free and not pd.places
        fd.is_gone = True
        pd.is_free = True
        pd.fdseq += 1
        self.free.append(pd)
        self.log(PointKind.CLOSE, g, pd.address)
        yield

    def poll_reset(self, g: int, pd: PollDescriptor, side: str) -> Turns:
        code = pd.check(side)
        if code == 0:
            pd.words[side] = NIL
        self.log(PointKind.RESET, g, pd.address, MODES[side], code)
        yield
        return code

    def poll_wait(self, g: int, pd: PollDescriptor, side: str) -> Turns:
        code = pd.check(side)
        self.log(PointKind.WAIT_BEGIN, g, pd.address, MODES[side], code)
        if code:
            yield
            return code
        pd.places[side] = g, "entering"
        yield
        while True:
            is_ready = yield from self.block(g, pd, side)
            if is_ready:
                pd.places.pop(side)
                yield
                return 0
            code = pd.check(side)
            self.log(PointKind.WAIT_CHECK, g, pd.address, MODES[side], code)
            if code:
                pd.places.pop(side)
                yield
                return code
            pd.places[side] = g, "entering"
            yield

    def block(self, g: int, pd: PollDescriptor, side: str) -> Turns:
        was_ready = pd.words[side] == READY
        pd.words[side] = NIL if was_ready else WAIT
        self.log(PointKind.ARM, g, pd.address, MODES[side], int(was_ready))
        if was_ready:
            return True
        pd.places[side] = g, "armed"
        yield
        code = pd.check(side)
        self.log(PointKind.CHECK, g, pd.address, MODES[side], code)
        pd.places[side] = g, "swapping" if code else "parking"
        yield
        if code == 0:
            parks = pd.words[side] == WAIT
            if parks:
                pd.words[side] = g
                self.asleep.add(g)
            self.log(PointKind.PARK, g, pd.address, MODES[side], int(parks))
            pd.places[side] = g, "parked" if parks else "swapping"
            yield
        was_ready = pd.words[side] == READY
        pd.words[side] = NIL
        self.log(PointKind.SWAP, g, pd.address, MODES[side], int(was_ready))
        pd.places[side] = g, "checking"
        if not was_ready:
            yield
        return was_ready

    def unblock(self, pd: PollDescriptor, side: str, is_ready: bool) -> None:
        old = pd.words[side]
        if old == READY or old == NIL and not is_ready:
            return
        pd.words[side] = READY if is_ready else NIL
        if isinstance(old, int):
            self.asleep.discard(old)

    def evict(self, g: int, pd: PollDescriptor) -> Turns:
        pd.closing = True
        pd.rseq += 1
        pd.wseq += 1
        for side in "rw":
            self.unblock(pd, side, False)
        self.heap = [timer for timer in self.heap if timer.pd is not pd]
        pd.rrun = pd.wrun = False
        self.log(PointKind.EVICT, g, pd.address)
        yield

    def set_deadline(self, g: int, pd: PollDescriptor, mode: str, d: int, now: int) -> Turns:
        """Sets a deadline. `now` is the time that the goroutine reads from the clock. If d is 0, the deadline is
        removed; if d is negative, the deadline is in the past."""
        self.log(PointKind.SET_DEADLINE, g, pd.address, MODES[mode], d, 0, self.begin + now)
        if not pd.closing:
            rd, wd = pd.rd, pd.wd
            was_combo = rd > 0 and rd == wd
            if d > 0:
                d = min(d + self.begin + now, NEVER)
            pd.rd, pd.wd = d if "r" in mode else rd, d if "w" in mode else wd
            is_combo = pd.rd > 0 and pd.rd == pd.wd
            if not pd.rrun:
                if pd.rd > 0:
                    self.arm(pd, True, is_combo)
            elif pd.rd != rd or is_combo != was_combo:
                pd.rseq += 1
                self.stop(pd, True)
                if pd.rd > 0:
                    self.arm(pd, True, is_combo)
            if not pd.wrun:
                if pd.wd > 0 and not is_combo:
                    self.arm(pd, False, True)
            elif pd.wd != wd or is_combo != was_combo:
                pd.wseq += 1
                self.stop(pd, False)
                if pd.wd > 0 and not is_combo:
                    self.arm(pd, False, True)
            for side, deadline in (("r", pd.rd), ("w", pd.wd)):
                if deadline < 0:
                    self.unblock(pd, side, False)
        yield

    def arm(self, pd: PollDescriptor, read: bool, write: bool) -> None:
        if read:
            pd.rrun = True
            self.heap.append(RuntimeTimer(pd, pd.rd, pd.rseq, True, write))
        else:
            pd.wrun = True
            self.heap.append(RuntimeTimer(pd, pd.wd, pd.wseq, False, True))

    def stop(self, pd: PollDescriptor, read: bool) -> None:
        self.heap = [timer for timer in self.heap if timer.pd is not pd or timer.read != read]
        if read:
            pd.rrun = False
        else:
            pd.wrun = False

    def due(self) -> list[RuntimeTimer]:
        return [timer for timer in self.heap if timer.when <= self.begin + self.clock]

    def pop(self, timer: RuntimeTimer) -> None:
        """A processor takes a due timer from its heap; it will run the timer's function."""
        self.heap.remove(timer)
        self.popped.append(timer)

    def fire(self, timer: RuntimeTimer) -> None:
        """Runs a timer's function, netpolldeadlineimpl."""
        self.popped.remove(timer)
        pd = timer.pd
        is_stale = timer.seq != (pd.rseq if timer.read else pd.wseq)
        bits = timer.read + 2 * timer.write + 4 * is_stale
        self.log(PointKind.FIRE, 0, pd.address, timer.seq, bits, 0, self.begin + self.clock)
        if is_stale:
            return
        if timer.read:
            assert pd.rd > 0 and pd.rrun
            pd.rd = -1
            self.unblock(pd, "r", False)
        if timer.write:
            assert pd.wd > 0 and (pd.wrun or timer.read)
            pd.wd = -1
            self.unblock(pd, "w", False)

    def event(self, pd: PollDescriptor, mode: str, is_error: bool, tag: int) -> None:
        """Does what netpoll's loop does for one event; the tag is the one that the descriptor had when the system was
        asked for events."""
        is_stale = self.has_tags and tag != pd.fdseq
        c = tag if self.has_tags else 0
        self.log(PointKind.EVENT, 0, pd.address, MODES[mode], int(is_error) + 2 * is_stale, c)
        if is_stale or pd.is_free:
            return
        pd.error = is_error
        for side in mode:
            self.unblock(pd, side, True)
