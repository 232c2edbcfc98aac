"""Random logs of actions that a Go program may take, and the recording that each log must become. Goroutines read,
write, dial, set deadlines, shut down and close sockets on the small runtime; random numbers decide which goroutine
runs, what the network does, which timer a processor takes and which clock it reads. The beginning of the log may be
missing, as if a ring had overwritten it, and the log may begin with notes."""

from __future__ import annotations

import random
import subprocess
from collections import Counter
from collections.abc import Callable, Iterator
from dataclasses import dataclass
from pathlib import Path
from typing import Any

from netrev.machine.in_place import Machine
from netrev.text.contents import Limits, Step
from netrev.text.parser import read_text
from netrev_go.log.points import Log, Point, PointKind
from netrev_go.steps.recording_builder import NewRecording, NothingRecordedError, make

from .small_runtime import AGAIN, BROKEN_PIPE, MODES, NIL, NO_ERROR, OTHER, READY, WAIT, Descriptor, Runtime, Turns

FEW, PAGE, BUFFER = 64, 4_096, 65_536
SIZES = (1, 2, 3, 5, FEW, FEW + 1, 1_000, PAGE - 1, PAGE, PAGE + 1, 5_000, BUFFER - 1, BUFFER, BUFFER + 1, 200_000)
RESET_BY_PEER = -104
ASKED = 0.05  # the fraction of the seeds for which netrev runs too
WORDS = {NIL: 0, READY: 1, WAIT: 2}
CODES_IN_WORDS = {1: "closed", 2: "timed out", 3: "event error"}
PLACES = ("entering", "armed", "parking", "parked", "swapping", "checking")
THEMES = ("reads", "writes", "deadlines", "closes", "locks", "")


Check = Callable[[NewRecording], str]


@dataclass(eq=False)
class Called:
    """A goroutine's call: its first and last points, the bytes that it moved, and how it ended."""

    goroutine: int
    name: str
    fd: Descriptor
    first: int
    last: int = -1  # -1 if it hasn't ended
    moved: int = 0
    outcome: str = "done"
    is_in_doubt: bool = False  # its error may have no step in a recording


@dataclass
class Choices:
    """The frequencies of events in a log."""

    theme: str
    turns: int
    goroutines: int
    sockets: int
    lag: int  # how many nanoseconds old a processor's reading of the clock may be
    ring: str  # "", "cut" or "noted"


def choices_of(dice: random.Random) -> Choices:
    return Choices(
        dice.choice(THEMES), dice.choice((40, 100, 200, 400)), dice.randint(1, 6), dice.randint(1, 4),
        dice.choice((0, 0, 0, 3)), dice.choice(("", "", "", "cut", "noted", "noted")),
    )  # fmt: skip


class RandomProgram:
    """A program with a few goroutines that use a few sockets, together with the network and the poller."""

    def __init__(self, dice: random.Random) -> None:
        self.dice = dice
        self.choices = choices_of(dice)
        has_tags = dice.random() < 0.7
        first = dice.choice((0, 0, 1_000_000)), dice.choice((0, 0, 2_000_000))
        self.runtime = Runtime(has_tags, dice.choice((0, 1_000, 10**15)), first_sequences=first)
        self.sockets: list[Descriptor] = []  # that goroutines use
        self.all: list[Descriptor] = []
        self.running: dict[int, Turns] = {}
        self.calls: list[Called] = []
        self.at: dict[int, Descriptor] = {}  # the socket of each goroutine's call
        self.read_clock: dict[
            object, int
        ] = {}  # the last reading of the clock by a goroutine, or under a descriptor's lock
        self.noted_from: int | None = None  # the number of the first point of the notes
        self.events: list[tuple[Any, str, bool, int]] = []  # events that were fetched from the system
        weights = {"read": 4, "write": 4, "deadline": 4, "shut": 0.3, "close": 0.8, "dial": 1}
        often = {"reads": "read", "writes": "write", "deadlines": "deadline", "closes": "close", "locks": "read"}
        if self.choices.theme in often:
            weights[often[self.choices.theme]] *= 6
        self.weights = weights

    def run(self) -> None:
        """Runs all turns; at the end, each goroutine's call may be unfinished."""
        noting: Iterator[None] | None = None
        note_at = self.dice.randrange(self.choices.turns) if self.choices.ring == "noted" else -1
        for turn in range(self.choices.turns):
            if turn == note_at:
                noting = self.notes()
            if noting and self.dice.random() < 0.5 and next(noting, 0) == 0:
                noting = None
            if self.dice.random() < 0.3:
                self.happens()
            else:
                self.goes_on(1 + self.dice.randrange(self.choices.goroutines))
        for _ in noting or ():
            pass

    def goes_on(self, g: int) -> None:
        if g in self.runtime.asleep:
            return
        call = self.running.get(g)
        if call is None:
            call = self.running[g] = self.call(g)
        try:
            next(call)
        except StopIteration:
            del self.running[g]
            self.at.pop(g, None)

    def call(self, g: int) -> Turns:
        """The next call of a goroutine."""
        dice = self.dice
        what = dice.choices(list(self.weights), list(self.weights.values()))[0]
        if not self.sockets or what == "dial" and len(self.sockets) < self.choices.sockets:
            return self.dial(g)
        fd = self.at[g] = dice.choice(self.sockets)
        called = Called(g, what.capitalize(), fd, -1)
        if what == "write":
            return self.noted_call(called, self.write(called, dice.choice(SIZES)))
        if what == "deadline":
            return self.noted_call(called, self.set_deadline(called))
        if what == "shut":
            return self.noted_call(called, self.shut(called))
        if what == "close":
            return self.noted_call(called, self.close(called))
        called.name = "Read"
        return self.noted_call(called, self.read(called, dice.choice(SIZES)))

    def noted_call(self, called: Called, turns: Turns) -> Turns:
        """A call whose beginning and end are stored."""
        called.first = len(self.runtime.points)
        self.calls.append(called)
        yield from turns
        called.last = self.runtime.newest[called.goroutine]

    # calls of net.Conn, modelled on internal/poll/fd_unix.go

    def dial(self, g: int) -> Turns:
        runtime, dice = self.runtime, self.dice
        # (the collector frees what no goroutine uses)
        used = {fd.address for fd in self.all if not fd.is_gone or fd in self.sockets or fd in self.at.values()}
        free = sorted({fd.address for fd in self.all} - used)
        address = dice.choice(free) if free and dice.random() < 0.7 else 100 + 64 * len(self.all)
        fd = Descriptor(address, 3 + len(self.all), dice.choice((1, 10, PAGE, 5_000, BUFFER, 200_000)))
        self.all.append(fd)
        yield from runtime.open(g, fd)
        assert fd.pd
        if dice.random() < 0.3:
            called = Called(g, "Control", fd, -1)
            yield from self.noted_call(called, self.connect(called))
        self.sockets.append(fd)

    def connect(self, called: Called) -> Turns:
        runtime, g, fd = self.runtime, called.goroutine, called.fd
        assert fd.pd
        if (yield from runtime.incref(g, fd)):
            code = yield from runtime.poll_wait(g, fd.pd, "w")
            called.outcome = CODES_IN_WORDS.get(code, called.outcome)
            yield from runtime.decref(g, fd)

    def read(self, called: Called, size: int) -> Turns:
        runtime, g, fd = self.runtime, called.goroutine, called.fd
        assert fd.pd
        if not (yield from runtime.rwlock(g, fd, "r")):
            called.outcome = CODES_IN_WORDS[1]
            return
        code = yield from runtime.poll_reset(g, fd.pd, "r")
        while code == 0:
            got, error = 0, NO_ERROR
            if fd.reset:
                got, error = RESET_BY_PEER, OTHER
            elif fd.input:
                got = min(size, fd.input)
                fd.input -= got
            elif not fd.peer_closed:
                error = AGAIN
            runtime.log(PointKind.READ, g, fd.address, size, got, error)
            called.moved += max(got, 0)
            called.is_in_doubt |= fd.reset
            yield
            if error != AGAIN:
                called.outcome = "done" if got else "end of file"
                break
            code = yield from runtime.poll_wait(g, fd.pd, "r")
        called.outcome = CODES_IN_WORDS.get(code, called.outcome)
        yield from runtime.rwunlock(g, fd, "r")

    def write(self, called: Called, size: int) -> Turns:
        runtime, dice, g, fd = self.runtime, self.dice, called.goroutine, called.fd
        assert fd.pd
        if not (yield from runtime.rwlock(g, fd, "w")):
            called.outcome = CODES_IN_WORDS[1]
            return
        code = yield from runtime.poll_reset(g, fd.pd, "w")
        while code == 0 and size:
            put, error = 0, NO_ERROR
            if fd.reset:
                put, error = RESET_BY_PEER, OTHER
            elif fd.shut:
                error = BROKEN_PIPE
            elif fd.output < fd.capacity:
                put = min(size, fd.capacity - fd.output)
                fd.output += put
                size -= put
            else:
                error = AGAIN
            if dice.random() < 0.1:
                yield  # the point comes after the system call
            runtime.log(PointKind.WRITE, g, fd.address, size + max(put, 0), put, error)
            called.moved += max(put, 0)
            called.is_in_doubt |= fd.reset or fd.shut
            yield
            if error == AGAIN:
                code = yield from runtime.poll_wait(g, fd.pd, "w")
            elif error:
                break
        called.outcome = CODES_IN_WORDS.get(code, called.outcome)
        yield from runtime.rwunlock(g, fd, "w")

    def set_deadline(self, called: Called) -> Turns:
        runtime, dice, g, fd = self.runtime, self.dice, called.goroutine, called.fd
        called.name = "Control"
        assert fd.pd
        if not (yield from runtime.incref(g, fd)):
            called.outcome = CODES_IN_WORDS[1]
            return
        mode = dice.choice(("r", "w", "rw", "rw"))
        # (another goroutine may read the clock later and log its point at another descriptor first)
        now = max(
            runtime.clock - dice.randint(0, self.choices.lag), *(self.read_clock.get(owner, 0) for owner in (g, fd.pd))
        )
        d = dice.choice((0, -1, -7, 1, 2, 3, 10, 10, 40, 2**62, 2**63 - 1))
        same = [deadline for deadline in (fd.pd.rd, fd.pd.wd) if runtime.begin + now < deadline < 2**62]
        if same and dice.random() < 0.4:  # the same time as the other side's
            d = same[0] - runtime.begin - now
        if 0 < d <= runtime.clock - now:  # (in a recording, no new deadline is already in the past)
            d, now = d + runtime.clock - now, runtime.clock
        self.read_clock[g] = self.read_clock[fd.pd] = now
        called.name = {"r": "SetReadDeadline", "w": "SetWriteDeadline", "rw": "SetDeadline"}[mode]
        yield from runtime.set_deadline(g, fd.pd, mode, d, now)
        yield from runtime.decref(g, fd)

    def shut(self, called: Called) -> Turns:
        g, fd = called.goroutine, called.fd
        called.name = "Control"
        if not (yield from self.runtime.incref(g, fd)):
            called.outcome = CODES_IN_WORDS[1]
        else:
            fd.shut = True
            if self.dice.random() < 0.5:
                yield  # another goroutine may log its point first
            fd.was_shut, called.name = True, "CloseWrite"
            self.runtime.log(PointKind.CLOSE_WRITE, g, fd.address)
            yield
            yield from self.runtime.decref(g, fd)

    def close(self, called: Called) -> Turns:
        runtime, g, fd = self.runtime, called.goroutine, called.fd
        assert fd.pd
        if not (yield from runtime.incref_and_close(g, fd)):
            called.outcome = CODES_IN_WORDS[1]
            return
        yield from runtime.evict(g, fd.pd)
        if fd in self.sockets and self.dice.random() < 0.8:
            self.sockets.remove(fd)  # otherwise goroutines would try to use it
        yield from runtime.decref(g, fd)

    # the network, the poller and the processors

    def happens(self) -> None:
        """Lets the network, the poller, the clock or a processor act. No goroutine takes part."""
        runtime, dice = self.runtime, self.dice
        what = dice.choices(("clock", "pop", "fire", "event", "network"), (3, 3, 1, 2, 2))[0]
        if what == "clock":
            runtime.clock += dice.choice((0, 1, 2, 5, 20))
            soon = [timer.when - runtime.begin for timer in runtime.heap if timer.when < runtime.begin + 2**40]
            if soon and dice.random() < 0.4:
                runtime.clock = max(runtime.clock, min(soon))
        elif what == "pop" and (due := runtime.due()):
            runtime.pop(dice.choice(due))
        elif what == "fire" and runtime.popped:
            timer = dice.choice(runtime.popped)
            self.read_clock[timer.pd] = runtime.clock
            runtime.fire(timer)
        elif what == "event" and self.events:
            runtime.event(*self.events.pop(dice.randrange(len(self.events))))
        elif self.all:
            self.comes(dice.choice(self.all))

    def comes(self, fd: Descriptor) -> None:
        """The other end does something, and the system has an event for it."""
        dice, mode = self.dice, "r"
        if fd.pd is None or fd.is_gone:
            return
        what = dice.randrange(12)
        if what <= 5 and not fd.peer_closed:
            fd.input += dice.choice(SIZES)
        elif what <= 8:
            fd.output -= dice.randint(0, fd.output)
            mode = "w"
        elif what == 9:
            fd.peer_closed, mode = True, "rw"
        elif what == 10 and dice.random() < 0.2:
            fd.reset, mode = True, "rw"
        self.events.append((fd.pd, mode, dice.random() < 0.05, fd.tag))

    # the recorder's notes of open sockets

    def notes(self) -> Iterator[None]:
        runtime = self.runtime
        self.noted_from = len(runtime.points)
        runtime.log(PointKind.NOTES_BEGIN, 0, 0, 1)
        for fd in [fd for fd in self.all if fd.pd and not fd.is_gone]:
            yield
            if not fd.is_gone:
                self.note(fd)
        runtime.log(PointKind.NOTES_END, 0, 0, 1, 1)

    def note(self, fd: Descriptor) -> None:
        log, pd = self.runtime.log, fd.pd
        assert pd
        fd.notes.append(len(self.runtime.points))
        fd.was_shut = fd.shut
        log(PointKind.NOTED, 0, fd.address, fd.word, pd.address, fd.counts["r"] | fd.counts["w"] << 32)
        log(PointKind.NOTED_POLL, 0, pd.address, fd.tag, pd.rseq, pd.wseq)
        flags = pd.closing | pd.error << 1 | pd.rrun << 2 | pd.wrun << 3 | fd.shut << 4
        words = [WORDS.get(pd.words[side], 3) for side in "rw"]
        log(PointKind.NOTED_DEADLINES, 0, pd.address, pd.rd, pd.wd, flags | words[0] << 8 | words[1] << 10)
        for side, (g, place) in pd.places.items():
            log(PointKind.NOTED_INSIDE, g, pd.address, MODES[side], 1 + PLACES.index(place))
        for side, queue in fd.queues.items():
            for g in queue:
                log(PointKind.NOTED_QUEUED, g, fd.address, MODES[side])

    def kept(self) -> list[Point]:
        """The points that are in the ring at the end."""
        points = self.runtime.points
        if not self.choices.ring or len(points) < 2:
            return points
        if self.noted_from is not None:
            return points[self.dice.randint(0, self.noted_from) :]
        return points[self.dice.randrange(len(points) // 2) :]


def program_of(seed: str) -> RandomProgram:
    """The program of a seed, after its run."""
    program = RandomProgram(random.Random(seed))
    program.run()
    return program


def log_of(program: RandomProgram) -> Log:
    points = program.kept()
    is_whole = not points or points[0].number == 0
    return Log(points, begin=program.runtime.begin, from_the_start=is_whole)


def wrong(seed: str) -> str:
    """The fault in the recording of a seed's log; empty if the recording is right."""
    return wrong_with(program_of(seed))


def wrong_with(program: RandomProgram, check: Check = lambda _: "") -> str:
    """The fault that the model finds, or, if it finds none, the fault that `check` finds."""
    log = log_of(program)
    try:
        recording = make(log)
    except NothingRecordedError:
        return ""
    machine, steps, fault = replayed(recording)
    return fault or differs(program, log, recording, machine, steps) or check(recording)


def wrong_by(seed: str, folder: Path, netrev: str) -> str:
    """The fault in the recording made from a seed's log; empty if the recording is right. The model checks it. For some
    seeds, netrev checks it too."""

    def check(recording: NewRecording) -> str:
        path = folder / "made.jsonl"
        path.write_bytes(text_of(recording))
        process = subprocess.run([netrev, "check", path], stdout=subprocess.PIPE, check=False)
        return (
            "" if process.stdout == f"ok {len(recording.lines)} steps\n".encode() else f"netrev says {process.stdout!r}"
        )

    is_asked = random.Random(f"{seed} netrev").random() < ASKED
    return wrong_with(program_of(seed), check) if is_asked else wrong_with(program_of(seed))


def text_of(recording: NewRecording) -> bytes:
    return "".join(f"{line}\n" for line in (recording.header, *recording.lines)).encode()


def replayed(recording: NewRecording) -> tuple[Machine, list[tuple[Step, Any]], str]:
    """The machine after the recording, its steps with their answers, and the first wrong answer."""
    text = read_text(text_of(recording))
    machine = Machine(Limits(*text.limits))
    steps = list(zip(text.steps, text.answers))
    for number, (step, answer) in enumerate(steps, 1):
        try:
            found = machine.step(step)
        except Exception as refused:
            return machine, steps, f"step {number}, {step[:3]}, is refused: {refused!r}"
        if found != answer:
            return machine, steps, f"step {number}, {step[:3]}, is answered {found}, and not {answer}"
    return machine, steps, ""


def differs(
    program: RandomProgram, log: Log, recording: NewRecording, machine: Machine, steps: list[tuple[Step, Any]]
) -> str:
    """What the recording lacks from the log: the final state of sockets and descriptors, the bytes, and each
    goroutine's steps."""
    sockets = sockets_of(program, log, recording)
    if not log.points or log.points[0].number == 0:
        if len(sockets) != sum(fd.pd is not None for fd in program.all):
            return f"{len(sockets)} sockets are kept"
    for number, fd in sockets.items():
        if fault := socket_differs(program, recording, machine, number, fd):
            return f"socket {number}: {fault}"
    since = max((point.number for point in log.points if point.kind == PointKind.NOTES_END), default=-1)
    points = [
        (point, socket.number) for point, socket in recording.points if not recording.prelude or point.number > since
    ]
    later = steps[recording.prelude :]
    return bytes_differ(points, later) or order_differs(recording, points, later)


def sockets_of(program: RandomProgram, log: Log, recording: NewRecording) -> dict[int, Descriptor]:
    """The sockets of a recording, by number, found by their first points."""
    by_first = {fd.first: fd for fd in program.all}
    found: dict[int, Descriptor] = {}
    for point, socket in recording.points:
        if socket.number not in found and socket.number >= 0:
            found[socket.number] = by_first[point.number] if point.kind == PointKind.INIT else noted(program, point)
    return found


def noted(program: RandomProgram, point: Point) -> Descriptor:
    """The socket whose state this point notes."""
    return next(fd for fd in program.all if fd.address == point.at and point.number in fd.notes)


def socket_differs(
    program: RandomProgram, recording: NewRecording, machine: Machine, number: int, fd: Descriptor
) -> str:
    runtime, socket, names = program.runtime, machine.sockets[number], recording.numbers
    state: dict[str, tuple[object, object]] = {
        "lock word": (socket.lock.number, fd.word),
        "semaphores": (socket.counts, tuple(fd.counts.values())),
        "queues": (socket.queues, tuple(tuple(names.get(g) for g in queue) for queue in fd.queues.values())),
        "shut": (socket.shut, fd.was_shut),
    }
    open_descriptors = [d for d, desc in enumerate(machine.descs) if desc.socket == number and machine.is_open(d)]
    state["open"] = (len(open_descriptors), 0 if fd.is_gone or fd.pd is None else 1)
    if open_descriptors and not fd.is_gone and fd.pd:
        d, pd = open_descriptors[0], fd.pd
        desc = machine.descs[d]
        deadlines = tuple(
            max(1, deadline - runtime.begin) if 0 < deadline < 2**63 - 1 else deadline for deadline in (pd.rd, pd.wd)
        )
        state |= {
            "closing": (desc.closing, pd.closing),
            "error": (desc.error, pd.error),
            "words": (desc.words, tuple(names.get(word, word) for word in pd.words.values())),
            "running": (desc.running, (pd.rrun, pd.wrun)),
        }
        if not pd.closing:
            state["deadlines"] = (desc.deadlines, deadlines)
        for side, (g, place) in pd.places.items():
            is_woken = place == "parked" and pd.words[side] != g
            state[f"place of {g}"] = (machine.goroutines[names[g]], ("swapping" if is_woken else place, d, side))
    return next(
        (f"{name}: {had}, and Go has {expected}" for name, (had, expected) in state.items() if had != expected), ""
    )


def bytes_differ(points: list[tuple[Point, int]], steps: list[tuple[Step, Any]]) -> str:
    """A message if a socket moved different numbers of bytes in the recording and in the log."""
    moved, had = Counter[tuple[int, str]](), Counter[tuple[int, str]]()
    for point, socket in points:
        if point.kind in (PointKind.READ, PointKind.WRITE) and point.b > 0:
            moved[socket, "put" if point.kind == PointKind.WRITE else "got"] += point.b
    for step, answer in steps:
        if answer[0] in ("got", "put"):
            had[step[2], answer[0]] += answer[1]
    return "" if had == moved else f"by socket {dict(had)} bytes, and the log has {dict(moved)}"


def order_differs(recording: NewRecording, points: list[tuple[Point, int]], steps: list[tuple[Step, Any]]) -> str:
    """The first step of a goroutine that differs from the log. Reads and writes aren't compared, because they may be
    split."""
    names = {number: name for name, number in recording.numbers.items()}
    expected = [
        (SPELLED[PointKind(point.kind)], point.goroutine, answer_of(point))
        for point, _ in points
        if point.kind in SPELLED
    ]
    found = [
        (step[0], names.get(step[1]), answer[0] if len(answer) == 1 else answer[1])
        for step, answer in steps
        if step[0] in SPELLED.values()
    ]
    for place, (step, other) in enumerate(zip(found, expected)):
        if step != other:
            return f"the goroutines' step {place} is {step}, and the log has {other}"
    return "" if len(found) == len(expected) else f"{len(found)} steps of goroutines, and the log has {len(expected)}"


SPELLED = {
    PointKind.INCREF: "incref", PointKind.INCREF_CLOSE: "increfclose", PointKind.DECREF: "decref", PointKind.RW_LOCK: "rwlock",
    PointKind.RW_UNLOCK: "rwunlock", PointKind.ACQUIRE: "acquire", PointKind.RELEASE: "release", PointKind.RESET: "pollreset",
    PointKind.WAIT_BEGIN: "waitbegin", PointKind.ARM: "blockarm", PointKind.CHECK: "blockcheck", PointKind.PARK: "parkcommit",
    PointKind.SWAP: "blockswap", PointKind.WAIT_CHECK: "waitcheck", PointKind.EVICT: "evict", PointKind.CLOSE: "pollclose",
    PointKind.SET_DEADLINE: "setdeadline",
}  # fmt: skip
CODES = (PointKind.RESET, PointKind.WAIT_BEGIN, PointKind.CHECK, PointKind.WAIT_CHECK)


def answer_of(point: Point) -> object:
    """The result of Go's function."""
    kind, yes = point.kind, point.c & 2
    if kind in CODES:
        return point.b
    if kind in (PointKind.DECREF, PointKind.RW_UNLOCK):
        return "last" if yes else "notlast"
    if kind in (PointKind.INCREF, PointKind.INCREF_CLOSE, PointKind.RW_LOCK):
        return "yes" if yes else "no" if point.a == point.b else "wait"
    if kind == PointKind.ACQUIRE:
        return "yes" if point.a else "wait"
    if kind in (PointKind.PARK, PointKind.SWAP):
        return "yes" if point.b else "no"
    if kind == PointKind.ARM:
        return 0 if point.b else "wait"
    return "done"
