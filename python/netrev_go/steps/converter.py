"""Makes the steps of a version 2 recording from points. A recorded answer is Go's own, if Go has an answer. Go doesn't
see what the other end does, so the converter chooses those steps. Bytes arrive just before the read that gets them, and
are all zeros. Written bytes are drained just before the write that needs the room. A socket's output is just large
enough to be full when Go found it full."""

from __future__ import annotations

from bisect import bisect_right
from collections import defaultdict, deque
from collections.abc import Callable
from itertools import chain

from netrev.machine.deadlines import READING, WRITING, Deadlines
from netrev.machine.machine import SIDES
from netrev.machine.polling import deadline_of
from netrev.messages import recorder as messages
from netrev_go.log.orders import Made
from netrev_go.log.point_answers import BROKEN_PIPE, UnconvertibleError, can_answer, mode_of, parts
from netrev_go.log.points import LOCKING, Point, PointKind
from netrev_go.log.prelude import NOBODY, Lead, passing
from netrev_go.log.socket_facts import OF_UNIX, Beside
from netrev_go.log.sockets import AGAIN, BUFFER, FEW_BYTES, LoggedSocket

from .leading_steps import close_write, lead
from .single_step_lines import REPEATED, read_line, repeated_line
from .zeros import Line, arrival, drained, put_line, written

CURRENT_READ, STALE = 1, 4
EVENT_ERROR, EVENT_STALE = 1, 2
GREATEST = 2**63 - 1
READ, FIRE, NOTED = int(PointKind.READ), int(PointKind.FIRE), int(PointKind.NOTED)

# The bytes that arrive before the step, the goroutine's own line and its number, and the stack of its call.
Repeated = tuple[Line | None, Line, int, list[int]]


class Converter:
    """The recording so far: its lines, the stack of each line (0 if unknown), and Go's lock words."""

    def __init__(
        self, points: list[tuple[Point, LoggedSocket]], begin: int, ends: list[tuple[int, int]] | None = None
    ) -> None:
        self.points = points
        self._ends = ends or []  # free numbers of goroutines, the last one first
        self._unused: deque[int] = deque()
        self.taken: list[
            tuple[int, int, int]
        ] = []  # (number, step, goroutine): the goroutine takes the number after the step
        self._taken_over: set[int] = set()  # numbers that several goroutines had
        self.begin = begin
        self.lines: list[Line] = []
        self.stacks: list[int] = []
        self.goroutines: dict[int, int] = {}
        self.last_steps: list[int] = []  # of each goroutine
        self.names: list[int] = []  # Go's number of each goroutine
        self.ended: list[int] = []  # the number of steps after each point
        self.made: list[Made] = []  # the goroutines' steps, by Go's names
        self._number = 0  # of the point
        self.calls: dict[tuple[int, LoggedSocket], list[int]] = {}  # a goroutine's last stack on a socket
        self.sockets = 0
        self.free: list[int] = []
        self.descriptors = 0
        self.tags: list[int] = []
        self.clock = 0
        self.behind = sum(passing(socket.leads) for point, socket in points if point[1] == NOTED)  # nanoseconds
        self.deadlines = Deadlines()
        self.later_fires = {(socket, *self.firing(point)) for point, socket in points if point[1] == FIRE}
        self.early: dict[
            int, int
        ] = {}  # the number of steps after each write that a closewrite overtook, by the write's point
        self.closings: dict[int, Lead] = {}  # the noted closewrites, by the points of the writes that they overtook
        self.beside = Beside()
        if any(socket.note for _, socket in points):
            self.goroutine(NOBODY)

    def convert(self) -> None:
        """Makes the steps of all points."""
        lines, stacks, makers, ended = self.lines, self.stacks, self.made, self.ended
        last_steps = self.last_steps
        others, known = self._others(), dict[tuple[object, ...], Repeated]()
        # (there may be a million points: repeated lines are formatted once, and need no function call afterwards)
        for point, socket in self.points:
            number, kind, identity, _, a, b, c, _, stack = point
            key: tuple[object, ...]
            if kind in LOCKING:
                key = kind, identity, socket, a == b, c
            elif kind in REPEATED or kind == READ and 0 < b <= FEW_BYTES:
                key = kind, identity, socket, a, b
            else:
                self._number = number
                others[kind](point, socket)
                ended.append(len(lines))
                continue
            repeated = known.get(key)
            if repeated is None:
                repeated = known[key] = self._repeated(point, socket)
            before, line, g, call = repeated
            if before:
                lines.append(before)
                stacks.append(0)
            if stack:  # (the same as in `of`)
                call[0] = stack
            else:
                stack = call[0]
            lines.append(line)
            stacks.append(stack)
            step = last_steps[g] = len(lines)
            makers.append((number, identity, step))
            ended.append(step)

    def _repeated(self, point: Point, socket: LoggedSocket) -> Repeated:
        self._number = point.number
        g = self.goroutine(point.goroutine)
        before = arrival(socket.number, point.b) if point.kind == READ else None
        return before, repeated_line(point, g, socket), g, self.call(point.goroutine, socket)

    def call(self, identity: int, socket: LoggedSocket) -> list[int]:
        """The stack of a goroutine's last call on a socket; 0 if none is known."""
        return self.calls.setdefault((identity, socket), [0])

    def _others(self) -> dict[int, Callable[[Point, LoggedSocket], None]]:
        """For each kind, the function that makes the steps of a point, unless the point has a repeated line."""
        return {
            PointKind.INIT: self.socket_opens, PointKind.READ: self.read, PointKind.WRITE: self.write, PointKind.CLOSE_WRITE: self.close_write,
            PointKind.OPEN: self.open, PointKind.CLOSE: self.close, PointKind.PARK: self.park, PointKind.SET_DEADLINE: self.set_deadline,
            PointKind.EVICT: self.evict, PointKind.EVENT: self.event, PointKind.FIRE: self.fire, PointKind.NAMED: self.named,
            PointKind.NOTED: self.noted, PointKind.NOTED_NAMED: self.noted_name,
        }  # fmt: skip

    def made_of(self) -> dict[int, int]:
        """The number of steps made for each socket, by `Socket.opening`."""
        counts: dict[int, int] = defaultdict(int)
        for (_, socket), before, behind in zip(self.points, chain((0,), self.ended), self.ended):
            counts[socket.opening] += behind - before
        return counts

    def steps_before(self, number: int) -> int:
        """The number of steps made from the points up to this one."""
        place = bisect_right(self.points, number, key=lambda pair: pair[0].number)
        return self.ended[place - 1] if place else 0

    def step(self, text: Line) -> None:
        """Adds a step without a goroutine."""
        self.lines.append(text)
        self.stacks.append(0)

    def of(self, g: int, socket: LoggedSocket, stack: int, text: Line) -> None:
        """Adds a step of a goroutine on a socket. If its point has no stack, the step gets the stack of the goroutine's
        last call on the socket."""
        call = self.call(self.names[g], socket)
        if stack:
            call[0] = stack
        else:
            stack = call[0]
        lines = self.lines
        lines.append(text)
        self.stacks.append(stack)
        step = self.last_steps[g] = len(lines)
        self.made.append((self._number, self.names[g], step))

    def goroutine(self, identity: int) -> int:
        """A goroutine's number; a new goroutine is spawned, or takes the number of a goroutine that has ended."""
        number = self.goroutines.get(identity)
        if number is None:
            number = self.goroutines[identity] = self._unused_number(identity)
        return number

    def _unused_number(self, identity: int) -> int:
        while self._ends and self._ends[-1][0] < self._number:
            number = self.goroutines.get(self._ends.pop()[1])
            if number is not None:
                self._unused.append(number)
        if self._unused:
            number = self._unused.popleft()
            if number not in self._taken_over:  # the goroutine that had it first is named too
                self._taken_over.add(number)
                self.taken.append((number, 0, self.names[number]))
            self.names[number] = identity
            self.taken.append((number, len(self.lines), identity))
            return number
        number = len(self.names)
        self.names.append(identity)
        self.last_steps.append(0)
        if number:
            self.step(f'["spawn",["number",{number}]]')
        return number

    def go_on_to(self, time: int) -> None:
        if time > self.clock:
            self.clock = time
            self.lines.append(f'["tick",{time},"done"]')
            self.stacks.append(0)

    def socket_opens(self, point: Point, socket: LoggedSocket) -> None:
        g = self.goroutine(point.goroutine)
        socket.number = self.sockets
        self.sockets += 1
        self.of(g, socket, point.stack, f'["sockopen",{BUFFER},{socket.capacity()},["number",{socket.number}]]')

    def read(self, point: Point, socket: LoggedSocket) -> None:
        """Makes the steps of a read that gets no bytes, or many bytes. (A read of a few bytes is a repeated line.)"""
        g = self.goroutine(point.goroutine)
        if not can_answer(socket, point):
            return self.beside.failed(self.last_steps[g], point)
        for count in parts(max(point.b, 0), BUFFER):
            self.step(arrival(socket.number, count))
            self.of(g, socket, point.stack, read_line(g, socket.number, point.a, f'["got",{count}]'))
        if point.b > 0:
            return
        if point.c != AGAIN and not socket.peer_closed:
            socket.peer_closed = True
            self.step(f'["peerclose",{socket.number},"done"]')
        answer = '"again"' if point.c == AGAIN else '"eof"'
        self.of(g, socket, point.stack, read_line(g, socket.number, point.a, answer))

    def write(self, point: Point, socket: LoggedSocket) -> None:
        """Makes the steps of a write, unless they were made earlier because a closewrite overtook the write. If a noted
        closewrite overtook the write, makes the closewrite's steps too."""
        if point.number not in self.early:
            self.make_write(point, socket)
            if closing := self.closings.get(point.number):
                close_write(self, socket, closing)

    def make_write(self, point: Point, socket: LoggedSocket) -> None:
        _, _, identity, _, requested, put, error, _, stack = point
        g, number = self.goroutine(identity), socket.number
        if put <= 0:
            if not can_answer(socket, point):
                return self.beside.failed(self.last_steps[g], point)
            answer = '"pipe"' if error == BROKEN_PIPE else '"again"'
            self.of(g, socket, stack, written(g, number, min(max(requested, 1), BUFFER), answer))
            return
        capacity = socket.capacity()
        for count in parts(put, capacity):
            missing = socket.held + count - capacity
            if missing > 0:
                self.step(drained(number, missing))
                socket.held -= missing
            socket.held += count
            self.of(g, socket, stack, put_line(g, number, count))

    def close_write(self, point: Point, socket: LoggedSocket) -> None:
        """Closes the write side. Points are logged after their system calls, so an earlier write may have a later
        point. At most one write can: the next write has to wait for it. That write's goroutine was already in the call
        before this point.
        """
        g, last = self.goroutine(point.goroutine), socket.last_write
        if last and last.number > point.number and last.number not in self.early:
            self.write(last, socket)
            self.early[last.number] = len(self.lines)
        socket.shut = True
        self.of(g, socket, point.stack, f'["closewrite",{g},{socket.number},"done"]')

    def park(self, point: Point, socket: LoggedSocket) -> None:
        g = self.goroutine(point.goroutine)
        self.of(g, socket, 0, f'["parkcommit",{g},"{"yes" if point.b else "no"}"]')

    def event(self, point: Point, socket: LoggedSocket) -> None:
        """Makes the step of an event. If the event was fetched before the descriptor was closed, it comes too late: if
        events have tags, Go reports the event; otherwise Go ignores it for a free descriptor."""
        is_stale = point.b & EVENT_STALE if point.c else not socket.is_open
        answer = "stale" if is_stale else "done"
        tag, error = socket.tag, point.b & EVENT_ERROR
        self.step(f'["pollevent",{socket.descriptor},{tag},"{mode_of(point)}",{error},"{answer}"]')

    def open(self, point: Point, socket: LoggedSocket) -> None:
        g = self.goroutine(point.goroutine)
        reading, writing = self.takes_descriptor(socket)
        socket.sequences = socket.sequences[READING] - reading, socket.sequences[WRITING] - writing
        self.of(g, socket, point.stack, f'["pollopen",{g},{socket.number},["number",{socket.descriptor}]]')

    def takes_descriptor(self, socket: LoggedSocket) -> tuple[int, int]:
        """Opens a descriptor for a socket, and stores Go's sequences at that time."""
        if self.free:
            socket.descriptor = self.free.pop()
        else:
            socket.descriptor = self.descriptors
            self.descriptors += 1
            self.tags.append(1)
        socket.tag = self.tags[socket.descriptor]
        socket.is_open = True
        return self.deadlines.open(socket.descriptor)

    def close(self, point: Point, socket: LoggedSocket) -> None:
        g = self.goroutine(point.goroutine)
        socket.is_open = False
        self.free.append(socket.descriptor)
        self.tags[socket.descriptor] += 1
        self.of(g, socket, point.stack, f'["pollclose",{g},{socket.descriptor},"done"]')

    def evict(self, point: Point, socket: LoggedSocket) -> None:
        g = self.goroutine(point.goroutine)
        for side in (READING, WRITING):
            self.pop_what_fires(socket, side)
        self.deadlines.evict(socket.descriptor)
        self.of(g, socket, point.stack, f'["evict",{g},{socket.descriptor},"done"]')

    def set_deadline(self, point: Point, socket: LoggedSocket) -> None:
        """The deadline is exactly Go's, even if another processor read a later time before this point was logged."""
        _, _, identity, _, _, time, _, passed, stack = point
        g, mode, number = self.goroutine(identity), mode_of(point), socket.descriptor
        now = passed - self.begin
        if now > self.clock:
            self.go_on_to(now - self.behind)
        first = ends = deadline_of(now, time)
        changes = self.deadlines.changing(number, mode, first)
        for side, _ in changes:
            self.pop_what_fires(socket, side)
        if time > 0 and (self.clock != now or time + passed > GREATEST):
            time = max(1, time - (self.clock - now)) if time + passed <= GREATEST else GREATEST
            ends = min(self.clock + time, GREATEST)
        self.deadlines.set(number, mode, ends, changes=changes if ends == first else None)
        self.of(g, socket, stack, f'["setdeadline",{g},{number},"{mode}",{time},"done"]')

    def pop_what_fires(self, socket: LoggedSocket, side: int) -> None:
        """Pops a timer before it is stopped or reset, if a later point shows that the timer fired: it had already left
        Go's heap."""
        timer = self.deadlines.armed(socket.descriptor, side)
        if timer and (socket, side, timer.sequence + socket.sequences[side]) in self.later_fires:
            self.go_on_to(timer.due)
            while timer.armed:
                self.pop()

    def pop(self) -> None:
        self.deadlines.pop()
        self.step('["pop","done"]')

    def firing(self, point: Point) -> tuple[int, int]:
        """The side and the sequence of a firing; the read side if the timer is for both."""
        return (READING if point.b & CURRENT_READ else WRITING), point.a

    def fire(self, point: Point, socket: LoggedSocket) -> None:
        side, sequence = self.firing(point)
        sequence -= socket.sequences[side]
        now = point.time - self.begin
        self.go_on_to(now - self.behind)
        place = self.deadlines.place(socket.descriptor, side, sequence)
        while place is None:
            least = self.deadlines.least()
            if not least or least.due > max(now, self.clock):
                raise UnconvertibleError(messages.NO_TIMER.format(point=point.number))
            self.go_on_to(least.due)
            self.pop()
            place = self.deadlines.place(socket.descriptor, side, sequence)
        sides = "".join(name for bit, name in enumerate(SIDES) if point.b & 1 << bit)
        self.deadlines.fire(place, sides)
        self.step(f'["fire",{place},"{"stale" if point.b & STALE else "done"}"]')

    def named(self, point: Point, socket: LoggedSocket) -> None:
        self.beside.named(socket.number, point, self.last_steps[self.goroutine(point.goroutine)] if point.c else 0)

    def noted(self, point: Point, socket: LoggedSocket) -> None:
        """Makes the steps that bring a socket into its noted state. At the first note, the clock advances to the note's
        time, but not past a deadline that these steps will set. The steps of later notes advance the clock too. Until
        the last note, the clock lags Go's by the time that the steps of the remaining notes will add. So deadlines set
        between the notes equal Go's."""
        if not self.clock:
            sockets = {socket for point, socket in self.points if point.kind == PointKind.NOTED}
            dues = [due - 1 for socket in sockets if socket.note for due in socket.note.deadlines if due > 0]
            self.go_on_to(min([point.time, *dues]) - self.begin - self.behind)
        lead(self, socket)
        self.behind -= passing(socket.leads)

    def noted_name(self, point: Point, socket: LoggedSocket) -> None:
        if point.c != OF_UNIX:  # (goroutines pair the ends of Unix sockets)
            self.beside.named(socket.number, point)

    def header(self) -> str:
        # A recording has room for two pending firings for each descriptor; several processors may have more firings.
        descriptors = max(self.descriptors, (self.deadlines.most_firings + 1) // 2, 1)
        limits = f'"gor":{max(1, len(self.names))},"sock":{max(1, self.sockets)},"desc":{descriptors}'
        return f'{{"netrev":2,{limits},"buf":{BUFFER}}}'
