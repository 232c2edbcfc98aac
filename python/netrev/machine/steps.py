"""The 31 kinds of step: each is a function of the state and the arguments that returns the next state and the answer,
or raises StepRefusedError with the first reason, in the order of the table in docs/internals/MACHINE.md.

Answers are the words of docs/internals/MACHINE.md in lower case; `number`, `code`, `got` and `put` come with their
number.
"""

from collections.abc import Callable

from netrev.text.contents import Step

from . import lockword, polling
from .machine import GONE, GREATEST_COUNT, IDLE, Desc, Outcome, Socket, Status, StepRefusedError, World, at, put

Operation = Callable[..., lockword.Operated]


def need(holds: object, reason: int) -> None:
    if not holds:
        raise StepRefusedError(reason)


def status_of(world: World, g: int) -> Status:
    """The status of an existing goroutine."""
    need(g < len(world.goroutines) and world.goroutines[g] != GONE, 1)
    return world.goroutines[g]


def idle(world: World, g: int) -> None:
    need(status_of(world, g) == IDLE, 2)


def within(world: World, g: int, place: str) -> Status:
    """The descriptor and side of a goroutine's wait; the goroutine must be at this place of the wait."""
    status = status_of(world, g)
    need(status[0] == place, 2)
    return status[1:]


def socket(world: World, s: int) -> Socket:
    need(s < len(world.sockets), 4)
    return world.sockets[s]


def desc(world: World, d: int) -> Desc:
    need(world.is_open(d), 5)
    return world.descs[d]


def spawn(world: World) -> Outcome:
    number = len(world.goroutines)
    need(number < world.limits.gor, 3)
    return world._replace(goroutines=(*world.goroutines, IDLE)), ("number", number)


def exit(world: World, g: int) -> Outcome:
    idle(world, g)
    return world.with_status(g, GONE), ("done",)


def sockopen(world: World, rc: int, wc: int) -> Outcome:
    number = len(world.sockets)
    need(number < world.limits.sock, 3)
    need(1 <= rc <= world.limits.buf and 1 <= wc <= world.limits.buf, 19)
    return world._replace(sockets=(*world.sockets, Socket((rc, wc)))), ("number", number)


def arrive(world: World, s: int, data: bytes) -> Outcome:
    sock = socket(world, s)
    need(data, 19)
    need(not sock.peer_closed, 20)
    held = sock.buffers[0] + data
    need(len(held) <= sock.capacities[0], 16)
    return world.with_socket(s, buffers=(held, sock.buffers[1])), ("done",)


def peerclose(world: World, s: int) -> Outcome:
    need(not socket(world, s).peer_closed, 20)
    return world.with_socket(s, peer_closed=True), ("done",)


def sysread(world: World, g: int, s: int, n: int) -> Outcome:
    idle(world, g)
    sock = socket(world, s)
    need(1 <= n <= world.limits.buf, 19)
    held, output = sock.buffers
    if not held:
        return world, ("eof",) if sock.peer_closed else ("again",)
    return world.with_socket(s, buffers=(held[n:], output)), ("got", len(held[:n]))


def syswrite(world: World, g: int, s: int, data: bytes) -> Outcome:
    idle(world, g)
    sock = socket(world, s)
    need(data, 19)
    if sock.shut:
        return world, ("pipe",)
    held, output = sock.buffers
    room = sock.capacities[1] - len(output)
    if room == 0:
        return world, ("again",)
    return world.with_socket(s, buffers=(held, output + data[:room])), ("put", len(data[:room]))


def drain(world: World, s: int, n: int) -> Outcome:
    held, output = socket(world, s).buffers
    need(n > 0, 19)
    need(n <= len(output), 17)
    return world.with_socket(s, buffers=(held, output[n:])), ("done",)


def operate(world: World, g: int, s: int, operation: Operation, *arguments: str) -> Outcome:
    """Makes an operation on a lock word. Afterwards, a goroutine that owes releases or has to wait isn't idle."""
    answer, lock, owed = operation(socket(world, s).lock, *arguments)
    status = ("owing", s, *owed) if any(owed) else IDLE
    if answer == "wait":
        status = ("acquiring", s, *arguments)
    return world.with_socket(s, lock=lock).with_status(g, status), (answer,)


def closewrite(world: World, g: int, s: int) -> Outcome:
    idle(world, g)
    socket(world, s)
    return world.with_socket(s, shut=True), ("done",)


def incref(world: World, g: int, s: int) -> Outcome:
    idle(world, g)
    return operate(world, g, s, lockword.incref)


def increfclose(world: World, g: int, s: int) -> Outcome:
    idle(world, g)
    return operate(world, g, s, lockword.increfclose)


def decref(world: World, g: int, s: int) -> Outcome:
    idle(world, g)
    return operate(world, g, s, lockword.decref)


def rwlock(world: World, g: int, s: int, side: str) -> Outcome:
    need(status_of(world, g) in (IDLE, ("relock", s, side)), 2)
    return operate(world, g, s, lockword.rwlock, side)


def rwunlock(world: World, g: int, s: int, side: str) -> Outcome:
    idle(world, g)
    return operate(world, g, s, lockword.rwunlock, side)


def acquire(world: World, g: int) -> Outcome:
    s, side = within(world, g, "acquiring")
    sock, place = world.sockets[s], at(side)
    if sock.counts[place] > 0:
        world = world.with_socket(s, counts=put(sock.counts, place, sock.counts[place] - 1))
        return world.with_status(g, ("relock", s, side)), ("yes",)
    world = world.with_socket(s, queues=put(sock.queues, place, (*sock.queues[place], g)))
    return world.with_status(g, ("queued", s, side)), ("wait",)


def release(world: World, g: int) -> Outcome:
    s, reads, writes = within(world, g, "owing")
    place = 0 if reads else 1
    sock = world.sockets[s]
    need(sock.counts[place] < GREATEST_COUNT, 6)
    owed = (reads - 1, writes) if reads else (reads, writes - 1)
    world = world.with_status(g, ("owing", s, *owed) if any(owed) else IDLE)
    world = world.with_socket(s, counts=put(sock.counts, place, sock.counts[place] + 1))
    if sock.queues[place]:
        front, *behind = sock.queues[place]
        world = world.with_socket(s, queues=put(sock.queues, place, tuple(behind)))
        world = world.with_status(front, ("acquiring", s, "rw"[place]))
    return world, ("done",)


def pollopen(world: World, g: int, s: int) -> Outcome:
    idle(world, g)
    socket(world, s)
    world, number = polling.opened(world, s)
    return world, ("number", number)


def pollclose(world: World, g: int, d: int) -> Outcome:
    idle(world, g)
    old = desc(world, d)
    need(old.closing, 9)
    need(not world.inside(d, "r") and not world.inside(d, "w"), 11)
    return world.with_desc(d, fdseq=polling.raised(old.fdseq))._replace(free=(d, *world.free)), ("done",)


def pollreset(world: World, g: int, d: int, side: str) -> Outcome:
    idle(world, g)
    code = polling.check(desc(world, d), side)
    if code == 0:
        need(not world.inside(d, side), 11)
        world = polling.with_word(world, d, side, "nil")
    return world, ("code", code)


def waitbegin(world: World, g: int, d: int, side: str) -> Outcome:
    idle(world, g)
    code = polling.check(desc(world, d), side)
    if code == 0:
        need(not world.inside(d, side), 8)
        world = world.with_status(g, ("entering", d, side))
    return world, ("code", code)


def blockarm(world: World, g: int) -> Outcome:
    d, side = within(world, g, "entering")
    if world.descs[d].words[at(side)] == "ready":
        return polling.with_word(world, d, side, "nil").with_status(g, IDLE), ("code", 0)
    return polling.with_word(world, d, side, "wait").with_status(g, ("armed", d, side)), ("wait",)


def blockcheck(world: World, g: int) -> Outcome:
    d, side = within(world, g, "armed")
    code = polling.check(world.descs[d], side)
    return world.with_status(g, ("swapping" if code else "parking", d, side)), ("code", code)


def parkcommit(world: World, g: int) -> Outcome:
    d, side = within(world, g, "parking")
    if world.descs[d].words[at(side)] != "wait":
        return world.with_status(g, ("swapping", d, side)), ("no",)
    world = polling.with_word(world, d, side, g)._replace(waiters=world.waiters + 1)
    return world.with_status(g, ("parked", d, side)), ("yes",)


def blockswap(world: World, g: int) -> Outcome:
    d, side = within(world, g, "swapping")
    was_ready = world.descs[d].words[at(side)] == "ready"
    world = polling.with_word(world, d, side, "nil")
    return world.with_status(g, IDLE if was_ready else ("checking", d, side)), ("yes",) if was_ready else ("no",)


def waitcheck(world: World, g: int) -> Outcome:
    d, side = within(world, g, "checking")
    code = polling.check(world.descs[d], side)
    return world.with_status(g, IDLE if code else ("entering", d, side)), ("code", code)


def setdeadline(world: World, g: int, d: int, mode: str, time: int) -> Outcome:
    idle(world, g)
    desc(world, d)
    return polling.set_deadline(world, d, mode, time), ("done",)


def evict(world: World, g: int, d: int) -> Outcome:
    idle(world, g)
    need(not desc(world, d).closing, 10)
    return polling.evicted(world, d), ("done",)


def pollevent(world: World, d: int, tag: int, mode: str, error: int) -> Outcome:
    need(d < len(world.descs), 5)
    if not world.is_open(d) or tag != world.descs[d].fdseq:
        return world, ("stale",)
    return polling.event(world, d, mode, bool(error)), ("done",)


def tick(world: World, time: int) -> Outcome:
    need(time >= world.clock, 12)
    return world._replace(clock=time), ("done",)


def pop(world: World) -> Outcome:
    need(world.timers and world.timers[0].when <= world.clock, 13)
    need(len(world.firings) < 2 * world.limits.desc, 14)
    return world._replace(timers=world.timers[1:], firings=(*world.firings, world.timers[0])), ("done",)


def fire(world: World, i: int) -> Outcome:
    need(i < len(world.firings), 15)
    firing = world.firings[i]
    world = world._replace(firings=world.firings[:i] + world.firings[i + 1 :])
    after = polling.fired(world, firing)
    return (world, ("stale",)) if after is None else (after, ("done",))


KINDS: tuple[Callable[..., Outcome], ...] = (
    *(spawn, exit, sockopen, arrive, peerclose, sysread, syswrite, drain, incref, increfclose, decref, rwlock),
    *(rwunlock, acquire, release, pollopen, pollclose, pollreset, waitbegin, blockarm, blockcheck, parkcommit),
    *(blockswap, waitcheck, setdeadline, evict, pollevent, tick, pop, fire, closewrite),
)
OF_KIND = {function.__name__: function for function in KINDS}


def apply(world: World, step: Step) -> Outcome:
    """The next state and the answer of a step. The step is a tuple of a kind and its arguments."""
    return OF_KIND[step[0]](world, *step[1:])
