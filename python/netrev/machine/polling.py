"""The parts of steps that change a descriptor: the check, unblocking, deadlines with their timers, events and
closing."""

from collections.abc import Sequence

from netrev.text.contents import GREATEST_TIME

from .machine import GREATEST_SEQUENCE, Desc, StepRefusedError, Timer, Word, World, at, put


def check(desc: Desc, side: str) -> int:
    """The code of a side: 1 if the descriptor is closing, 2 if the side's deadline has passed, 3 after an event error
    (for reading only), or 0."""
    if desc.closing:
        return 1
    if desc.deadlines[at(side)] < 0:
        return 2
    return 3 if side == "r" and desc.error else 0


def summary(desc: Desc) -> int:
    read, write = desc.deadlines
    return desc.closing + 2 * desc.error + 4 * (read < 0) + 8 * (write < 0)


def raised(number: int) -> int:
    """A sequence, fdseq or arming number, increased by one."""
    if number == GREATEST_SEQUENCE:
        raise StepRefusedError(18)
    return number + 1


def with_word(world: World, d: int, side: str, word: Word) -> World:
    return world.with_desc(d, words=put(world.descs[d].words, at(side), word))


def unblock(world: World, d: int, side: str, readiness: bool) -> World:
    """Unblocks the word of a side. The word becomes ready if `readiness` is true, else nil, unless it is ready already.
    If it held a goroutine, the goroutine continues to the swap."""
    word = world.descs[d].words[at(side)]
    if word == "ready":
        return world
    world = with_word(world, d, side, "ready" if readiness else "nil")
    if isinstance(word, int):
        world = world.with_status(word, ("swapping", d, side))._replace(waiters=world.waiters - 1)
    return world


def opened(world: World, s: int) -> tuple[World, int]:
    """The world with a descriptor opened for a socket, and its number. The step is refused with reason 3 if no
    descriptor is free and all have been made."""
    if not world.free and len(world.descs) == world.limits.desc:
        raise StepRefusedError(3)
    if world.free:
        d, world = world.free[0], world._replace(free=world.free[1:])
    else:
        d, world = len(world.descs), world._replace(descs=(*world.descs, Desc()))
    old = world.descs[d]
    sequences = tuple(raised(sequence) for sequence in old.sequences)
    new = Desc(sequences=sequences, fdseq=old.fdseq or 1, socket=s)
    return world._replace(descs=put(world.descs, d, new)), d


def evicted(world: World, d: int) -> World:
    sequences = tuple(raised(sequence) for sequence in world.descs[d].sequences)
    world = world.with_desc(d, closing=True, sequences=sequences, running=(False, False))
    world = world._replace(timers=tuple(timer for timer in world.timers if timer.desc != d))
    return unblock(unblock(world, d, "r", False), d, "w", False)


def event(world: World, d: int, mode: str, error: bool) -> World:
    world = world.with_desc(d, error=error)
    for side in mode:
        world = unblock(world, d, side, True)
    return world


def are_both(deadlines: Sequence[int]) -> bool:
    """Whether the deadlines for reading and for writing are the same future time, so that one timer serves both."""
    read, write = deadlines
    return read > 0 and read == write


def is_combo(desc: Desc) -> bool:
    """Whether both deadlines are the same future time."""
    return are_both(desc.deadlines)


def followed(is_running: bool, place: int, before: Sequence[int], now: Sequence[int]) -> bool | None:
    """Whether the timer of a side is armed again after a change of the deadlines; None if it stays as it is."""
    both = are_both(now)
    is_wanted = now[place] > 0 and not (both and place)  # (the timer for reading serves both)
    if not is_running:
        return is_wanted or None
    return is_wanted if now[place] != before[place] or both != are_both(before) else None


def deadline_of(clock: int, time: int) -> int:
    """The clock's value at a deadline that is `time` from now. A `time` of 0 (no deadline) or below (a past deadline)
    is returned as it is."""
    return min(clock + time, GREATEST_TIME) if time > 0 else time


def set_deadline(world: World, d: int, mode: str, time: int) -> World:
    before = world.descs[d]
    if before.closing:
        return world
    deadline = deadline_of(world.clock, time)
    deadlines = tuple(deadline if side in mode else old for side, old in zip("rw", before.deadlines))
    world = world.with_desc(d, deadlines=deadlines)
    for side in "rw":
        world = follow(world, d, side, before)
    for side in "rw":
        if world.descs[d].deadlines[at(side)] < 0:
            world = unblock(world, d, side, False)
    return world


def follow(world: World, d: int, side: str, before: Desc) -> World:
    """Updates the timer of a side after a change of the descriptor's deadlines."""
    desc, place = world.descs[d], at(side)
    wanted = followed(desc.running[place], place, before.deadlines, desc.deadlines)
    if wanted is None:
        return world
    if desc.running[place]:
        sequences = put(desc.sequences, place, raised(desc.sequences[place]))
        world = world.with_desc(d, sequences=sequences)
    world = without_timer(world, d, side)
    world = world.with_desc(d, running=put(desc.running, place, wanted))
    return with_timer(world, d, side, is_combo(desc)) if wanted else world


def without_timer(world: World, d: int, side: str) -> World:
    kept = tuple(timer for timer in world.timers if (timer.desc, timer.side) != (d, side))
    return world._replace(timers=kept)


def with_timer(world: World, d: int, side: str, combo: bool) -> World:
    """Arms the timer of a side at its deadline."""
    desc, place = world.descs[d], at(side)
    function = "write" if side == "w" else "both" if combo else "read"
    timer = Timer(desc.deadlines[place], world.next_number, d, side, function, desc.sequences[place])
    return world._replace(timers=tuple(sorted((*world.timers, timer))), next_number=raised(world.next_number))


def fired(world: World, firing: Timer) -> World | None:
    """Runs a firing; returns None if it is stale. A firing has the sequence of the first side that it covers."""
    d, own = firing.desc, at(firing.covers[0])
    if firing.sequence != world.descs[d].sequences[own]:
        return None
    for side in firing.covers:
        desc = world.descs[d]
        if desc.deadlines[at(side)] <= 0 or not desc.running[own]:
            raise StepRefusedError(21)
        world = unblock(world.with_desc(d, deadlines=put(desc.deadlines, at(side), -1)), d, side, False)
    return world
