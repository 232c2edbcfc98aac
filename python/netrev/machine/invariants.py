"""The invariants of each state, from the list "What always holds" of docs/internals/MACHINE.md. The fuzzer checks them
for the model, in each state that a recording reaches: if a state breaks an invariant, the pages contradict each other,
or the model is wrong. `breaches` names the broken invariants."""

from collections.abc import Iterator

from netrev.text.contents import GREATEST_TIME

from .machine import GREATEST_COUNT, GREATEST_SEQUENCE, SIDES, Status, Timer, World, at
from .polling import is_combo


def breaches(world: World) -> list[str]:
    """The invariants that a state breaks, as text."""
    return [name for rule in RULES for name in rule(world)]


def waits(world: World) -> Iterator[str]:
    """At most one goroutine is inside each wait, and the descriptor of its wait is open. Words hold exactly the parked
    goroutines, and `waiters` counts them."""
    held: dict[int, Status] = {}
    for d, desc in enumerate(world.descs):
        for side in SIDES:
            word, inside = desc.words[at(side)], world.inside(d, side)
            if len(inside) > 1:
                yield f"{len(inside)} goroutines inside the wait {d} {side}"
            if inside and not world.is_open(d):
                yield f"a goroutine inside a wait of the free descriptor {d}"
            if isinstance(word, int):
                held[word] = ("parked", d, side)
            if word == "wait" and not any(world.goroutines[g][0] in ("armed", "parking", "swapping") for g in inside):
                yield f"a word is wait and nobody is between arming and swap: {d} {side}"
    parked = {g: status for g, status in enumerate(world.goroutines) if status[0] == "parked"}
    if held != parked or len(held) != world.waiters:
        yield f"words hold {held}, parked are {parked}, waiters {world.waiters}"


def queues(world: World) -> Iterator[str]:
    """Each queued goroutine is in its queue once, and no other goroutine is."""
    standing = [
        (g, ("queued", s, side))
        for s, socket in enumerate(world.sockets)
        for side in SIDES
        for g in socket.queues[at(side)]
    ]
    queued = [(g, status) for g, status in enumerate(world.goroutines) if status[0] == "queued"]
    if sorted(standing) != queued:
        yield f"queues hold {standing}, queued are {queued}"


def current(world: World, timer: Timer) -> bool:
    return timer.sequence == world.descs[timer.desc].sequences[at(timer.side)]


def timers(world: World) -> Iterator[str]:
    """An armed timer has its side's sequence, deadline and function. For each side, at most one timer or firing is
    current."""
    for timer in world.timers:
        desc, place = world.descs[timer.desc], at(timer.side)
        function = "write" if timer.side == "w" else "both" if is_combo(desc) else "read"
        right = (desc.deadlines[place], function, desc.running[place], current(world, timer))
        if (timer.when, timer.function, True, True) != right or timer.when <= 0:
            yield f"an armed timer isn't its side's: {timer}"
    counting = [(timer.desc, timer.side) for timer in (*world.timers, *world.firings) if current(world, timer)]
    if len(counting) != len(set(counting)):
        yield f"two timers of one side count: {counting}"
    for firing in world.firings:
        desc = world.descs[firing.desc]
        covered = all(desc.deadlines[at(side)] == firing.when > 0 for side in firing.covers)
        if current(world, firing) and not (covered and desc.running[at(firing.side)]):
            yield f"a firing that counts isn't of its sides' deadlines: {firing}"
        if firing.when > world.clock:
            yield f"the time of a firing hasn't come: {firing}"
    numbers = [timer.number for timer in (*world.timers, *world.firings)]
    if len(set(numbers)) != len(numbers) or any(number >= world.next_number for number in numbers):
        yield f"arming numbers {numbers}, and the next is {world.next_number}"


def free_descriptors(world: World) -> Iterator[str]:
    for d in world.free:
        desc = world.descs[d]
        if not desc.closing or any(desc.running) or any(word not in ("nil", "ready") for word in desc.words):
            yield f"the free descriptor {d} isn't at rest: {desc}"


def limits(world: World) -> Iterator[str]:
    """No count exceeds the recording's limits, and no buffer exceeds its capacity."""
    most = world.limits
    counts = (len(world.goroutines), len(world.sockets), len(world.descs), len(world.firings))
    if any(count > limit for count, limit in zip(counts, (most.gor, most.sock, most.desc, 2 * most.desc))):
        yield f"made are {counts}, within {most}"
    for s, socket in enumerate(world.sockets):
        if any(len(held) > capacity for held, capacity in zip(socket.buffers, socket.capacities)):
            yield f"a buffer of socket {s} is past its capacity"
        if not all(0 <= count <= GREATEST_COUNT for count in socket.counts):
            yield f"a count of socket {s} is out of range"


def numbers(world: World) -> Iterator[str]:
    times = [world.clock, *(deadline for desc in world.descs for deadline in desc.deadlines)]
    if world.clock < 0 or not all(-GREATEST_TIME - 1 <= time <= GREATEST_TIME for time in times):
        yield f"times out of range: {times}"
    sequences = [number for desc in world.descs for number in (*desc.sequences, desc.fdseq)]
    if not all(0 <= number <= GREATEST_SEQUENCE for number in (*sequences, world.next_number)) or world.next_number < 1:
        yield f"sequences out of range: {sequences}"


RULES = (waits, queues, timers, free_descriptors, limits, numbers)
