"""No goroutine sleeps past a close or a deadline: searches the small worlds of the model, with one descriptor, a reader and
a writer, and any order of steps. Each of the wrong machines below breaks the laws that it names; the laws are those of
crates/nr_protocol, and `fits`, which is the model's own well-formedness.

    python3 python -m tests.machine.test_sleepers [CLOCK]    searches all worlds up to this time, for minutes"""

import sys
from collections.abc import Callable, Iterator
from typing import Any

import pytest

from netrev.machine import invariants, polling, steps
from netrev.machine.machine import Desc, StepRefusedError, Timer, World, at, put
from netrev.text.contents import Limits

Wrong = Callable[[pytest.MonkeyPatch], None]
LIMITS = Limits(3, 1, 1, 1)
SOME = 100_000  # worlds, if a wrong machine isn't found out earlier


def numbered(world: World) -> World:
    """The world with the least numbers: only whether a timer is current, and the order of arming, matter."""

    def of(timer: Timer) -> Timer:
        is_current = timer.sequence == world.descs[timer.desc].sequences[at(timer.side)]
        return timer._replace(sequence=10 if is_current else 9)

    timers, firings = [*map(of, world.timers)], [*map(of, world.firings)]
    rank = {number: place for place, number in enumerate(sorted(timer.number for timer in timers + firings), 1)}
    timers, firings = (
        [timer._replace(number=rank[timer.number]) for timer in several] for several in (timers, firings)
    )
    descs = tuple(desc._replace(sequences=(10, 10), fdseq=1) for desc in world.descs)
    return world._replace(descs=descs, timers=tuple(sorted(timers)), firings=tuple(firings), next_number=len(rank) + 1)


def possible(world: World, last: int) -> Iterator[tuple[Any, ...]]:
    """The steps that may come next."""
    yield "pollopen", 0, 0
    if not world.descs:
        return
    for goroutine, side in ((1, "r"), (2, "w")):
        yield from ((kind, goroutine, 0, side) for kind in ("pollreset", "waitbegin"))
        yield from ((kind, goroutine) for kind in ("blockarm", "blockcheck", "parkcommit", "blockswap", "waitcheck"))
    for mode in ("r", "w", "rw"):
        yield from (("setdeadline", 0, 0, mode, time) for time in (-1, 0, 1))
        yield from (("pollevent", 0, world.descs[0].fdseq, mode, error) for error in (0, 1))
    yield from (("evict", 0, 0), ("pollclose", 0, 0), ("pop",))
    if world.clock < last:
        yield "tick", world.clock + 1
    yield from (("fire", place) for place in range(len(world.firings)))


def has_timer(world: World, number: int, side: str) -> bool:
    """Whether a side's deadline has just one current timer, armed for that time or gone off."""
    desc = world.descs[number]
    current = [
        timer
        for timer in (*world.timers, *world.firings)
        if timer.desc == number and side in timer.covers and timer.sequence == desc.sequences[at(timer.side)]
    ]
    return [timer.when for timer in current].count(desc.deadlines[at(side)]) == 1


def broken(world: World) -> Iterator[str]:
    """The laws that don't hold in a world."""
    for status in world.goroutines:
        if status[0] in ("parking", "parked"):
            desc, side = world.descs[status[1]], status[2]
            is_waited_on = desc.words[at(side)] == "wait" or isinstance(desc.words[at(side)], int)
            if is_waited_on and polling.check(desc, side) not in (0, 3 if side == "r" else 0):
                yield "awake"
    for number, desc in enumerate(world.descs):
        for side in "rw":
            if not desc.closing and desc.deadlines[at(side)] > 0 and not has_timer(world, number, side):
                yield "timed"
    if invariants.breaches(world):
        yield "fits"


def search(last: int, most: int | None = None, wanted: set[str] | None = None) -> tuple[int, set[str]]:
    """The number of worlds up to a time, and the laws that some of them break. The search ends early at `most` worlds, or when the
    `wanted` laws are broken."""
    world = World(LIMITS)
    for step in (("spawn",), ("spawn",), ("sockopen", 1, 1)):
        world, _ = steps.apply(world, step)
    seen, todo, found = {numbered(world)}, [numbered(world)], set[str]()
    while todo and (most is None or len(seen) < most) and (wanted is None or not wanted <= found):
        world = todo.pop()
        for step in possible(world, last):
            try:
                after, _ = steps.apply(world, step)
            except StepRefusedError:
                continue
            after = numbered(after)
            if after not in seen:
                seen.add(after)
                todo.append(after)
                found.update(broken(after))
    return len(seen), found


def instead(name: str, made: Callable[[Any], Any]) -> Wrong:
    """A machine in which another function is in place of one of `polling`, made from it."""
    return lambda patch: patch.setattr(polling, name, made(getattr(polling, name)))


def at_step(kind: str, made: Callable[[Any], Any]) -> Wrong:
    """A machine in which a kind of step does something else."""
    return lambda patch: patch.setitem(steps.OF_KIND, kind, made(steps.OF_KIND[kind]))


def keeping(sides: str) -> Callable[[Any], Any]:
    """A function as it is, except that meanwhile these sides' words stay, and no goroutine wakes."""

    def made(right: Any) -> Any:
        def wrong(*words: Any) -> Any:
            unblock = polling.unblock
            with pytest.MonkeyPatch.context() as patch:
                patch.setattr(
                    polling, "unblock",
                    lambda world, desc, side, ready: (
                        world if side in sides and not ready else unblock(world, desc, side, ready)
                    ),
                )  # fmt: skip
                return right(*words)

        return wrong

    return made


def parked(world: World, goroutine: int) -> Any:
    """Parks a goroutine without a look at the word."""
    desc, side = steps.within(world, goroutine, "parking")
    world = polling.with_word(world, desc, side, goroutine)._replace(waiters=world.waiters + 1)
    return world.with_status(goroutine, ("parked", desc, side)), ("yes",)


def unchecked(world: World, goroutine: int) -> Any:
    desc, side = steps.within(world, goroutine, "armed")
    return world.with_status(goroutine, ("parking", desc, side)), ("code", 0)


def closing_alone(world: World, goroutine: int) -> Any:
    desc, side = steps.within(world, goroutine, "armed")
    code = polling.check(world.descs[desc], side)
    return world.with_status(goroutine, ("swapping" if code == 1 else "parking", desc, side)), ("code", code)


def reopened_with(field: str) -> Wrong:
    """A machine in which a descriptor keeps a field when it is opened again."""

    def made(right: Any) -> Any:
        def wrong(world: World, socket: int) -> Any:
            after, number = right(world, socket)
            old: Desc | None = world.descs[number] if number < len(world.descs) else None
            return (after.with_desc(number, **{field: getattr(old, field)}) if old else after), number

        return wrong

    return instead("opened", made)


def parked_in_nil(right: Any) -> Any:
    def wrong(world: World, goroutine: int) -> Any:
        desc, side = steps.within(world, goroutine, "parking")
        return parked(world, goroutine) if world.descs[desc].words[at(side)] == "nil" else right(world, goroutine)

    return wrong


def leaves_wait(right: Any) -> Any:
    return lambda world, desc, side, ready: (
        world if world.descs[desc].words[at(side)] == "wait" and not ready else right(world, desc, side, ready)
    )


def leaves_running(right: Any) -> Any:
    def wrong(world: World, desc: int, side: str, before: Any) -> Any:
        is_running = world.descs[desc].running[at(side)] and world.descs[desc].deadlines[at(side)] > 0
        return world if is_running else right(world, desc, side, before)

    return wrong


def fires_stale(_: Any) -> Any:
    def wrong(world: World, firing: Timer) -> Any:
        for side in firing.covers:
            deadlines = put(world.descs[firing.desc].deadlines, at(side), -1)
            world = polling.unblock(world.with_desc(firing.desc, deadlines=deadlines), firing.desc, side, False)
        return world

    return wrong


def fires_read_alone(right: Any) -> Any:
    def wrong(world: World, firing: Timer) -> Any:
        if right(world, firing) is None or firing.covers != "rw":
            return right(world, firing)
        deadlines = put(world.descs[firing.desc].deadlines, 0, -1)
        return polling.unblock(world.with_desc(firing.desc, deadlines=deadlines), firing.desc, "r", False)

    return wrong


def loses(right: Any) -> Any:
    return lambda world: (right(world)[0]._replace(firings=world.firings), right(world)[1])


WRONG: dict[str, tuple[Wrong, set[str]]] = {
    "evict leaves the word for writing": (instead("evicted", keeping("w")), {"awake"}),
    "evict leaves both words": (instead("evicted", keeping("rw")), {"awake"}),
    "setdeadline to the past leaves the word for writing": (instead("set_deadline", keeping("w")), {"awake"}),
    "setdeadline to the past leaves both words": (instead("set_deadline", keeping("rw")), {"awake"}),
    "fire leaves the words": (instead("fired", keeping("rw")), {"awake"}),
    "fire of a timer for both leaves the write side": (instead("fired", fires_read_alone), {"timed"}),
    "parkcommit parks in any word": (at_step("parkcommit", lambda _: parked), {"awake"}),
    "parkcommit parks in nil too": (at_step("parkcommit", parked_in_nil), {"awake"}),
    "unblock leaves a word `wait`": (instead("unblock", leaves_wait), {"awake"}),
    "a running timer isn't moved": (instead("follow", leaves_running), {"timed", "fits"}),
    "stale firings run": (instead("fired", fires_stale), {"timed", "fits"}),
    "blockcheck doesn't check": (at_step("blockcheck", lambda _: unchecked), {"awake"}),
    "blockcheck sees only closing": (at_step("blockcheck", lambda _: closing_alone), {"awake"}),
    "setdeadline adjusts the read timer alone": (
        instead("follow", lambda right: lambda world, desc, side, before: world if side == "w" else right(world, desc, side, before)),
        {"timed"},
    ),
    "pop loses the firing": (at_step("pop", loses), {"timed"}),
    "pollopen keeps the deadlines": (reopened_with("deadlines"), {"timed"}),
    "evict stops no timer": (instead("evicted", lambda right: lambda world, desc: right(world, desc)._replace(timers=world.timers)), {"fits"}),
}  # fmt: skip


def test_the_machine_breaks_no_law() -> None:
    worlds, found = search(last=0)
    assert (worlds > 7_000, found) == (True, set())


@pytest.mark.parametrize("name", WRONG)
def test_a_wrong_machine_breaks_a_law(name: str, monkeypatch: pytest.MonkeyPatch) -> None:
    wrong, laws = WRONG[name]
    wrong(monkeypatch)
    assert laws <= search(1, SOME, laws)[1]


if __name__ == "__main__":
    print(search(int(sys.argv[1]) if sys.argv[1:] else 1))
