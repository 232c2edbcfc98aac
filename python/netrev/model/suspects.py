"""The output of `netrev suspects` for a recording, following the definitions in docs/reference/COMMANDS.md word for
word: each definition is checked against all steps, and the states before and after each step. This takes quadratic
time, so it is meant for short recordings.

    passed deadline  a `fire` that lets the deadline of a side pass, and the `setdeadline` that set the deadline
    timeout          a check that is answered `code 2` and ends a call, and the `setdeadline` that set the deadline
    taken back       a `setdeadline` of a side whose deadline has passed, before the woken goroutine has checked
    lost wake-up     a goroutine that is parked at a side, although no try was answered EAGAIN after the side's last event
    asleep           a goroutine that is parked at a side, although a check would end its wait or its socket is ready
    held reference   a goroutine that took more references of a closed socket than it gave back

Each line has one finding. Findings about deadlines come step by step; the other findings are about the last position.
"""

from collections.abc import Iterator, Sequence
from typing import NamedTuple

from netrev.machine.machine import GONE, SIDES, World, at
from netrev.machine.observer import Observer
from netrev.machine.replay import positions
from netrev.text.contents import Answer, Step
from netrev.text.parser import FaultError, read_text

PASSED_DEADLINE, TIMEOUT, TAKEN_BACK = "passed-deadline", "timeout", "taken-back"
LOST_WAKE_UP, ASLEEP, HELD_REFERENCE = "lost-wakeup", "asleep", "held-reference"
HUNTS = (PASSED_DEADLINE, TIMEOUT, TAKEN_BACK, LOST_WAKE_UP, ASLEEP, HELD_REFERENCE)
TRIES = {"r": "sysread", "w": "syswrite"}
TAKES_READINESS = ("pollreset", "blockarm", "blockswap")
NAMES_ITS_SIDE = ("pollreset", "waitbegin")
EXPIRED = ("code", 2)
TAKES_A_REFERENCE, GIVES_A_REFERENCE = ("incref", "increfclose", "rwlock"), ("decref", "rwunlock")


class ReplayedStates(NamedTuple):
    """The steps of a recording, their answers, and the states: the state of position n is the state after step n."""

    steps: Sequence[Step]
    answers: Sequence[Answer]
    worlds: Sequence[World]

    @property
    def end(self) -> int:
        return len(self.steps)

    def step(self, n: int) -> Step:
        """Step n, from 1."""
        return self.steps[n - 1]

    def has(self, n: int, kind: str, answer: str) -> bool:
        """Whether step n is of this kind and has this answer."""
        return self.step(n)[0] == kind and self.answers[n - 1][0] == answer

    def between(self, before: int, until: int) -> range:
        """The steps after the first of these steps and before the second."""
        return range(before + 1, until)


def suspects(recording: bytes, observer: Observer, hunts: Sequence[str] = HUNTS) -> tuple[list[str], bool]:
    """The lines, and whether the recording is free of faults; raises DoubtfulNumberError if the model can't decide. If
    there is a fault, it is the only line."""
    try:
        text = read_text(recording)
        reached = list(positions(text, observer))
    except FaultError as fault:
        observer.printed(str(fault))
        return [str(fault)], False
    worlds, answers = zip(*reached)
    return [*suspect_lines(ReplayedStates(text.steps, answers[1:], worlds), hunts), f"ok {len(text.steps)} steps"], True


def suspect_lines(replayed: ReplayedStates, hunts: Sequence[str] = HUNTS) -> list[str]:
    """The lines of these hunts, without the final line."""
    at_the_end = (*lost_wake_ups(replayed), *asleep(replayed), *held_references(replayed))
    lines = [*outcomes_of_deadlines(replayed), *at_the_end]
    return [line for line in lines if line.split()[2] in hunts]


# deadlines


def outcomes_of_deadlines(replayed: ReplayedStates) -> Iterator[str]:
    """The findings about deadlines, step by step, with reading before writing."""
    for n in range(1, replayed.end + 1):
        yield from passed_deadlines(replayed, n)
        yield from timeouts(replayed, n)
        yield from taken_back(replayed, n)


def passed_deadlines(replayed: ReplayedStates, n: int) -> Iterator[str]:
    """Step n, if it is a `fire` with the answer `done` and sets a deadline to -1."""
    for d, side in passings(replayed, n):
        yield f"at {n} {PASSED_DEADLINE} {setting(replayed, n, d, side)}"


def passings(replayed: ReplayedStates, n: int) -> Iterator[tuple[int, str]]:
    """The sides whose deadlines pass in step n."""
    if replayed.has(n, "fire", "done"):
        for d, desc in enumerate(replayed.worlds[n].descs):
            for side in SIDES:
                before = replayed.worlds[n - 1].descs[d].deadlines[at(side)]
                if desc.deadlines[at(side)] == -1 and before != -1:
                    yield d, side


def timeouts(replayed: ReplayedStates, n: int) -> Iterator[str]:
    """Step n, if it is a check answered `code 2` that ends a call."""
    place = checked(replayed, n)
    if place is not None and replayed.answers[n - 1] == EXPIRED:
        g, d, side = place
        yield f"at {n} {TIMEOUT} gor {g} {setting(replayed, n, d, side)}"


def checked(replayed: ReplayedStates, n: int) -> tuple[int, int, str] | None:
    """The goroutine, the descriptor and the side of step n, if it is a reset, the beginning of a wait, or the last
    check of a wait."""
    kind, *arguments = replayed.step(n)
    if kind in NAMES_ITS_SIDE:
        g, d, side = arguments
        return g, d, side
    if kind == "waitcheck":
        _, d, side = replayed.worlds[n - 1].goroutines[arguments[0]]
        return arguments[0], d, side
    return None


def taken_back(replayed: ReplayedStates, n: int) -> Iterator[str]:
    """A line for each side whose deadline is set by step n, if the side's previous deadline has passed and woken a
    goroutine, and this goroutine hasn't checked yet."""
    if replayed.step(n)[0] == "setdeadline":
        _, _, d, mode, _ = replayed.step(n)
        for side in SIDES:
            g = woken(replayed, n, d, side) if side in mode else None
            if g is not None:
                yield f"at {n} {TAKEN_BACK} gor {g} {setting(replayed, n, d, side)}"


def woken(replayed: ReplayedStates, until: int, d: int, side: str) -> int | None:
    """The goroutine that was parked at a side when the side's deadline last passed before a step. None if, between the
    two, the deadline was set, the descriptor was opened, or the goroutine checked."""
    passed = [n for n in replayed.between(0, until) if (d, side) in passings(replayed, n)]
    if (
        not passed
        or last_opening(replayed, d, until) > passed[-1]
        or last_setting(replayed, until, d, side) > passed[-1]
    ):
        return None
    g = replayed.worlds[passed[-1] - 1].descs[d].words[at(side)]
    if not isinstance(g, int) or any(looked(replayed, n, g, d, side) for n in replayed.between(passed[-1], until)):
        return None
    return g


def looked(replayed: ReplayedStates, n: int, g: int, d: int, side: str) -> bool:
    """Whether goroutine g, in step n, checked a side or consumed the side's readiness."""
    if checked(replayed, n) == (g, d, side):
        return True
    return replayed.step(n)[0] in TAKES_READINESS and replayed.step(n)[1] == g and takes(replayed, n, d, side)


def setting(replayed: ReplayedStates, until: int, d: int, side: str) -> str:
    """The last step that set a side's deadline before this step, and the first later step that set only the other
    side's."""
    other = "w" if side == "r" else "r"
    set_at = last_setting(replayed, until, d, side)
    _, g, _, mode, _ = replayed.step(set_at)
    line = f"desc {d} {side} set {set_at} by {g} {mode}"
    for n in replayed.between(set_at, until):
        if is_setting(replayed, n, d) and replayed.step(n)[3] == other:
            return f"{line} moved {n} by {replayed.step(n)[1]}"
    return line


def last_setting(replayed: ReplayedStates, until: int, d: int, side: str) -> int:
    """The last step before this one that set a side's deadline; 0 if there is none."""
    settings = (n for n in replayed.between(0, until) if is_setting(replayed, n, d))
    return max((n for n in settings if side in replayed.step(n)[3]), default=0)


def is_setting(replayed: ReplayedStates, n: int, d: int) -> bool:
    """Whether step n is a `setdeadline` of a descriptor, answered `done`."""
    return replayed.has(n, "setdeadline", "done") and replayed.step(n)[2] == d


# lost wake-ups


def lost_wake_ups(replayed: ReplayedStates) -> Iterator[str]:
    """A line for each goroutine that is parked at the end of the recording, if no try at its side was answered
    `again` after the side's last event."""
    for d, desc in enumerate(replayed.worlds[replayed.end].descs):
        for side in SIDES:
            parked, event = desc.words[at(side)], owed(replayed, d, side)
            if isinstance(parked, int) and event is not None:
                taken = last_taking(replayed, d, side, event)
                gor = f"gor {parked} desc {d} {side} event {event}"
                yield f"at {replayed.end} {LOST_WAKE_UP} {gor} taken {taken} by {replayed.step(taken)[1]}"


def owed(replayed: ReplayedStates, d: int, side: str) -> int | None:
    """The last event of a side. None if, after the event, the descriptor was opened or a try at that side was answered
    `again`."""
    events = [n for n in range(1, replayed.end + 1) if is_event(replayed, n, d, side)]
    opened = last_opening(replayed, d, replayed.end + 1)
    if not events or events[-1] < opened:
        return None
    _, _, socket = replayed.step(opened)
    tries = (n for n in replayed.between(events[-1], replayed.end + 1) if replayed.has(n, TRIES[side], "again"))
    return None if any(replayed.step(n)[2] == socket for n in tries) else events[-1]


def is_event(replayed: ReplayedStates, n: int, d: int, side: str) -> bool:
    """Whether step n is an event of a descriptor, answered `done`, whose mode includes the side."""
    step = replayed.step(n)
    return replayed.has(n, "pollevent", "done") and step[1] == d and side in step[3]


def last_opening(replayed: ReplayedStates, d: int, until: int) -> int:
    """The last `pollopen` before a step that was answered with this descriptor."""
    openings = (n for n in replayed.between(0, until) if replayed.has(n, "pollopen", "number"))
    return max(n for n in openings if replayed.answers[n - 1][1] == d)


def last_taking(replayed: ReplayedStates, d: int, side: str, event: int) -> int:
    """The last step that consumed a side's readiness after the given event."""
    taking = (n for n in replayed.between(event, replayed.end + 1) if replayed.step(n)[0] in TAKES_READINESS)
    return max(n for n in taking if takes(replayed, n, d, side))


def takes(replayed: ReplayedStates, n: int, d: int, side: str) -> bool:
    """Whether the word of a side was ready before step n, and isn't after it."""
    before, after = (replayed.worlds[position].descs[d].words[at(side)] for position in (n - 1, n))
    return before == "ready" and after != "ready"


# goroutines that sleep although a check would end their wait or their socket is ready


def asleep(replayed: ReplayedStates) -> Iterator[str]:
    """Each goroutine that is parked when the recording ends although its side needn't wait."""
    world = replayed.worlds[replayed.end]
    for d, desc in enumerate(world.descs):
        for side in SIDES:
            parked, reasons = desc.words[at(side)], reasons_to_answer(world, d, side)
            if isinstance(parked, int) and reasons:
                yield f"at {replayed.end} {ASLEEP} gor {parked} desc {d} {side} because {reasons[0]}"


def reasons_to_answer(world: World, d: int, side: str) -> list[str]:
    """The reasons why a side needn't wait: the result of a check first, then the state of its socket."""
    desc, socket = world.descs[d], world.sockets[world.descs[d].socket]
    reads = side == "r"
    holds = {
        "closing": desc.closing,
        "deadline": desc.deadlines[at(side)] < 0,
        "error": reads and desc.error,
        "bytes": reads and len(socket.buffers[0]) > 0,
        "end": reads and socket.peer_closed,
        "shut": not reads and socket.shut,
        "room": not reads and len(socket.buffers[1]) < socket.capacities[1],
    }
    return [reason for reason, is_so in holds.items() if is_so]


# held references


def held_references(replayed: ReplayedStates) -> Iterator[str]:
    """Each goroutine that still holds references to a closed socket at the end of the recording."""
    world = replayed.worlds[replayed.end]
    for s, socket in enumerate(world.sockets):
        if socket.lock.number & 1 and socket.lock.references >= 1:
            for g, status in enumerate(world.goroutines):
                own = [n for n in range(1, replayed.end + 1) if moved(replayed, n, s) and replayed.step(n)[1] == g]
                count = sum(moved(replayed, n, s) for n in own)
                if count > 0:
                    last = max(n for n in own if moved(replayed, n, s) == 1)
                    gone = " gone" if status == GONE else ""
                    yield f"at {replayed.end} {HELD_REFERENCE} sock {s} gor {g} count {count} since {last}{gone}"


def moved(replayed: ReplayedStates, n: int, s: int) -> int:
    """1 if step n took a reference to a socket, -1 if it gave one back, else 0."""
    kind, *arguments = replayed.step(n)
    if kind in TAKES_A_REFERENCE and arguments[1] == s:
        return int(replayed.answers[n - 1] == ("yes",))
    return -1 if kind in GIVES_A_REFERENCE and arguments[1] == s else 0
