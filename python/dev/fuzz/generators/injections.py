"""Makes random traffic over connections, without a bug or with a bug at a random place, to measure `info suspects`:

    python3 -m dev.fuzz.generators.injections FIRST LAST

runs each bug with these seeds, and prints the table.
"""

import sys
from collections.abc import Callable
from enum import Enum
from typing import Any, NamedTuple

from netrev.findings.suspects.ranking import suspects_of
from netrev.findings.suspects.suspect import Suspect
from netrev.recording.recording import Recording
from netrev.text.contents import Limits

from .little_go import LittleProgram, Turns

LIMITS = Limits(gor=1500, sock=120, desc=10, buf=64)
LETTERS = range(ord("a"), ord("z") + 1)
BOTH, OWN_SIDE, RAW, CANCELS = range(4)  # how a connection uses deadlines; with any greater number, it sets none


class Bug(Enum):
    """The planted bug, as text."""

    RELEASE = "a release never comes"
    IDLE = "an idle goroutine keeps a reference"
    GONE = "an ended goroutine keeps a reference"
    NO_EVENT = "an event is lost"
    OLD_TAG = "an event comes with an old tag"
    TAKEN_BACK = "a passed deadline is removed at once"
    NO_TRY = "a wait without a try"
    LEFT_BEHIND = "a deadline is left behind"
    LOCK = "a read lock is never released"
    NOT_EVICTED = "closed and never evicted"


RULES = {
    Bug.RELEASE: {"missed release"},
    Bug.IDLE: {"leaked reference"},
    Bug.GONE: {"leaked reference"},
    Bug.NO_EVENT: {"no event"},
    Bug.OLD_TAG: {"stale event"},
    Bug.TAKEN_BACK: {"deadline taken back too soon"},
    Bug.NO_TRY: {"lost wake-up"},
    Bug.LEFT_BEHIND: {"deadline left behind"},
    Bug.LOCK: {"lock held", "leaked reference"},
    Bug.NOT_EVICTED: {"close without evict"},
}
HANGING = (
    Bug.NO_EVENT,
    Bug.OLD_TAG,
    Bug.NO_TRY,
    Bug.TAKEN_BACK,
)  # bugs whose symptom is a goroutine that hangs at the end


class Planted(NamedTuple):
    """The place of a planted bug: its goroutine, socket and descriptor, if it has them."""

    socket: int
    goroutine: int | None = None
    descriptor: int | None = None

    def is_of(self, suspect: Suspect) -> bool:
        """Whether a suspect is about the planted bug."""
        pairs = zip(self, (suspect.socket, suspect.goroutine, suspect.descriptor))
        return all(None in pair or pair[0] == pair[1] for pair in pairs)


class Traffic(LittleProgram):
    """Connections with goroutines that read, write, control and close them."""

    def __init__(self, seed: int, bug: Bug | None, length: int = 3_000):
        super().__init__(seed, LIMITS)
        self.bug, self.length = bug, length
        self.begins = length * (0.3 + 0.4 * self.dice.random())
        self.planted: list[Planted] = []
        self.passed: set[Planted] = set()  # connections with a leftover deadline that has passed
        self.busy: dict[int, int] = {}  # for each connection the number of readers and writers
        self.muted: set[int] = set()  # sockets at which nothing arrives any more
        self.fed: set[int] = set()

    def is_due(self, bug: Bug) -> bool:
        """Whether that bug should be planted now. Each bug is planted once."""
        return self.bug is bug and not self.planted and len(self.steps) > self.begins

    def plant(self, socket: int, goroutine: int | None = None, descriptor: int | None = None) -> None:
        self.planted.append(Planted(socket, goroutine, descriptor))

    def run(self) -> "Traffic":
        """Runs the program until it has made `length` steps."""
        while len(self.steps) < self.length:
            chance, ready = self.dice.random(), self.ready()
            is_early = len(self.steps) < 0.9 * self.length
            if chance < 0.06 and is_early and len(self.busy) < 8 and len(self.running) < 60:
                if len(self.world.sockets) < 110:
                    self.go(self.connection)
            elif chance < 0.84 and ready:
                self.take_turn(self.dice.choice(ready))
            elif chance < 0.93 and self.busy:
                self.use_network(self.dice.choice(list(self.busy)))
            else:
                self.pass_time(60)
        return self

    def symptom(self) -> bool:
        """Whether the bug was planted and is visible at the end."""
        return any(map(self.shows, self.planted))

    def shows(self, planted: Planted) -> bool:
        """Whether the planted bug is visible at the end: a goroutine hangs although it needn't wait, or a deadline has
        passed. A kept lock or reference is always visible."""
        g, d = planted.goroutine, planted.descriptor
        if self.bug is Bug.LEFT_BEHIND:
            return planted in self.passed
        if self.bug not in HANGING or g is None:
            return True
        is_parked = self.world.goroutines[g][:2] == ("parked", d)
        return is_parked and (self.bug is Bug.TAKEN_BACK or len(self.world.sockets[planted.socket].buffers[0]) > 0)

    # ---- the scheduler, the network and the clock

    def pass_time(self, most: int) -> None:
        super().pass_time(most)
        if self.bug is Bug.LEFT_BEHIND:
            self.passed.update(planted for planted in self.planted if self.has_passed(planted))

    def has_passed(self, planted: Planted) -> bool:
        """Whether the write deadline of the connection has passed."""
        if planted.descriptor is None:
            return False
        descriptor = self.world.descs[planted.descriptor]
        return descriptor.socket == planted.socket and descriptor.deadlines[1] < 0

    def take_turn(self, g: int) -> None:
        status = self.world.goroutines[g]
        if status[0] == "owing" and self.is_due(Bug.RELEASE):
            socket = self.world.sockets[status[1]]
            if not socket.lock.closed and any(socket.queues):
                self.plant(status[1], g)
                self.stopped.add(g)
                return
        self.turn(g)

    def use_network(self, s: int) -> None:
        d = self.descriptors[s]
        socket = self.world.sockets[s]
        if s in self.muted or socket.lock.closed or not self.world.is_open(d):
            return
        if self.dice.random() >= 0.55:
            if held := len(socket.buffers[1]):
                self.drain(s, self.dice.randint(1, held))
        elif len(socket.buffers[0]) <= 40 and not self.loses_event(s, d):
            self.arrive(s, self.letters(11))
            self.fed.add(s)

    def loses_event(self, s: int, d: int) -> bool:
        """Plants a lost event, or an event with an old tag, if a goroutine is parked for it."""
        parked = [g for g in self.world.inside(d, "r") if self.world.goroutines[g][0] == "parked"]
        if not parked or not (self.is_due(Bug.NO_EVENT) or self.is_due(Bug.OLD_TAG)):
            return False
        self.muted.add(s)
        self.do("arrive", s, b"lost")
        if self.bug is Bug.OLD_TAG:
            self.do("pollevent", d, self.world.descs[d].fdseq - 1, "r", 0)
        self.plant(s, parked[0], d)
        return True

    def letters(self, most: int) -> bytes:
        return bytes(self.dice.choice(LETTERS) for _ in range(self.dice.randint(1, most)))

    # ---- what goroutines do

    def connection(self, g: int) -> Turns:
        """Opens a connection, starts the goroutines that use it, and closes it."""
        answer = self.may("sockopen", 64, 40)
        yield
        if not answer:
            return
        s = answer[1]
        while not (opened := self.may("pollopen", g, s)):
            yield
        self.descriptors[s] = d = opened[1]
        self.busy[s] = 0
        yield
        style = self.dice.randrange(5)
        if self.is_due(Bug.LEFT_BEHIND):
            self.plant(s, descriptor=d)
            yield from self.set_deadline(g, s, "rw", 900)
            yield from self.set_deadline(g, s, "r", 0)
        elif style == BOTH:
            yield from self.set_deadline(g, s, "rw", self.dice.randrange(4_000, 90_000))
        self.start_users(s, style)
        for _ in range(self.dice.randrange(20, 60)):
            yield
        if style == CANCELS or self.is_due(Bug.TAKEN_BACK):
            yield from self.cancel_reads(g, s)
        while self.busy[s] > self.dice.randrange(3) and (s in self.muted or self.dice.random() > 0.002):
            yield
        yield from self.close(g, s)

    def start_users(self, s: int, style: int) -> None:
        """Starts the readers, writers and the controller of a connection."""
        for _ in range(self.dice.randint(1, 2)):
            self.go(self.user(s, self.reader, style))
        for _ in range(self.dice.randint(1, 3)):
            self.go(self.user(s, self.writer, style))
        if self.dice.random() < 0.5:
            self.go(lambda g: self.controller(g, s))

    def user(self, s: int, uses: Callable[[int, int, int], Turns], style: int) -> Callable[[int], Turns]:
        """A goroutine that uses a connection. The connection counts as used until the goroutine ends."""

        def body(g: int) -> Turns:
            self.busy[s] += 1
            yield from uses(g, s, style)
            if s in self.busy:
                self.busy[s] -= 1

        return body

    def reader(self, g: int, s: int, style: int) -> Turns:
        for _ in range(self.dice.randrange(3, 14)):
            if style == OWN_SIDE:
                yield from self.set_deadline(g, s, "r", self.dice.randrange(300, 5_000))
            if (style == RAW and self.dice.random() < 0.4) or self.is_due(Bug.NO_TRY):
                if not (yield from self.raw_read(g, s)):
                    return
                continue
            if self.is_due(Bug.LOCK):
                if (yield from self.rwlock(g, s, "r")):
                    self.plant(s, g)
                    self.stopped.add(g)
                    yield
                return
            count = yield from self.read(g, s, 16)
            if count <= 0 and not (count == -2 and style in (OWN_SIDE, CANCELS)):
                return

    def raw_read(self, g: int, s: int) -> Turns:
        """`RawConn.Read`: the program's function tries to read, and returns whether it is done. With the bug, the
        function returns without trying to read."""
        if not (yield from self.rwlock(g, s, "r")):
            return False
        code = yield from self.reset(g, s, "r")
        held = self.world.sockets[s].buffers[0]
        tries = not (code == 0 and held and s in self.fed and self.is_due(Bug.NO_TRY))
        if not tries:
            self.plant(s, g, self.descriptors[s])
            self.muted.add(s)
        while code == 0:
            if tries:
                answer = self.do("sysread", g, s, 8)[0]
                yield
                if answer != "again":
                    break
            tries = True
            code = yield from self.wait(g, s, "r")
        yield from self.rwunlock(g, s, "r")
        return True

    def writer(self, g: int, s: int, style: int) -> Turns:
        for _ in range(self.dice.randrange(1, 8)):
            if style == OWN_SIDE:
                yield from self.set_deadline(g, s, "w", self.dice.randrange(3_000, 20_000))
            if (yield from self.write(g, s, self.letters(29))) < 0:
                return

    def controller(self, g: int, s: int) -> Turns:
        """`RawConn.Control`: holds a reference for a while."""
        for _ in range(self.dice.randint(1, 3)):
            if self.do("incref", g, s)[0] != "yes":
                return (yield)
            yield
            for _ in range(self.dice.randrange(8)):
                yield
            if self.is_due(Bug.GONE):
                return self.plant(s, g)
            if self.is_due(Bug.IDLE):
                self.plant(s, g)
                self.stopped.add(g)
                yield
            yield from self.decref(g, s)

    def cancel_reads(self, g: int, s: int) -> Turns:
        """Sets a deadline in the past to end the reads, and removes it. With the bug, it doesn't wait for the reads to
        end first."""
        d = self.descriptors[s]
        parked = [
            goroutine for goroutine in self.world.inside(d, "r") if self.world.goroutines[goroutine][0] == "parked"
        ]
        if not (parked and self.is_due(Bug.TAKEN_BACK)):
            yield from self.set_deadline(g, s, "r", -1)
            while self.world.inside(d, "r"):
                yield
            return (yield from self.set_deadline(g, s, "r", 0))
        if self.do("incref", g, s)[0] == "yes":
            yield
            parked = [
                goroutine for goroutine in self.world.inside(d, "r") if self.world.goroutines[goroutine][0] == "parked"
            ]
            self.do("setdeadline", g, d, "r", -1)
            if parked:
                self.plant(s, parked[0], d)
                self.muted.add(s)
            self.do("setdeadline", g, d, "r", 0)
            yield
            yield from self.decref(g, s)

    def close(self, g: int, s: int) -> Turns:
        d = self.descriptors[s]
        if self.do("increfclose", g, s)[0] != "yes":
            return (yield)
        yield
        yield from self.goes_on(g)
        if self.is_due(Bug.NOT_EVICTED) and self.world.inside(d, "r"):
            self.plant(s, g, d)
            self.stopped.add(g)
            yield
        self.do("evict", g, d)
        yield
        del self.busy[s]
        yield from self.decref(g, s)


class BugCount(NamedTuple):
    """The counts of a bug: how often it was planted and had a symptom, how often it was listed first, how often it was
    listed at all, and the number of other suspects."""

    shows: int = 0
    first: int = 0
    named: int = 0
    besides: int = 0

    def __add__(self, other: tuple[Any, ...]) -> "BugCount":
        return BugCount(*(count + more for count, more in zip(self, other)))


def judged(traffic: Traffic) -> BugCount:
    """What the rules find in a recording."""
    shown = [suspect for suspect in suspects_of(Recording(traffic.text())).suspects if suspect.is_shown]
    right = [
        traffic.bug is not None
        and suspect.rule in RULES[traffic.bug]
        and any(planted.is_of(suspect) for planted in traffic.planted)
        for suspect in shown
    ]
    return BugCount(int(traffic.symptom()), int(right[:1] == [True]), int(any(right)), right.count(False))


def counted(bug: Bug | None, seeds: range) -> BugCount:
    """The counts of a bug over these seeds: for recordings in which it is visible, or for recordings without a bug."""
    total = BugCount()
    for seed in seeds:
        traffic = Traffic(seed, bug).run()
        if bug is None or traffic.symptom():
            total += judged(traffic)
    return total


def main(words: list[str]) -> None:
    """Prints the table."""
    seeds = range(int(words[0]), int(words[1]))
    print(f"{'planted':<50} {'shows':>6} {'first':>6} {'named':>6} {'besides':>8}")
    for bug in (None, *Bug):
        print(
            f"{bug.value if bug else 'nothing':<50} {' '.join(f'{count:>6}' for count in counted(bug, seeds))}",
            flush=True,
        )


if __name__ == "__main__":
    main(sys.argv[1:])
