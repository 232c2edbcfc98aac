"""The wait-for graph at the end of a recording: each waiting goroutine, the goroutine for which it waits, and the
roots at which the chains of waits end. If several goroutines could end a wait, the graph has only one of them."""

from collections import defaultdict
from collections.abc import Callable, Hashable, Iterable, Iterator
from functools import lru_cache
from typing import NamedTuple

from netrev.findings.evidence.call_words import name_of, place_in
from netrev.findings.evidence.deadlines_ahead import deadline_ahead
from netrev.findings.evidence.need import Certainty, Need
from netrev.findings.evidence.waiters import Waiter, waiters_at
from netrev.recording.call import Call
from netrev.recording.goroutines import A_CONDITION, MUTEXES
from netrev.recording.recording import Recording
from netrev.recording.waits import Name, name_of_goid, waits_of
from netrev.run.index import MOVING, READING, run_of

from .needs import Needs

# Waits that may be normal because the goroutine has nothing to do.
QUIET = ("a select", "a value from a channel", "a condition", "a select without cases")


DEEP = 16  # the maximum number of levels in a tree
MAIN = 1  # Go's own number of the main goroutine


class Edge(NamedTuple):
    """An edge of the graph: a goroutine that waits for another."""

    waiter: Name
    on: Name
    certainty: Certainty


class WaitBranch(NamedTuple):
    """Goroutines that wait in the same way: the goroutines, the need of the first, the goroutines for which they wait,
    and the branches that wait for them."""

    waiters: list[Waiter]
    need: Need
    on: list[Name]
    branches: "list[WaitBranch]"


class Hang(NamedTuple):
    """A root of the graph: a goroutine for which others wait, or goroutines that wait for one another. `needs` has
    their needs, `waiting` is the number of goroutines that wait for the root, and `perhaps` is how many of these waits
    are uncertain. `alike` are similar roots, and `beside` are other roots that wait for the same ended goroutine.
    `is_loose` means that it isn't known which root waits for which. If a root's call has a deadline that will end the
    wait, `until` is that call."""

    roots: list[Waiter]
    needs: list[Need]
    branches: list[WaitBranch]
    waiting: int = 0
    perhaps: int = 0
    certainty: Certainty = Certainty.KNOWN
    alike: list[Waiter] = []
    beside: list[Waiter] = []
    is_loose: bool = False
    until: Call | None = None

    @property
    def root(self) -> Waiter:
        """The first of the goroutines that wait for one another, or the root itself."""
        return self.roots[0]

    @property
    def every_root(self) -> list[Waiter]:
        """The roots of this hang, with those in `alike` and `beside`."""
        return [*self.roots, *self.alike, *self.beside]

    @property
    def is_deadlock(self) -> bool:
        """Whether goroutines wait for one another."""
        return len(self.roots) > 1

    @property
    def is_of_mutexes(self) -> bool:
        """Whether each of the hang's roots waits for a mutex."""
        return all(is_at_mutex(root) for root in self.roots)

    @property
    def has_reason(self) -> bool:
        """Whether the reason for the hang is known: the roots hold mutexes, or it is known why they don't get what they
        need. A channel that isn't closed doesn't count, because a goroutine that takes values may just have nothing to
        do."""
        need, wait = self.needs[0], self.root.wait
        if self.is_deadlock:
            return self.is_of_mutexes or any(reason.more and not reason.is_plain for reason in self.needs)
        idles = wait is not None and wait.kind in QUIET and wait.kind != A_CONDITION
        return need.is_odd or bool(need.gone or need.ended or (wait and need.says) or (need.more and not idles))

    @property
    def is_of_go(self) -> bool:
        """Whether only Go's own code waits in this hang, as in idle connections of net/http."""
        return all(waiter.is_of_go for waiter in waiters_of(self))

    @property
    def is_quiet(self) -> bool:
        """Whether the hang's goroutine may simply have nothing to do: it is in a read or a select, or waits for a value
        from a channel, and no goroutine waits for it."""
        call, wait = self.root.call, self.root.wait
        reads = call is not None and call.name in READING and not call.is_asking
        idles = wait is not None and wait.kind in QUIET
        is_alone = not self.waiting and not self.is_deadlock and not self.beside
        return is_alone and (reads or idles) and not self.needs[0].is_odd


class WaitGraph:
    """The graph at a position: the waiters, their needs, the edges, and the hangs in order."""

    def __init__(self, recording: Recording, position: int) -> None:
        index = run_of(recording)
        self.recording, self.position = recording, position
        self.waiters = waiters_at(index, position)
        needs = Needs(index, self.waiters, position)
        self.needs = {name: needs.of(waiter) for name, waiter in self.waiters.items()}
        self.edges = {
            name: Edge(name, need.by, need.certainty)
            for name, need in self.needs.items()
            if need.by is not None and need.by != name and need.by in self.waiters and not self._is_idle(name, need.by)
        }
        self._behind: dict[Name, list[Name]] = defaultdict(list)
        for edge in self.edges.values():
            self._behind[edge.on].append(edge.waiter)
        self.hangs = self._hangs()
        self.idle = sum(len(list(waiters_of(hang))) for hang in self.hangs if hang.is_of_go)

    @property
    def shown(self) -> list[Hang]:
        """The hangs, except hangs of Go's own code alone."""
        return [hang for hang in self.hangs if not hang.is_of_go]

    @property
    def count(self) -> int:
        """The number of goroutines that hang. Goroutines that may have nothing to do don't count."""
        return sum(len(hang.every_root) + hang.waiting for hang in self.shown if not hang.is_quiet)

    @property
    def main(self) -> Name | None:
        """The main goroutine, if known."""
        return name_of_goid(self.recording.lines, MAIN) if MAIN in self.recording.lines.goroutines else None

    @property
    def has_ended(self) -> bool:
        """Whether, as far as known, the program ended by itself: its main goroutine was neither in a call nor in a wait
        at the end."""
        if self.main is None or self.position < self.recording.length:
            return False
        return self.main not in self.waiters and waits_of(self.recording).at(self.main, self.position) is None

    def _is_idle(self, name: Name, by: Name) -> bool:
        """Whether a goroutine that has answered the last request reads from a connection that the other end perhaps no
        longer uses. At that end, goroutine `by` made the last Write, and now it waits for a connection, because
        finished calls have kept theirs."""
        call = self.waiters[name].call
        if call is None or call.name not in READING or not self.needs[by].is_kept:
            return False
        index = run_of(self.recording)
        before = [
            transfer
            for transfer in index.by_socket[call.socket]
            if transfer.last and transfer.moved and transfer.name in MOVING
        ]
        has_answered = bool(before) and before[-1].name == "Write" and before[-1].goroutine == call.goroutine
        return has_answered and before[0].name == "Read" and self.needs[name].certainty > Certainty.PERHAPS

    def _hangs(self) -> list[Hang]:
        found = [self._ring(ring) for ring in self._rings()]
        alike: dict[Hashable, list[Waiter]] = defaultdict(list)
        for name, waiter in self.waiters.items():
            if name not in self.edges:
                alike[self._cause_of_root(waiter)].append(waiter)
        for some in alike.values():
            first, *others = sorted(some, key=lambda waiter: waiter.since)
            found.append(self._hang([first], others))
        return sorted(found, key=order)

    def _cause_of_root(self, waiter: Waiter) -> Hashable:
        """The key of a root; roots with the same key form one hang. If the root waits for an ended goroutine, the key
        is that goroutine. Otherwise the key consists of the root's line, what the root waits for, and `need.how`. If
        the root's stack is unknown, the key is the root itself."""
        need = self.needs[waiter.name]
        if need.gone:
            return need.gone
        return (kind_of(self.recording, waiter), need.how) if waiter.stack.calls else waiter.name

    def _ring(self, ring: list[Name]) -> Hang:
        """The hang in which goroutines wait for one another. If all of these goroutines wait for mutexes, other
        goroutines may belong to the hang too. Each of these waits at a mutex for a goroutine of the hang, and perhaps
        holds a mutex that a goroutine of the hang needs."""
        every = list(ring) if all(is_at_mutex(self.waiters[name]) for name in ring) else []
        for name in every:
            others = [other for other in self.needs[name].others if other not in every and other in self.edges]
            every += [other for other in others if is_at_mutex(self.waiters[other]) and self.edges[other].on in every]
        hang, index = self._hang([self.waiters[name] for name in every or ring], []), run_of(self.recording)
        calls = [root.call for root in hang.roots if root.call]
        timed = next((call for call in calls if deadline_ahead(index, call, self.position)), None)
        return hang._replace(is_loose=len(every) > len(ring), until=timed)

    def _rings(self) -> list[list[Name]]:
        """The cycles of the graph, each once."""
        rings, seen = [], set[Name]()
        for name in self.edges:
            path: dict[Name, None] = {}
            at: Name | None = name
            while at is not None and at not in path and at not in seen:
                path[at] = None
                at = self.edges[at].on if at in self.edges else None
            if at in path:
                chain = list(path)
                ring = chain[chain.index(at) :]
                first = min(range(len(ring)), key=lambda number: self.waiters[ring[number]].since)
                rings.append(ring[first:] + ring[:first])
            seen.update(path)
        return rings

    def _hang(self, roots: list[Waiter], others: list[Waiter]) -> Hang:
        names = [waiter.name for waiter in roots]
        every = [*names, *(waiter.name for waiter in others)]
        branches = self._branches(every, set(every))
        count = count_of(branches, lambda branch: True)
        sure = count_of(branches, lambda branch: branch.need.certainty > Certainty.PERHAPS)
        certainty = min((self.edges[name].certainty for name in names if len(names) > 1), default=Certainty.KNOWN)
        needs = [self.needs[name] for name in names]
        kind = kind_of(self.recording, roots[0])
        alike = [waiter for waiter in others if kind_of(self.recording, waiter) == kind]
        beside = [waiter for waiter in others if kind_of(self.recording, waiter) != kind]
        return Hang(roots, needs, branches, count, count - sure, certainty, alike, beside)

    def _branches(self, names: list[Name], seen: set[Name], depth: int = 0) -> list[WaitBranch]:
        """The branches that wait for these goroutines, most certain first. Equal branches are merged. Below a certain
        depth, the rest form one level."""
        alike: dict[Hashable, list[Name]] = defaultdict(list)
        upcoming = list(names)
        while upcoming:
            for name in self._behind.get(upcoming.pop(0), ()):
                if name not in seen:
                    seen.add(name)
                    alike[self._likeness(name)].append(name)
                    upcoming += [name] if depth == DEEP else []
        branches = [self._branch(some, seen, depth) for some in alike.values()]
        return sorted(branches, key=lambda branch: -branch.need.certainty)

    def _branch(self, names: list[Name], seen: set[Name], depth: int) -> WaitBranch:
        waiters, on = [self.waiters[name] for name in names], [self.edges[name].on for name in names]
        behind = self._branches(names, seen, depth + 1) if depth < DEEP else []
        return WaitBranch(waiters, self.needs[names[0]], on, behind)

    def _likeness(self, name: Name) -> Hashable:
        need = self.needs[name]
        return kind_of(self.recording, self.waiters[name]), need.how, need.certainty


def kind_of(recording: Recording, waiter: Waiter) -> tuple[str, str, int]:
    """The line at which a waiter waits, and what the waiter waits for. Waiters that agree in both are alike."""
    what = name_of(recording, waiter.call) if waiter.call else ""
    return place_in(waiter.stack), waiter.wait.kind if waiter.wait else what, mutex_of(waiter)


def is_at_mutex(waiter: Waiter) -> bool:
    """Whether a goroutine waits for a mutex."""
    return waiter.wait is not None and waiter.wait.kind in MUTEXES


def mutex_of(waiter: Waiter) -> int:
    """The number of the mutex that a goroutine waits for; 0 if the goroutine waits for something else, or if
    unknown."""
    wait = waiter.wait
    return wait.objects[0].object if wait and wait.objects and wait.kind in MUTEXES else 0


def count_of(branches: Iterable[WaitBranch], is_meant: Callable[[WaitBranch], bool]) -> int:
    """The number of goroutines that wait in the branches that a test accepts. Branches below a rejected branch don't
    count."""
    return sum(len(branch.waiters) + count_of(branch.branches, is_meant) for branch in branches if is_meant(branch))


def waiters_of(hang: Hang) -> Iterator[Waiter]:
    """All goroutines of a hang."""
    yield from hang.every_root
    branches = list(hang.branches)
    while branches:
        branch = branches.pop()
        yield from branch.waiters
        branches += branch.branches


def order(hang: Hang) -> tuple[bool, bool, int, int, int]:
    """The sort key of hangs. Hangs of Go's own code come last, and before them the hangs of goroutines that may have
    nothing to do. All others are ordered by rank: certain deadlocks, hangs with a known reason, Reads that certainly
    wait for one another, other hangs. Equal ranks are ordered by the number of waiters."""
    is_certain = hang.is_deadlock and hang.certainty > Certainty.PERHAPS and not hang.until
    are_reads = all(root.call and root.call.name in READING for root in hang.roots)
    has_reason = hang.has_reason and (hang.is_deadlock or hang.waiting > 0 or hang.needs[0].is_odd)
    rank = 0 if is_certain and (has_reason or not are_reads) else 1 if has_reason else 2 if is_certain else 3
    return hang.is_of_go, hang.is_quiet, rank, -hang.waiting, hang.root.since


@lru_cache(maxsize=4)
def graph_at(recording: Recording, position: int) -> WaitGraph:
    """The graph of a recording at a position."""
    return WaitGraph(recording, position)
