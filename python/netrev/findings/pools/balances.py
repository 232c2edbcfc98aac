"""Channels that are used like a pool of connections or a semaphore: a goroutine takes a value and gives it back in the
same function. The module counts how often each goroutine took a value and gave it back, and finds the calls that gave a
value back twice or never."""

from collections import Counter, defaultdict
from operator import attrgetter
from typing import NamedTuple

from netrev.findings.evidence.call_words import short
from netrev.recording.goroutines import PUT, TOOK, ObjectUse
from netrev.recording.recording import Recording
from netrev.recording.waits import Name, name_of_goid
from netrev.recording.where import OF_THE_PROGRAM, SourceCall, Stack
from netrev.text.plurals import counted

DEFERRED = ".deferwrap"  # in the names of functions that run when another ends
BEGIN = attrgetter("begin")
TAKEN_WORDS = {TOOK: ("took", "put", "back"), PUT: ("put", "took", "out again")}
Frames = tuple[SourceCall, ...]
Path = tuple[SourceCall, ...]  # the callers of the function that takes values and gives them back


class ChannelUse(NamedTuple):
    """The place at which a function uses a channel: the line in the function, and the calls around it."""

    line: SourceCall
    path: Path


class Form(NamedTuple):
    """A function that takes values from a channel and gives them back: what it takes (PUT or TOOK), the lines at which
    it does so, and the lines at which it gives a value back."""

    function: str
    takes: str
    taking: set[SourceCall]
    giving: set[SourceCall]

    def has_at(self, line: SourceCall) -> bool:
        """Whether a call at this line has taken a value and gives it back at a later line or in a deferred function."""
        deferred = any(giving.function != self.function for giving in self.giving)
        is_after = any(taking.line < line.line for taking in self.taking)
        return is_after and (deferred or any(line.line < giving.line for giving in self.giving))


class Balance(NamedTuple):
    """How a goroutine's calls from one place use a channel. `takes` is PUT for a semaphore; `taken` and `given` count
    the values taken and given back at each line. The flags say whether a call in progress has a value, waits to take
    one, or waits to give one back."""

    name: Name
    takes: str
    taken: Counter[SourceCall]
    given: Counter[SourceCall]
    has_value: bool = False
    is_taking: bool = False
    is_giving: bool = False
    called: str = ""  # the caller's line, if a goroutine called the function from several places

    @property
    def missing(self) -> int:
        """The number of values that finished calls took and didn't give back."""
        return self.taken.total() - self.given.total() - (self.has_value or self.is_giving)

    @property
    def says(self) -> str:
        """The sentence about the balance: `goroutine 3 took 9 values there at a.go:52 and put 10 back: 9 at a.go:53, 1
        at a.go:60`."""
        did, gave, back = TAKEN_WORDS[self.takes]
        many, given = self.taken.total(), self.given.total()
        words = f"{self.name} {did} {counted(many, 'value')} there{at_lines(self.taken)} and {gave} "
        words += f"{given} {back}{at_lines(self.given)}" if given else f"none {back}"
        words += f", in calls from {self.called}" if self.called else ""
        now = "it waits to give one more back" if self.is_giving else "it has one now" if self.has_value else ""
        return words + (f"; {now}" if now else "")


def at_lines(often: Counter[SourceCall]) -> str:
    """Text for the lines of uses: ` at a.go:3 in take`, or, with the number of uses at each line, ` (9 at a.go:3 in
    give, 1 at a.go:7 in give)`."""
    places = Counter[str]()
    for line, count in often.items():
        places[f"{line.place()} in {short(line.function).partition(DEFERRED)[0]}"] += count
    if len(places) < 2:
        return "".join(f" at {place}" for place in places)
    return f" ({', '.join(f'{count} at {place}' for place, count in places.most_common())})"


def balances_of(recording: Recording, number: int, now: dict[Name, Stack]) -> list[Balance]:
    """The balances of a channel, for each function that takes its values and gives them back. `now` has the stacks of
    the goroutines that wait."""
    lines = recording.lines
    uses = [use for use in lines.uses.get(number, ()) if use.what in (PUT, TOOK)]
    takes, functions = takes_of(recording, uses)
    found: dict[str, dict[tuple[Name, Path], list[ObjectUse]]] = defaultdict(lambda: defaultdict(list))
    for use in uses:
        frames = program_frames(lines.stacks[use.stack])
        function = next((call.function for call in frames if call.function in functions), "")
        if place := place_in(function, frames):
            found[function][name_of_goid(lines, use.goid), place.path].append(use)
    return [
        balance for function, users in found.items() for balance in of_function(recording, function, takes, users, now)
    ]


def give_back(balances: list[Balance]) -> bool:
    """Whether goroutines gave back at least half of what they took."""
    given, taken = (
        sum(balance.given.total() for balance in balances),
        sum(balance.taken.total() for balance in balances),
    )
    return 2 * given >= taken


def of_function(
    recording: Recording,
    function: str,
    takes: str,
    found: dict[tuple[Name, Path], list[ObjectUse]],
    now: dict[Name, Stack],
) -> list[Balance]:
    """The balances of a function that takes values and gives them back, one for each goroutine and caller."""
    every = [use for uses in found.values() for use in uses]
    form = Form(function, takes, *lines_of_form(recording, every, takes, function))
    often = Counter(name for name, _ in found)
    balances = (
        balance_of(recording, name, path, uses, form, now)._replace(called=called_at(path) if often[name] > 1 else "")
        for (name, path), uses in found.items()
    )
    return [balance for balance in balances if balance.taken]


def called_at(path: Path) -> str:
    """The line from which a function was called, such as `a.go:3`."""
    return path[0].place() if path else ""


def lines_of_form(
    recording: Recording, uses: list[ObjectUse], takes: str, function: str
) -> tuple[set[SourceCall], set[SourceCall]]:
    """The lines at which a function takes values, and the lines at which it gives values back."""
    taking, giving = set[SourceCall](), set[SourceCall]()
    for use in uses:
        if place := place_in(function, program_frames(recording.lines.stacks[use.stack])):
            (taking if use.what == takes else giving).add(place.line)
    return taking, giving


def takes_of(recording: Recording, uses: list[ObjectUse]) -> tuple[str, set[str]]:
    """What goroutines take from a channel (PUT or TOOK), and the functions of the program that take it and later give
    it back. Functions that only call such a function are left out."""
    stacks, functions, outer = recording.lines.stacks, Counter[str](), set[str]()
    frames: dict[tuple[int, str], set[Frames]] = defaultdict(set)
    for use in uses:
        frames[use.goid, use.what].add(program_frames(stacks[use.stack]))
    for goid in {use.goid for use in uses}:
        given = {call.function for some in frames[goid, PUT] for call in some}
        for some in frames[goid, TOOK]:
            both = [call.function for call in some if call.function in given]
            functions.update(both[:1])
            outer.update(both[1:])
    if not functions:
        return "", set()
    return first_of(recording, uses, functions.most_common(1)[0][0]), set(functions) - outer


def first_of(recording: Recording, uses: list[ObjectUse], function: str) -> str:
    """The operation, PUT or TOOK, that most goroutines did first in a function."""
    inside = [use for use in uses if place_in(function, program_frames(recording.lines.stacks[use.stack]))]
    first: dict[int, str] = {}
    for use in sorted(inside, key=BEGIN):
        first.setdefault(use.goid, use.what)
    return Counter(first.values()).most_common(1)[0][0]


def program_frames(stack: Stack) -> Frames:
    return tuple(call for call in stack.calls if call.of == OF_THE_PROGRAM)


def place_in(function: str, frames: Frames) -> ChannelUse | None:
    """The innermost call of a function in a stack. If one of the function's literals or deferred calls is running, the
    result has the line in the literal or the line of the `defer` statement."""
    for at, call in enumerate(frames):
        if call.function == function:
            inner = frames[at - 1] if at and frames[at - 1].function.startswith(f"{function}.") else call
            return ChannelUse(inner, frames[at + 1 :])
    return None


def balance_of(
    recording: Recording, name: Name, path: Path, uses: list[ObjectUse], form: Form, now: dict[Name, Stack]
) -> Balance:
    """The values that a goroutine took and gave back in its calls of the function from one place."""
    taken, given, stacks = Counter[SourceCall](), Counter[SourceCall](), recording.lines.stacks
    for use in uses:
        if place := place_in(form.function, program_frames(stacks[use.stack])):
            (taken if use.what == form.takes else given)[place.line] += use.often
    balance = Balance(name, form.takes, taken, given)
    if name not in now:
        return balance._replace(has_value=not has_ended(recording, name))
    current = current_in(form.function, path, now[name])
    if current is None:
        return balance
    line, frames = current
    if frames in (program_frames(stacks[use.stack]) for use in uses if use.what == form.takes):
        return balance._replace(is_taking=True)
    return balance._replace(is_giving=line in form.giving, has_value=line not in form.giving and form.has_at(line))


def has_ended(recording: Recording, name: Name) -> bool:
    """Whether a goroutine has certainly ended."""
    lines = recording.lines
    known = lines.goroutines.get(name.number if name.is_goid else lines.goid_of(name.number))
    return known is not None and known.last >= 0


def current_in(function: str, path: Path, stack: Stack | None) -> tuple[SourceCall, Frames] | None:
    """The line at which a goroutine is in the function, and the goroutine's frames in the program; None if the
    goroutine isn't in a call of the function by these callers."""
    frames = program_frames(stack) if stack else ()
    for at, call in enumerate(frames):
        if call.function == function and frames[at + 1 :] == path:
            inner = frames[at - 1] if at and frames[at - 1].function.startswith(f"{function}.") else call
            return inner, frames
    return None
