"""The goroutines that may still call Done while another goroutine waits on a WaitGroup. They are found from the source
or from the function that started them. If goroutines ended without Done, the module finds how they differ from the
others."""

import re
from collections.abc import Callable, Container
from typing import NamedTuple

from netrev.findings.evidence.call_words import short
from netrev.findings.evidence.need import Certainty, Need
from netrev.findings.evidence.siblings import lines_words, odd_goroutines
from netrev.findings.evidence.waiters import Waiter
from netrev.findings.pools.made_channels import has_returned
from netrev.findings.source.functions import found_in, indent_of, is_last_line, is_same_variable, source_of, text_at
from netrev.findings.streams.failed_dials import failed_dial, refused, refused_words
from netrev.recording.waits import Name, Waits, name_of_goid, of_names
from netrev.recording.where import OF_THE_PROGRAM, SourceCall, Stack
from netrev.run.index import RunIndex

from .group_counts import Count, count_of, count_sentence, ended_names, ended_sentence, started_by

LITERAL = re.compile(r"\.(?:func\d+|gowrap\d+|deferwrap\d+)(?:\..*)?\Z")
ADD = re.compile(r"([\w.\[\]]+)\.Add\(")
WAIT, DONE = re.compile(r"([\w.\[\]]+)\.Wait\(\)"), re.compile(r"(defer )?(?:func\(\) \{ )?([\w.\[\]]+)\.Done\(\)")
MOST_MEMBERS = 50  # the most goroutines to examine
STARTED_BY_GROUP = "sync.(*WaitGroup).Go"


class Member(NamedTuple):
    """A goroutine that may call Done, with the line of the call. If the line isn't known, `line` is the `go` statement
    that started the goroutine."""

    name: Name
    line: SourceCall
    number: int = 0


def outermost(function: str) -> str:
    """The function that contains a function literal: `main.serve` for `main.serve.func1.2`."""
    return LITERAL.sub("", function)


class Groups:
    """The goroutines for which the waiters of WaitGroups wait. `stacks` has the stacks of all goroutines that wait or
    sleep."""

    def __init__(self, index: RunIndex, waits: Waits, stacks: list[tuple[Name, Stack]], position: int) -> None:
        self._index, self._recording, self._waits = index, index.recording, waits
        self._stacks, self._position = stacks, position
        self._members: dict[
            tuple[SourceCall, ...], list[Member]
        ] = {}  # the members, keyed by the program's calls in which a goroutine waits

    def of(self, waiter: Waiter, waiters: Container[Name], does: Callable[[Name], str]) -> Need | None:
        """What a goroutine needs while it waits on a WaitGroup; None if no goroutine may call Done."""
        calls = tuple(call for call in waiter.stack.calls if call.of == OF_THE_PROGRAM)
        if calls not in self._members:
            self._members[calls] = [*self._by_source(waiter), *self._started(waiter)]
        count = self._count(waiter)
        itself = next(
            (candidate for candidate in self._members[calls] if candidate.name == waiter.name and candidate.number),
            None,
        )
        if itself and count and self._goid(itself) in started_by(self._recording, count):
            at = f"{itself.line.file}:{itself.number}"
            when = self._when(itself) or " after that"
            return Need(
                [f"It waits for itself: it calls Done at {at} only{when}.", count_sentence(self._recording, count)]
            )
        if count and (passed := self._passed_by(count, does)):
            return Need(passed, is_odd=True)
        members = self._in_order(
            [candidate for candidate in self._members[calls] if candidate.name != waiter.name], count
        )
        ended = self._without_done(count)
        member = next((candidate for candidate in members if candidate.name in waiters), None)
        names = ended_names(self._recording, count) if count else ()
        if member and not (ended and count and self._has_done(member, count)):
            how = f"perhaps for {{by}}, {self._how(waiter, member)}"
            return Need(ended, member.name, how, Certainty.PERHAPS, ended=names)
        if ended:
            return Need(ended, ended=names)
        for member in members[:MOST_MEMBERS]:
            if words := does(member.name):
                return Need([f"Perhaps it waits for {member.name}, {self._how(waiter, member)}, and which {words}."])
        says = self._of_ended(waiter)
        return Need(says) if says else None

    def _passed_by(self, count: Count, does: Callable[[Name], str]) -> list[str]:
        """Sentences about a goroutine that called Add and has left that function without calling Done, although a later
        line of the function calls Done without `defer`."""
        lines = self._recording.lines
        if not count.done_by <= {use.goid for use in count.added}:
            return []
        for use in count.added:
            own, name = lines.stacks[use.stack].own(), name_of_goid(lines, use.goid)
            done = sum(call.often for call in count.done if call.goid == use.goid)
            if not own or own[0].of != OF_THE_PROGRAM or done >= use.often or use.last > self._position:
                continue
            added = ADD.search(text_at(self._recording, own[0]))
            found = [
                (number, match) for number, match in found_in(self._recording, own[0], DONE)
                if added and number > own[0].line and match[2] == added[1] and self._are_level(own[0], number)
            ]  # fmt: skip
            if len(found) != 1 or found[0][1][1] or not has_returned(self._index, name, own[0], self._position):
                continue
            ended, function = does(name), short(own[0].function)
            since = f"; it {ended}" if ended else ""
            return [
                f"{str(name).capitalize()} added at {own[0].place()} in {function}, and left {function} without the Done at {own[0].file}:{found[0][0]}, "
                f"which isn't deferred: a panic passes by it{since}."
            ]
        return []

    def _are_level(self, call: SourceCall, number: int) -> bool:
        """Whether two lines of a function are in blocks of the same depth."""
        lines = source_of(self._recording, call.file)
        return lines is not None and indent_of(lines[call.line - 1]) == indent_of(lines[number - 1])

    def _count(self, waiter: Waiter) -> Count | None:
        """The count of the WaitGroup, if the recording has it."""
        at = waiter.wait.objects[:1] if waiter.wait else ()
        return count_of(self._recording, at[0].object) if at else None

    def _without_done(self, count: Count | None) -> list[str]:
        """Sentences about the number of missing calls of Done and the goroutines that ended without calling it; none if
        no such goroutine is known."""
        ended = ended_sentence(self._recording, count) if count else []
        return [count_sentence(self._recording, count), *ended] if count and ended else []

    def _in_order(self, members: list[Member], count: Count | None) -> list[Member]:
        """The goroutines that may call Done, first those that haven't called it yet. If callers of Add started some of
        them after the first Add, the result has only the goroutines started this way. If none was, but all goroutines
        that called Done were, the result is empty."""
        if count is None:
            return members
        started = started_by(self._recording, count)
        mine = [member for member in members if self._goid(member) in started]
        others = [] if count.done_by and count.done_by <= started else members
        done = count.done_by if count.is_once else set()
        return sorted(mine or others, key=lambda member: self._goid(member) in done)

    def _goid(self, member: Member) -> int:
        return member.name.number if member.name.is_goid else self._recording.lines.goid_of(member.name.number)

    def _has_done(self, member: Member, count: Count) -> bool:
        """Whether a goroutine has called Done, if each goroutine calls it only once."""
        return count.is_once and self._goid(member) in count.done_by

    def _by_source(self, waiter: Waiter) -> list[Member]:
        """The goroutines that are in a function whose source calls Done on a WaitGroup of that name: in a `defer`
        statement, or at a later line."""
        own = waiter.stack.own()
        name = WAIT.search(text_at(self._recording, own[0])) if own else None
        if not own or not name:
            return []
        calls = [
            (goroutine, call)
            for goroutine, stack in self._stacks
            for call in stack.calls
            if call.of == OF_THE_PROGRAM and call.file == own[0].file
        ]
        return [
            Member(goroutine, call, number)
            for goroutine, call in calls
            for number, done in found_in(self._recording, call, DONE)
            if (done[1] or number > call.line)
            and is_same_variable(name[1], done[2], outermost(call.function) == outermost(own[0].function))
        ]

    def _started(self, waiter: Waiter) -> list[Member]:
        """Goroutines that wait or sleep, and that a function on the waiter's stack started. For a function literal, the
        named function around it counts too. If no such goroutine exists, the result has the goroutines that
        WaitGroup.Go or any literal in these functions started."""
        inside = {call.function for call in waiter.stack.calls if call.of == OF_THE_PROGRAM}
        outer = set(map(outermost, inside))
        starts = [(name, stack.made) for name, stack in self._stacks if stack.made]
        near = [start for start in starts if start[1].function in inside | outer]
        others = [
            start for start in starts if outermost(start[1].function) in outer or start[1].function == STARTED_BY_GROUP
        ]
        return [Member(name, at) for name, at in near or others]

    def _how(self, waiter: Waiter, member: Member) -> str:
        """Text for the line at which a goroutine calls Done. If that line isn't known, the text says that the waiter
        started the goroutine, or names the line that started it."""
        if member.number:
            return f"which calls Done at {member.line.file}:{member.number}{self._when(member)}"
        lines = self._recording.lines
        goid, starter = (
            name.number if name.is_goid else lines.goid_of(name.number) for name in (member.name, waiter.name)
        )
        known = lines.goroutines.get(goid)
        return "which it started" if known and known.maker == starter > 0 else f"started at {member.line.place()}"

    def _when(self, member: Member) -> str:
        """`as it ends` if a goroutine calls Done in its last line or in a `defer` statement; else empty."""
        done = [match for number, match in found_in(self._recording, member.line, DONE) if number == member.number]
        is_last = is_last_line(self._recording, member.line, member.number)
        return " as it ends" if is_last or any(match[1] for match in done) else ""

    def _of_ended(self, waiter: Waiter) -> list[str]:
        """Sentences about the goroutines that the waiter's functions started, if all of these have ended. The sentences
        say so, and name the goroutines that differed from the others."""
        inside = {call.function for call in waiter.stack.calls if call.of == OF_THE_PROGRAM}
        started: dict[SourceCall, list[int]] = {}
        lines = self._recording.lines
        for goid, known in lines.goroutines.items():
            if known.made and known.made.function in inside and 0 <= known.first <= waiter.since:
                started.setdefault(known.made, []).append(goid)
        for statement, goids in reversed(started.items()):
            if all(0 <= lines.goroutines[goid].last <= self._position for goid in goids):
                return self._ended_words(statement, goids)
        return []

    def _ended_words(self, statement: SourceCall, goids: list[int]) -> list[str]:
        lines, failed = self._recording.lines, [goid for goid in goids if self._failed_dial(goid)]
        many = "The goroutine" if len(goids) == 1 else f"All {len(goids)} goroutines"
        says = [f"{many} started at {statement.place()} ha{'s' if len(goids) == 1 else 've'} ended."]
        found = odd_goroutines(self._recording, goids)
        odd = found[0] if found else failed if len(failed) < len(goids) else goids[:1] if len(goids) == 1 else []
        if not odd:
            return says
        names = of_names(name_of_goid(lines, goid) for goid in odd)
        dials = [words for goid in odd[:1] if (words := self._failed_dial(goid))]
        differs = lines_words(self._recording, odd, [goid for goid in goids if goid not in odd])
        return [*says, f"Perhaps {names} ended without Done{differs}{''.join(f'; {dial}' for dial in dials)}."]

    def _failed_dial(self, goid: int) -> str:
        """Words which say that a goroutine's Dial failed; empty if no Dial failed."""
        if failed := refused(self._recording, goid):
            return f"its {refused_words(self._recording, failed)}"
        dial = failed_dial(self._index, self._recording.lines.goroutines[goid].number)
        return f"its {dial.words(self._recording)}" if dial else ""
