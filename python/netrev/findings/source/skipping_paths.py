"""Paths of a function that skip what it should do. One line takes or begins something, and another line gives it back
or finishes it. The paths lead from the first line past the second line. Such a path goes through a `return`, a
`continue`, a `break` or the condition of a block."""

import re
from collections.abc import Callable
from typing import NamedTuple

from .functions import Lines
from .statements import Statement, statements_of

Test = Callable[[str], bool]
DIES = re.compile(r"(?:panic|os\.Exit|log\.Fatal\w*|runtime\.Goexit|goto|\w\.Fatal\w*)\b")
LEAVES = re.compile(r"(return|(?:continue|break)(?: \w+)?)\b")
ENDLESS = re.compile(r"(?:\w+: *)?for \{$")
IS_THERE = re.compile(r"if (?!err)\w+ != nil \{$")  # tests whether something was taken
GOT = re.compile(r"(?:if |case )?(?:[\w.]+, )*(\w+) :?= ")
DOES = {"return": "returns", "continue": "goes on", "break": "breaks off", "end": "ends"}
MANY = {"returns": "return", "goes on": "go on", "breaks off": "break off", "ends": "end"}
PASSES = "passes by"
MOST_WAYS = 3


def nothing(_: str) -> bool:
    return False


def is_text(text: str) -> Test:
    """A test of whether a statement has this text."""
    return lambda other: other == text


def is_match(pattern: str) -> Test:
    """A test of whether a statement matches a pattern."""
    found = re.compile(pattern)
    return lambda text: found.search(text) is not None


class Way(NamedTuple):
    """A path that leaves without doing what should be done: its line, and a verb for what the line does. The verb for a
    condition is `passes by`."""

    number: int
    does: str


class PathState(NamedTuple):
    """The possible states at a place. The function has perhaps taken something and not given it back (`is_open`), or it
    has perhaps given it back (`is_done`). `block` is the block that decides between these two states (0: no block
    does). If `is_deferred`, the function always gives it back when it ends."""

    is_open: bool = False
    is_done: bool = False
    block: int = 0
    is_deferred: bool = False


class Exit(NamedTuple):
    """A line that leaves a block, how it leaves the block (`end`, or the statement: `return`, `break all`), and the
    state at the line."""

    kind: str
    number: int
    state: PathState


Result = tuple[PathState | None, list[Exit]]
BEFORE, OPEN, DONE = PathState(), PathState(is_open=True), PathState(is_done=True)


class Walk(NamedTuple):
    """A walk through a function from statements that take something to statements that give it back. `keeps` finds
    statements that pass on what was taken, so that other code must give it back. The walk fills `ways` and `given`. The
    statements in `given` give back what their path has taken."""

    begins: Test
    ends: Test
    keeps: Test
    ways: list[Way]
    given: list[str]

    def body(self, statements: list[Statement], state: PathState, flag: str) -> Result:
        """The state after some statements (None if no path passes all of them), and the exits. `flag` is the variable
        that says whether something was taken; empty if no variable does."""
        exits, now = list[Exit](), state
        for statement in statements:
            after, left = self.block(statement, now, flag) if statement.kind else self.simple(statement, now)
            exits += left
            if after is None:
                return None, exits
            now, flag = after, self.flag_after(statement, flag)
        return now, exits

    def flag_after(self, statement: Statement, flag: str) -> str:
        """The variable that says, after a statement, whether something was taken."""
        if statement.kind:
            return flag
        name = name_of(statement.text)
        return name if self.does_begin(statement.text) else "" if name == flag else flag

    def does_begin(self, text: str) -> bool:
        return "func(" not in text and self.begins(text)

    def of_text(self, text: str, now: PathState) -> PathState:
        """The state after a statement of one line, or after the head of a block."""
        if now.is_deferred:
            return now
        if self.ends(text):
            self.given.extend([text] if now.is_open else [])
            return DONE._replace(is_deferred=text.startswith("defer "))
        if self.does_begin(text):
            return OPEN
        return DONE if now.is_open and self.keeps(text) else now

    def simple(self, statement: Statement, now: PathState) -> Result:
        """The same as `body`, for a statement that isn't a block."""
        now = self.of_text(statement.text, now)
        if DIES.match(statement.text):
            return None, []
        if found := LEAVES.match(statement.text):
            return None, [Exit(found[1], statement.number, now)]
        return now, []

    def block(self, statement: Statement, now: PathState, flag: str) -> Result:
        """The same as `body`, for a block."""
        if statement.kind == "for":
            return self.loop(statement, now, flag)
        now, exits = self.of_text(statement.text, now), list[Exit]()
        is_taken = self.is_taken(statement, flag)
        afters = [] if statement.is_whole or is_missing(statement.text, now) else [BEFORE if is_taken else now]
        for branch in statement.branches:
            begin = now if branch.number == statement.number else self.of_text(branch.text, now)
            begin = BEFORE if branch.number == statement.number and is_taken is False else begin
            own_flag = name_of(branch.text) if self.does_begin(branch.text) else flag
            after, left = self.body(branch.body, begin, own_flag)
            afters += [after] if after is not None else []
            if statement.kind != "if":
                afters += [exit.state for exit in left if exit.kind == "break"]
                left = [exit for exit in left if exit.kind != "break"]
            exits += left
        return joined(afters, statement.number), exits

    def is_taken(self, statement: Statement, flag: str) -> bool | None:
        """True if the first branch of a block runs exactly when something was taken, False if it runs exactly when
        nothing was; else None."""
        head, _, condition = statement.text.removesuffix(" {").removeprefix("if ").rpartition("; ")
        begins = self.does_begin(statement.text)
        if statement.kind != "if" or (head and not begins and name_of(head) == flag):
            return None
        if begins and not head:
            return not condition.startswith("!")
        name = name_of(head) if begins else flag
        is_error = name.startswith("err")
        if not name or condition not in (name, f"!{name}", f"{name} == nil", f"{name} != nil"):
            return None
        return (condition in (name, f"{name} != nil")) is not is_error

    def loop(self, statement: Statement, now: PathState, flag: str) -> Result:
        """The same as `body`, for a loop. In each iteration, a loop should give back what it took in that iteration."""
        begins = self.does_begin(statement.text) and not now.is_deferred
        after, left = self.body(statement.branches[-1].body, OPEN if begins else now, flag)
        left += [Exit("end", statement.number, after)] if after is not None else []
        exits = [exit for exit in left if exit.kind not in ("continue", "break", "end")]
        rounds = [exit for exit in left if exit.kind in ("continue", "end")]
        behind = [exit.state for exit in left if exit.kind == "break"]
        if not ENDLESS.match(statement.text):
            behind += [now, *(exit.state for exit in rounds if now.is_open)]
        for exit in rounds if not now.is_open else ():
            self.leave(exit)
        return joined(behind, statement.number), exits

    def leave(self, exit: Exit) -> None:
        """Records a path if it exits without giving back what it took."""
        if exit.state.is_open and exit.state.block:
            self.ways.append(Way(exit.state.block, PASSES))
        elif exit.state.is_open:
            self.ways.append(Way(exit.number, DOES[exit.kind.partition(" ")[0]]))


def name_of(text: str) -> str:
    """The last variable that a statement sets."""
    found = GOT.match(text)
    return found[1] if found else ""


def is_missing(head: str, now: PathState) -> bool:
    """Whether a path can't pass by a block: the path has taken something, and the block's condition tests for that, as
    in `if c != nil`."""
    return now.is_open and IS_THERE.match(head) is not None


def joined(states: list[PathState], number: int) -> PathState | None:
    """The possible states after the branches of a block."""
    if not states:
        return None
    is_open, is_done = any(state.is_open for state in states), any(state.is_done for state in states)
    block = next((state.block for state in states if state.block), 0)
    if not is_open:
        return states[0]._replace(is_deferred=all(state.is_deferred for state in states))
    return PathState(is_open, is_done, block or (number if is_done else 0))


def skipped_paths(lines: Lines, within: range, begins: Test, ends: Test, keeps: Test = nothing) -> list[Way]:
    """The paths of a function that skip the statements matched by `ends`. They begin at a statement matched by
    `begins`. The list is empty if no path leads from such a statement to a statement matched by `ends`."""
    if any(lines[number - 1].count("`") % 2 for number in within):
        return []
    walk = Walk(begins, ends, keeps, [], [])
    after, left = walk.body(statements_of(lines, within), BEFORE, "")
    for exit in [*left, *([Exit("end", within[-1], after)] if after else [])]:
        walk.leave(exit)
    return sorted(set(walk.ways)) if walk.given else []


def paths_are(ways: list[Way]) -> str:
    """The words that introduce paths: `on this way`, or `on these ways`."""
    return "on these ways" if len(ways) > 1 else "on this way"


def paths_text(file: str, ways: list[Way]) -> str:
    """Paths as text: `a.go:3 returns`, `a.go:3 and a.go:7 return`, `the way past a.go:3 goes on`."""
    by_kind: dict[str, list[str]] = {}
    for way in ways[:MOST_WAYS]:
        by_kind.setdefault(way.does, []).append(f"{file}:{way.number}")
    return " and ".join(kind_words(does, places) for does, places in by_kind.items())


def kind_words(does: str, places: list[str]) -> str:
    """Text for paths that all do the same, such as `a.go:3 and a.go:7 return`."""
    is_past, lines = does == PASSES, " and ".join(places)
    if len(places) == 1:
        return f"the way past {lines} goes on" if is_past else f"{lines} {does}"
    return f"the ways past {lines} go on" if is_past else f"{lines} {MANY[does]}"
