"""Paths in the program's source on which a call takes a value from a pool or a semaphore and doesn't give it back, or
gets a net/http response and doesn't close its body."""

import re
from collections.abc import Iterable
from operator import attrgetter

from netrev.findings.evidence.ended_goroutines import body_of, loop_at
from netrev.findings.source.functions import found_in, function_of, indent_of, source_of, text_at
from netrev.findings.source.skipping_paths import (
    Test,
    Way,
    is_match,
    is_text,
    nothing,
    paths_are,
    paths_text,
    skipped_paths,
)
from netrev.recording.goroutines import FOR_ROOM
from netrev.recording.recording import Recording
from netrev.recording.waits import ObjectWait
from netrev.recording.where import OF_THE_PROGRAM, SourceCall, Stack

from .balances import Balance

SEND, RECEIVE, CALLED = re.compile(r"([\w.\[\]]+) <- "), re.compile(r"<-([\w.\[\]]+)"), re.compile(r"(\w+)\(")
LITERAL = re.compile(r"(?:defer |go )?func\(.*?\{")
TAKEN = re.compile(r"(?:if )?(\w+)(?:, \w+)* :?= ")
HANDS_ON = (
    r"\breturn\b.*\b{name}\b(?!\.)|[^=!<>:]:?= *&?{name}\s*$|[(\[{{,] *{name} *[,}}\]]|<- *{name}\b|\bgo\b.*\b{name}\b"
    r"|\b\w*(?i:put|release|return|free|give|recycle|done)\w*\(.*\b{name}\b"
)
TO_OTHERS = (
    r"\breturn\b.*\b{name}(?:\.Body)?\b(?!\.)|=\s*{name}(?:\.Body)?\s*$|\bgo\b.*\b{name}\b|[({{,] *{name} *[,)}}]"
    r"|(?<![.\w])\w+\([^()]*\b{name}\.Body"
)
USES = re.compile(
    r"\b(?:fmt\.F\w+|io\.\w+|(?:bufio|json|gob)\.New\w+|binary\.\w+)\(\w+"
)  # functions that use a value without keeping it
CLOSES = r"\b{name}\.Body\.Close\b|\bio\.(?:ReadAll|Copy)\(.*\b{name}\.Body\b"
AN_ERROR = re.compile(r"\breturn\b.*\b(?:err|fmt\.Errorf|errors\.New|Err\w+|false)\b")
MOST_PLACES = 2
TAKEN_AT, GIVEN_AT = attrgetter("taken"), attrgetter("given")


def paths_that_keep(recording: Recording, balances: Iterable[Balance]) -> list[str]:
    """Sentences about the paths on which the calls of a function kept what they took."""
    taken = {line for balance in balances if balance.missing > 0 for line in balance.taken}
    given = {line for balance in balances for line in balance.given}
    says = []
    for line in sorted(taken, key=lambda place: (place.file, place.line))[:MOST_PLACES]:
        ends, text = gives_back(recording, given), text_at(recording, line).strip()
        ways = paths_through(recording, line, text, ends, value_of(text, HANDS_ON)) if ends else []
        back = sorted(place.line for place in given if place.file == line.file)
        if ways and back:
            does = f"{paths_text(line.file, ways)} without {line.file}:{back[-1]}, which gives it back"
            says.append(f"Perhaps they kept it {paths_are(ways)}: {does}.")
    return says


def paths_with_an_error(recording: Recording, wait: ObjectWait) -> list[str]:
    """Sentences about the paths of a function that return an error without giving back what the function took from a
    pool or a semaphore. At least one other path of the function gives it back."""
    own = wait.stack.own()
    if not own or own[0].of != OF_THE_PROGRAM or len(wait.objects) != 1:
        return []
    line = case_of(recording, own[0], wait.objects[0].use)
    own, text = (line, own[1]), text_at(recording, line).strip()
    send, receive = SEND.match(text.removeprefix("case ")), RECEIVE.search(text)
    back = rf"<-{re.escape(send[1])}(?![\w.])" if send else rf"{re.escape(receive[1])} <- " if receive else ""
    found = (
        [number for number, _ in found_in(recording, own[0], re.compile(back)) if number > own[0].line] if back else []
    )
    ways = paths_through(recording, own[0], text, is_match(back), nothing) if found else []
    lines = source_of(recording, own[0].file) or ()
    failing = [way for way in ways if AN_ERROR.search(lines[way.number - 1])]
    if not failing:
        return []
    function = own[0].function.rpartition("/")[2].partition(".")[2]
    does = f"{paths_text(own[0].file, failing)} without {own[0].file}:{found[-1]}, which gives it back"
    return [f"Perhaps {function} keeps it {paths_are(failing)}: {does}."]


def case_of(recording: Recording, line: SourceCall, use: str) -> SourceCall:
    """The line of a select's first case with the operation that a goroutine waits for. If the line has no select, the
    result is the line itself."""
    lines = source_of(recording, line.file)
    if not lines or lines[line.line - 1].partition("//")[0].strip() != "select {":
        return line
    margin = indent_of(lines[line.line - 1])
    pattern = SEND if use == FOR_ROOM else RECEIVE
    for number in range(line.line + 1, len(lines) + 1):
        text = lines[number - 1].partition("//")[0]
        if indent_of(text) < margin or (indent_of(text) == margin and text.strip() == "}"):
            break
        if indent_of(text) == margin and pattern.search(text.strip().removeprefix("case ")):
            return line._replace(line=number)
    return line


def gives_on_most_paths(recording: Recording, balances: Iterable[Balance]) -> bool:
    """Whether a function that takes values gives them back at several lines, and on more paths than it keeps them."""
    taken, given = ({line for balance in balances for line in lines_at(balance)} for lines_at in (TAKEN_AT, GIVEN_AT))
    ends = gives_back(recording, given)
    for line in taken if ends else ():
        (lines, within), text = function_of(recording, line), text_at(recording, line).strip()
        gives = sum(ends(lines[number - 1].strip()) for number in within if ends)
        if ends and gives > max(1, len(paths_through(recording, line, text, ends, value_of(text, HANDS_ON)))):
            return True
    return False


def gives_back(recording: Recording, given: Iterable[SourceCall]) -> Test | None:
    """A test of whether a statement gives something back. The test is derived from the statements that did so, and is
    None if their text isn't known."""
    patterns = {pattern for line in given if (pattern := pattern_of(text_at(recording, line)))}
    return is_match("|".join(sorted(patterns))) if patterns else None


def pattern_of(text: str) -> str:
    """A pattern for statements that do the same as this one: send on its channel, receive from its channel, or call its
    function. The pattern is empty if the statement does none of these."""
    code = LITERAL.sub("", text.strip())
    if found := SEND.search(code):
        return rf"{re.escape(found[1])} <- "
    if found := RECEIVE.search(code):
        return rf"<-{re.escape(found[1])}(?![\w.])"
    found = CALLED.search(code)
    return rf"\b{found[1]}\(" if found else ""


def value_of(text: str, form: str) -> Test:
    """A test of whether a statement passes on the value that another statement took."""
    found = TAKEN.match(text)
    hands_on = is_match(form.format(name=found[1])) if found else nothing
    return lambda statement: hands_on(USES.sub("(", statement))


def paths_through(recording: Recording, line: SourceCall, text: str, ends: Test, keeps: Test) -> list[Way]:
    """The paths in the function of `line` that begin at the statement `text` and skip the statements matched by
    `ends`."""
    lines, within = function_of(recording, line) if line.of == OF_THE_PROGRAM else ((), range(0))
    is_whole = text[-1:] not in ("(", "{", ",")
    begins = is_text(text) if is_whole else is_match(re.escape(text))
    return skipped_paths(lines, within, begins, ends, keeps) if within and text else []


def paths_past_close(recording: Recording, stacks: Iterable[Stack]) -> list[str]:
    """The paths on which functions that made requests don't close the response's body, found from the stacks of the
    requests."""
    says = dict[str, None]()
    for stack in stacks:
        for call in stack.calls:
            text = text_at(recording, call).strip() if call.of == OF_THE_PROGRAM else ""
            found = TAKEN.match(text)
            closes = CLOSES.format(name=found[1]) if found else ""
            ways = paths_through(recording, call, text, is_match(closes), value_of(text, TO_OTHERS)) if found else []
            if found and (deferred := closed_in_a_loop(recording, call, f"{found[1]}.Body")):
                says[deferred] = None
                break
            if ways:
                does = paths_text(call.file, ways)
                says[f"Perhaps it was left open {paths_are(ways)}: {does} without a Close of the body."] = None
            if ways or (found and found_in(recording, call, re.compile(closes))):
                break
    return list(says)[:MOST_PLACES]


def closed_in_a_loop(recording: Recording, call: SourceCall, name: str) -> str:
    """A sentence about something that a loop makes in each iteration and that is closed only when the function returns,
    because its Close is deferred; else empty."""
    lines, head = loop_at(recording, call)
    defers = re.compile(rf"\bdefer {re.escape(name)}\.Close\(\)")
    found = [number for number in body_of(lines, head) if defers.search(lines[number - 1])] if head else []
    function = call.function.rpartition("/")[2].partition(".")[2]
    return (
        f"It is closed only as {function} returns: the defer at {call.file}:{found[0]} is in a loop." if found else ""
    )
