"""The completions of a word at the prompt: commands, topics, kinds, cells, and numbers in use."""

from collections.abc import Callable

from netrev.connection.world import count_at
from netrev.recording.recording import Recording
from netrev.recording.where import OF_THE_PROGRAM
from netrev.session.commands import COMMANDS, DIRECTIONS, PAGINATION, TOPICS, AmbiguousWordError, whole_words
from netrev.session.session import Session
from netrev.text.vocabulary import CELLS, DUMPS, KINDS, ObjectKind

NUMBERED_TOPICS = {
    "goroutines": ObjectKind.GOROUTINE,
    "sockets": ObjectKind.SOCKET,
    "descriptors": ObjectKind.DESCRIPTOR,
    "holders": ObjectKind.SOCKET,
}
OF_CELL = ("print", "watch", "display", "undisplay", "history", "until", "reverse-until")
OF_A_KIND = ("break", "tbreak")
OF_A_PLACE = (*OF_A_KIND, "goto", "list", "until", "reverse-until", "history")
BEHIND_A_FILE = ("reduce", "report")
STATUSES = "idle gone acquiring queued relock owing entering armed parking parked swapping checking".split()
FOLLOWED = {"gor": ObjectKind.GOROUTINE, "sock": ObjectKind.SOCKET, "desc": ObjectKind.DESCRIPTOR}
OF_A_GOROUTINE = ("goroutine", "next", "finish", "reverse-next", "reverse-finish")
MOST_NUMBERS = 200
VALUES = {"gor": STATUSES, "rg": ["nil", "ready", "wait"], "wg": ["nil", "ready", "wait"]}


def completions(line: str, session: Session) -> list[str]:
    """The completions of the last word of a line. Other commands, separated by `;`, may precede that word. Numbers
    aren't completed while netrev is answering."""
    words = line.rpartition(";")[2].split(" ")
    *before, last = words
    found = candidates(
        [word for word in before if word], lambda of: numbers_in(session, of), lambda: places_in(session.recording)
    )
    return [word for word in found if word.startswith(last)]


def numbers_in(session: Session, of: ObjectKind) -> list[str]:
    """The numbers in use at the session's position."""
    return [str(number) for number in range(count_at(session.netrev, of, MOST_NUMBERS))]


def places_in(recording: Recording | None) -> list[str]:
    """The functions of the program, and the lines of its files from which steps come."""
    lines = recording.lines if recording else None
    calls = [call for number in set(lines.steps) for call in lines.stacks[number].calls] if lines else []
    own = [call for call in calls if call.of == OF_THE_PROGRAM]
    by_line = sorted({(call.file, call.line) for call in own})
    return [*sorted({call.function for call in own}), *(f"{file}:{line}" for file, line in by_line)]


def candidates(
    before: list[str], numbers: Callable[[ObjectKind], list[str]], places: Callable[[], list[str]] = list
) -> list[str]:
    """The words that can follow these words. `numbers` gives the numbers in use, and `places` the functions and lines
    of the program."""
    if not before:
        return list(COMMANDS)
    try:
        first, *rest = whole_words(list(before))
    except AmbiguousWordError:
        return []
    if first in OF_A_PLACE and not rest:
        return [*places(), *(of_cell(rest, numbers) if first in OF_CELL else KINDS if first in OF_A_KIND else ())]
    if first in OF_CELL:
        return of_cell(rest, numbers)
    if first == "condition" and rest:
        return of_cell(rest[1:], numbers)
    if first in OF_A_GOROUTINE and not rest:
        return numbers(ObjectKind.GOROUTINE)
    if len(rest) == 1 and first in ("steps", "calls") and rest[0] in FOLLOWED:
        return numbers(FOLLOWED[rest[0]])
    if first in BEHIND_A_FILE and rest:
        return of_cell(rest[1:], numbers)
    if len(rest) == 0:
        return {
            "steps": [*FOLLOWED, *KINDS],
            "calls": list(FOLLOWED),
            "dump": list(DUMPS),
            "info": list(TOPICS),
            "set": ["exec-direction"],
            "save": ["breakpoints"],
            PAGINATION: ["on", "off"],
            "delete": ["checkpoint"],
            "help": [*COMMANDS, *KINDS, *CELLS],
        }.get(first, [])
    if len(rest) == 1 and first == "dump":
        return numbers(ObjectKind.SOCKET)
    if len(rest) == 1 and first == "set":
        return ["on", "off"] if rest[0] == PAGINATION else list(DIRECTIONS)
    if len(rest) == 1 and first == "info" and rest[0] in NUMBERED_TOPICS:
        return numbers(NUMBERED_TOPICS[rest[0]])
    return []


def of_cell(rest: list[str], numbers: Callable[[ObjectKind], list[str]]) -> list[str]:
    """The words that can come next in a cell. `rest` has the words typed so far."""
    if not rest:
        return list(CELLS)
    cell = CELLS.get(rest[0])
    if cell is None:
        return []
    if len(rest) == 1 and cell.of is not ObjectKind.ALL:
        return numbers(cell.of)
    length = 2 if cell.of is ObjectKind.ALL else 3
    if rest[length:] and rest[-1] == "and":
        return list(CELLS)
    if "and" in rest[length:-1]:
        return of_cell(rest[rest.index("and", length) + 1 :], numbers)
    return VALUES.get(cell.name, []) if len(rest) == length - 1 else ["and"] if len(rest) == length else []
