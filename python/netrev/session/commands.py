"""The commands of netrev and nrdb in one table. The module also reads abbreviations and other debuggers' names of
commands."""

import re
from collections.abc import Collection, Mapping
from dataclasses import dataclass
from enum import Enum
from functools import lru_cache

from netrev.errors import NetrevError
from netrev.messages import session as messages
from netrev.text.commands import OF_NETREV, SHORT, command
from netrev.text.vocabulary import DUMPS


class Origin(Enum):
    """The program that answers a command."""

    NETREV = "netrev"
    NRDB = "nrdb"


OF_NRDB = {
    row.name: row
    for row in (
        command("help [COMMAND]", "lists the commands, or explains a command, a kind, a cell or a reason's number"),
        command(
            "apropos WORD", "lists the commands, topics, kinds of steps and cells whose description contains a word"
        ),
        command("where", "shows the position, the last and the next step, and the goroutine's stack"),
        command(
            "list [N | FILE:LINE | FUNCTION]",
            "shows the steps near the position or near step N (=> marks the next one), or the source near a line or function",
        ),
        command("frame [N]", "shows call N of the stack, 0 is the innermost, and the source near it"),
        command("up", "shows the caller of this call"),
        command(
            "goroutine [N | goid N]",
            "chooses goroutine N and shows its stack and source; bt, frame, up and down use it until the session moves",
        ),
        command("down", "shows the call that this call made"),
        command(
            "goto N|start|end|TIME|PLACE",
            "goes to a position in either direction, to a time of the clock such as 35ms, or to a line or function",
        ),
        command(
            "until CELL VALUE",
            "goes to the next step that gives the cell this value or these words; * matches any text; `and CELL VALUE` may follow",
            steps=True,
        ),
        command("reverse-until CELL VALUE", "goes back to the last step that gave the cell this value", steps=True),
        command(
            "next [G]",
            "goes past the next step of the last step's goroutine, or past the call that this step begins",
            steps=True,
        ),
        command(
            "finish [G]",
            "goes to the end of the goroutine's call; between calls, until the goroutine has left the program's function",
            steps=True,
        ),
        command(
            "reverse-next [G]",
            "goes back before the goroutine's last step, or before the call that this step ended",
            steps=True,
        ),
        command("reverse-finish [G]", "goes back to the start of the goroutine's call", steps=True),
        command(
            "steps gor G|sock S|desc D|KIND [N|all]",
            "lists the steps of a goroutine, socket, descriptor or kind, up to the position",
        ),
        command(
            "calls [gor G|sock S|desc D] [N|all]",
            "lists calls such as Read, Write, SetDeadline and Close, and how they ended",
        ),
        command(
            "commands [N]",
            "runs the next lines, up to `end`, each time that mark N hits; without N, the last mark",
        ),
        command(
            "condition N [CELL VALUE]",
            "mark N stops only if the cell has this value or these words; without a value, it always stops",
        ),
        command("display [CELL]", "shows the cell at each stop; without a cell, shows the displayed cells now"),
        command("undisplay [CELL]", "stops displaying the cell; without a cell, all cells"),
        command("history CELL [N|all]", "lists the changes of a cell up to the position, the last 40 by default"),
        command("timeline FILE [FROM TO]", "writes a page that shows all positions, or these, side by side"),
        command("trace FILE", "writes all steps for Perfetto: goroutines as threads, and which goroutine woke which"),
        command(
            "reduce OUT.jsonl [N | CELL VALUE]", "writes the smallest recording that still has suspect N, or this value"
        ),
        command("report OUT.md [N | CELL VALUE]", "like reduce, and describes the result in Markdown"),
        command(
            "explore [N]",
            "runs N schedules near the recorded one, 3000 by default, and writes those that end with a suspect",
        ),
        command("source FILE", "runs the commands in a file"),
        command("save breakpoints FILE", "writes the lines that set the marks again, for source FILE"),
        command("pagination on|off", "whether output pauses when the terminal's screen is full"),
    )
}
COMMANDS = {**OF_NETREV, **OF_NRDB}


@dataclass(frozen=True)
class InfoTopic:
    """A topic of `info`: the program that answers it, its usage and what it shows."""

    origin: Origin
    usage: str
    says: str


TOPICS = {
    topic.usage.split()[0]: topic
    for topic in (
        InfoTopic(Origin.NETREV, "position", "the session's position"),
        InfoTopic(Origin.NETREV, "breakpoints", "the marks"),
        InfoTopic(Origin.NETREV, "checkpoints", "the checkpoints"),
        InfoTopic(
            Origin.NRDB, "goroutines [all|G]", "what each goroutine does, without those that are idle or have ended"
        ),
        InfoTopic(Origin.NRDB, "sockets [all|S]", "the sockets whose lock word, queues or input aren't at rest"),
        InfoTopic(Origin.NRDB, "descriptors [all|D]", "the open descriptors: socket, words and deadlines"),
        InfoTopic(Origin.NRDB, "timers", "the clock, and the coming deadlines"),
        InfoTopic(
            Origin.NRDB,
            "errors [N|all]",
            "the failed calls, each with its cause: which call set the deadline, or closed the socket",
        ),
        InfoTopic(
            Origin.NRDB,
            "hangs",
            "the calls that don't end in the recording, and which goroutines could have woken them",
        ),
        InfoTopic(
            Origin.NRDB,
            "requests",
            "the requests of net/http's client in the whole recording: line, connection, and what ended each",
        ),
        InfoTopic(Origin.NRDB, "suspects", "suspected bugs in the whole recording, found by rules, the worst first"),
        InfoTopic(Origin.NRDB, "holders S", "which goroutines hold references of socket S, and since which step"),
    )
}
# The forms of netrev's commands that nrdb answers itself.
FORMS = {
    "break": command(
        "break FILE:LINE | FUNCTION", "stops before each step at which a goroutine reaches a line or a function"
    ),
    "tbreak": command("tbreak FILE:LINE | FUNCTION", "like break, but its first stop deletes it"),
    "delete": command(
        "delete [pN]", "deletes the break pN at a line or function; without a number, deletes and lists all marks"
    ),
}
ALL_TOPICS = "; ".join(f"info {topic.usage}" for topic in TOPICS.values())

# The spellings that other debuggers use, and nrdb's equivalents.
SPELLINGS = {
    "s": "stepi",
    "step": "stepi",
    "n": "next",
    "nexti": "stepi",
    "ni": "stepi",
    "rs": "reverse-stepi",
    "reverse-step": "reverse-stepi",
    "reverse-nexti": "reverse-stepi",
    "rni": "reverse-stepi",
    "rn": "reverse-next",
    "fin": "finish",
    "f": "frame",
    "i": "info",
    "l": "list",
    "h": "help",
    "?": "help",
    "d": "delete",
    "g": "goto",
    "go": "goto",
    "gr": "goroutine",
    "thread": "goroutine",
    "bt": "where",
    "stack": "where",
    "backtrace": "where",
    "exit": "quit",
    "jump": "goto",
    "advance": "goto",
}
TOPIC_SPELLINGS = {"threads": "goroutines", "fds": "descriptors", "b": "breakpoints"}
TABLES_OF_OTHERS = {
    "goroutines": "goroutines",
    "grs": "goroutines",
    "threads": "goroutines",
}  # commands of other debuggers, topics of nrdb

FILE = re.compile(r"\b(FILE|OUT\.\w+)\b(?!:)")  # the words for a file in a command's usage
DIRECTIONS = ("reverse", "forward")
PAGINATION = "pagination"  # a setting of nrdb that GDB has too
SETTINGS = ("exec-direction", PAGINATION)


class AmbiguousWordError(NetrevError):
    """A word that is a prefix of several words."""

    def __init__(self, word: str, could_be: list[str]):
        super().__init__(messages.AMBIGUOUS.format(word=word, names=", ".join(could_be)))


def whole(word: str, known: Collection[str], spellings: Mapping[str, str] = {}) -> str:
    """The known word that a word stands for: the word itself, nrdb's word for another debugger's word, or the only
    known word that begins with the typed word. An unknown word is returned unchanged."""
    if word in known:
        return word
    if word in spellings:
        return spellings[word]
    near = sorted(name for name in known if name.startswith(word))
    if len(near) > 1:
        raise AmbiguousWordError(word, near)
    foreign = {spellings[name] for name in spellings if name.startswith(word)}
    return near[0] if near else foreign.pop() if len(foreign) == 1 else word


ALL_SPELLINGS = {**SPELLINGS, **SHORT}


@lru_cache(maxsize=1_024)
def whole_command(word: str) -> str:
    """The command for a word, which may be abbreviated or in another debugger's spelling. An unknown word is returned
    unchanged."""
    return whole(word, COMMANDS, ALL_SPELLINGS)


def whole_words(words: list[str]) -> list[str]:
    """The words of a line, with abbreviations of a command, a topic, a direction or a dump expanded."""
    if words[0] in TABLES_OF_OTHERS:
        return ["info", TABLES_OF_OTHERS[words[0]], *words[1:]]
    first = whole_command(words[0])
    rest = words[1:]
    if first == "info" and rest:
        rest[0] = whole(rest[0], TOPICS, TOPIC_SPELLINGS)
    elif first == "dump" and len(rest) == 2:
        rest[0] = whole(rest[0], DUMPS)
    elif first == "delete" and len(rest) == 2:
        rest[0] = whole(rest[0], ("checkpoint",), {"checkpoints": "checkpoint"})
    elif first == "set" and len(rest) == 2 and whole(rest[0], SETTINGS) == PAGINATION:
        return [PAGINATION, rest[1]]
    elif first == "save" and len(rest) == 2:
        rest[0] = whole(rest[0], ("breakpoints",))
    elif first == "set" and len(rest) == 2:
        rest = [whole(rest[0], ("exec-direction",)), whole(rest[1], DIRECTIONS)]
    return [first, *rest]


def parts_of(line: str) -> list[str]:
    """The commands of a line. Since a file's name may contain a `;`, the rest of the line belongs to a command that
    takes a file."""
    parts = []
    rest = line
    while rest:
        part, _, rest = rest.partition(";")
        if takes_a_file(part):
            part, rest = f"{part};{rest}" if rest else part, ""
        parts.append(part.strip())
    return [part for part in parts if part]


OF_FILES = frozenset(name for name, row in COMMANDS.items() if FILE.search(row.usage))


def takes_a_file(part: str) -> bool:
    """Whether a command takes the name of a file, by its usage."""
    words = part.split(None, 1)
    try:
        return bool(words) and whole_command(words[0]) in OF_FILES
    except AmbiguousWordError:
        return False


def is_answered_here(words: list[str]) -> bool:
    """Whether nrdb itself answers a line that consists of these words."""
    first, *rest = words
    if first == "info":
        return not rest or (rest[0] in TOPICS and TOPICS[rest[0]].origin is Origin.NRDB)
    return first in OF_NRDB
