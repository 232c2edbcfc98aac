"""Hints about a line that netrev rejects with a fault."""

import difflib
import re
import unicodedata
from collections.abc import Callable

from netrev.messages import lines as messages
from netrev.text.vocabulary import CELLS, DUMPS, KINDS, MOST, MOST_LINE, Cell, ObjectKind, cell_of, number_of

from .commands import ALL_TOPICS, COMMANDS, SPELLINGS, TOPIC_SPELLINGS, TOPICS


def hint(words: list[str], fault: str) -> str:
    """The hint for a line that netrev rejected: the line has these words, and netrev answered with this fault."""
    number = fault.split()[1]
    if number == "201":
        return unknown(words)
    if number == "202":
        advice = ADVICE[words[0]](words[1:]) if words[0] in ADVICE else ""
        usage = f"{COMMANDS[words[0]].usage}: {COMMANDS[words[0]].says}" if words[0] in COMMANDS else ""
        return advice or usage
    return messages.FAULTS.get(number, messages.HELP).format(most=MOST_LINE)


def unknown(words: list[str]) -> str:
    """The hint for a word that isn't a command."""
    first, _, form = words[0].partition("/")
    plain = unicodedata.normalize("NFKC", words[0]).lower().rstrip("!;")
    if words[0].startswith("!"):
        return messages.FOREIGN["shell"]
    if form and first in ("p", "print"):
        return messages.NO_FORMAT
    if first in messages.FOREIGN:
        return messages.FOREIGN[first]
    if (topic := TOPIC_SPELLINGS.get(plain, plain)) in TOPICS:
        return messages.TOPIC.format(topic=topic, shows=TOPICS[topic].says)
    if number_of(words[0]) is not None:
        return messages.GOTO.format(number=words[0])
    if cell_of(words):
        return messages.PRINT.format(cell=" ".join(words))
    known = [*COMMANDS, *SPELLINGS, *(short for command in COMMANDS.values() for short in command.short)]
    if plain in known:
        return messages.LOWER_CASE.format(name=SPELLINGS.get(plain, plain))
    near = difflib.get_close_matches(plain, list(COMMANDS), n=3)
    return messages.DID_YOU_MEAN.format(names=" or ".join(near)) if near else messages.HELP


def of_cell(words: list[str], command: str) -> str:
    """The hint for words that should name a cell but don't."""
    if not words:
        return messages.WHICH_CELL.format(command=command, cells=" ".join(CELLS))
    name = words[0].lstrip("*&$")
    if found := re.fullmatch(r"(g|s|d|[a-z]+)\[?(\d+)\]?", name):
        spelled = {"g": "gor", "s": "lock", "d": "info"}.get(found[1], found[1])
        if spelled in CELLS:
            return messages.DID_YOU_MEAN.format(names=f"{command} {spelled} {found[2]}")
    if name in DUMPS and name not in CELLS:
        return messages.DUMPED.format(name=name, shows=DUMPS[name])
    if name not in CELLS:
        near = difflib.get_close_matches(name, list(CELLS), n=2, cutoff=0.5)
        if near:
            return messages.DID_YOU_MEAN.format(names=" or ".join(near))
        return messages.CELLS.format(cells=" ".join(CELLS))
    return of_numbered(CELLS[name], words[1:], command)


def of_numbered(cell: Cell, rest: list[str], command: str) -> str:
    """The hint for a known cell with wrong words after it."""
    if cell.of is ObjectKind.ALL:
        return messages.NO_NUMBER.format(command=command, cell=cell.name)
    if not rest:
        return messages.NUMBER_OF.format(command=command, cell=cell.name, of=cell.of.value)
    digits = rest[0].strip("gsd[]")
    if number_of(digits) is None:
        return messages.NOT_A_NUMBER.format(word=rest[0], command=command, cell=cell.name)
    if len(rest) == 1:
        return messages.DID_YOU_MEAN.format(names=f"{command} {cell.name} {digits}")
    if len(rest) > 1 and command == "watch":
        return of_condition(f"{cell.name} {digits}", rest[1:])
    return messages.ONE_AT_A_TIME.format(of=cell.of.value, command=command, cell=cell.name, number=digits)


def of_condition(cell: str, words: list[str]) -> str:
    """The hint for `watch CELL` with more words: they are a value of that cell, or a condition on another cell."""
    rest = [word for word in words if word not in ("if", "=", "==")]
    length = next((length for length in (2, 1) if cell_of(rest[:length]) and rest[length:]), 0)
    if not length:
        value = " ".join(rest).rstrip("*")
        return messages.VALUE_OF_CELL.format(cell=cell, value=value)
    other, value = " ".join(rest[:length]), " ".join(rest[length:]).rstrip("*")
    if other == cell:
        return of_condition(cell, rest[length:])
    return messages.VALUE_OF_OTHER.format(cell=cell, other=other, value=value)


def of_steps(words: list[str], command: str) -> str:
    """The hint for a number of steps."""
    if len(words) > 1:
        return messages.ONLY_A_NUMBER.format(command=command)
    if re.fullmatch(r"-\d+", words[0]):
        back = "stepi" if command.startswith("reverse") else "reverse-stepi"
        return messages.OTHER_WAY.format(command=back, number=words[0][1:])
    number = spelled_number(words[0])
    if number is None or number == 0:
        return messages.FROM_ONE.format(command=command)
    return messages.DECIMAL.format(command=command, number=number)


def spelled_number(word: str) -> int | None:
    """The number that a word gives in another notation; None if the word isn't a number, or if netrev never accepts
    that number."""
    try:
        number = int(word, 0)
    except ValueError:
        try:
            number = int(float(word))
        except (ValueError, OverflowError):
            return None
    return number if number <= MOST else None


def of_break(words: list[str], command: str = "break") -> str:
    """The hint for the place of a break."""
    if not words:
        return messages.BREAK.format(command=command)
    word = words[0]
    if word == "line" and len(words) > 1 and (line := number_of(words[1])) and line > 1:
        return messages.LINE_IS_STEP.format(line=line, step=line - 1, command=command)
    if number_of(word):
        return messages.STEP_BY_NUMBER.format(command=command, step=number_of(word))
    if word.startswith("@"):
        return messages.STEP.format(command=command)
    if word in KINDS:
        return messages.ONLY_A_KIND.format(command=command, kind=word)
    if cell_of(words):
        return messages.IS_A_CELL.format(word=word, words=" ".join(words))
    return kind_hint(word)


def kind_hint(word: str) -> str:
    """A hint that names the kind of step that a word may mean."""
    plain = re.sub(r"^(runtime|internal/poll|poll)[._]", "", word).lower()
    if plain.replace("_", "") in KINDS:
        return messages.DID_YOU_MEAN.format(names=plain.replace("_", ""))
    near = difflib.get_close_matches(plain, list(KINDS), n=3) or [kind for kind in KINDS if kind.startswith(plain)]
    if near:
        return messages.DID_YOU_MEAN.format(names=" or ".join(near))
    return messages.KINDS.format(kinds=" ".join(KINDS))


def of_delete(words: list[str]) -> str:
    """The hint for words after `delete`."""
    if words[:1] == ["checkpoint"]:
        return messages.DELETE_CHECKPOINT
    numbers = [word for word in words if number_of(word) is not None]
    return messages.ONE_MARK.format(number=numbers[0] if numbers else 1)


def of_dump(words: list[str]) -> str:
    """The hint for words after `dump`."""
    kinds = "|".join(DUMPS)
    if not words or (len(words) == 1 and words[0] not in DUMPS):
        return messages.DUMP.format(kinds=kinds, number=words[0] if words and number_of(words[0]) is not None else 0)
    if words[0] not in DUMPS:
        return messages.NOT_DUMPED.format(word=words[0], kinds=kinds)
    digits = words[1].strip("s[]") if len(words) > 1 else "0"
    number = digits if number_of(digits) is not None else "0"
    return messages.DUMP_NUMBER.format(kind=words[0], number=number)


def of_info(words: list[str]) -> str:
    """The hint for an unknown topic."""
    if words and words[0] in TOPICS:
        return messages.TAKES_NOTHING.format(command=f"info {words[0]}")
    return ALL_TOPICS


def of_set(words: list[str]) -> str:
    """The hint for words after `set`."""
    if words and words[0] not in ("exec-direction", "direction"):
        return messages.SETTINGS
    return messages.DIRECTIONS


def of_continue(words: list[str], command: str) -> str:
    """The hint for a search with words after it."""
    if len(words) == 1 and number_of(words[0]):
        step = command.replace("continue", "stepi")
        return messages.CONTINUE_BY_NUMBER.format(command=command, step=step, number=words[0])
    return messages.CONTINUE.format(command=command)


def of_restart(words: list[str]) -> str:
    """The hint for words after `restart`."""
    return messages.RESTART


def of_checkpoint(words: list[str]) -> str:
    """The hint for words after `checkpoint`."""
    number = number_of(words[0]) if words else None
    return messages.CHECKPOINT if number is None else messages.CHECKPOINT_AT.format(number=number)


ADVICE: dict[str, Callable[[list[str]], str]] = {
    "stepi": lambda words: of_steps(words, "stepi"),
    "reverse-stepi": lambda words: of_steps(words, "reverse-stepi"),
    "continue": lambda words: of_continue(words, "continue"),
    "reverse-continue": lambda words: of_continue(words, "reverse-continue"),
    "print": lambda words: of_cell(words, "print"),
    "watch": lambda words: of_cell(words, "watch"),
    "break": of_break,
    "tbreak": lambda words: of_break(words, "tbreak"),
    "delete": of_delete,
    "dump": of_dump,
    "info": of_info,
    "set": of_set,
    "restart": of_restart,
    "checkpoint": of_checkpoint,
    "quit": lambda _: messages.TAKES_NOTHING.format(command="quit"),
    "resume": lambda _: messages.TAKES_NOTHING.format(command="resume"),
}
