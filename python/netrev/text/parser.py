"""Reads bytes as a recording, or reports the first fault, according to docs/reference/RECORDING.md."""

import re
from functools import lru_cache
from typing import Any

from netrev.errors import NetrevError

from .contents import GREATEST_TIME, Answer, Contents, Limits, Step
from .jsontext import NotJsonError, read_json
from .vocabulary import HEADERS
from .vocabulary import KINDS as OF_NRDB
from .vocabulary import VERSIONS, Kind, is_answer

LONGEST_LINE = 200_000
MOST_STEPS = 1_000_000
MOST_DIGITS = 131_072
# the greatest limits of the header, by version
RANGES = {
    version: {key: limit.greatest for key, limit in header.items() if key != "netrev"}
    for version, header in HEADERS.items()
}


def forms_of(kind: Kind) -> tuple[str, ...]:
    """The forms of a kind's arguments. `n` is a capacity or a count of bytes. Among the times, only deadlines are
    signed."""
    of_time = "deadline" if kind.name == "setdeadline" else "clock"
    return tuple({"rc": "n", "wc": "n", "time": of_time}.get(argument, argument) for argument in kind.arguments)


ARGUMENTS = {kind.name: forms_of(kind) for kind in OF_NRDB.values()}
# the kinds that recordings can have, by version
KINDS = {version: tuple(kind.name for kind in OF_NRDB.values() if kind.since <= version) for version in VERSIONS}


class FaultError(NetrevError):
    """The first fault of a recording, as it is printed."""


class LineFaultError(NetrevError):
    """A fault of one line, without its number."""


def is_whole(value: Any, least: int, greatest: int) -> bool:
    return type(value) is int and least <= value <= greatest


def is_argument(form: str, value: Any) -> bool:
    """Whether a value is an argument of this form."""
    if form == "side":
        return value in ("r", "w")
    if form == "mode":
        return value in ("r", "w", "rw")
    if form == "bytes":
        return isinstance(value, str) and len(value) % 2 == 0 and len(value) <= MOST_DIGITS and is_hexadecimal(value)
    ranges = {
        "tag": (0, 2**64 - 1),
        "err": (0, 1),
        "deadline": (-GREATEST_TIME - 1, GREATEST_TIME),
        "clock": (0, GREATEST_TIME),
    }
    return is_whole(value, *ranges.get(form, (0, 2**32 - 1)))


def is_hexadecimal(text: str) -> bool:
    return re.fullmatch("[0-9a-fA-F]*", text) is not None


@lru_cache(maxsize=10_000)
def value_of(line: bytes) -> Any:
    """The JSON value of a line, whose length the caller has checked. Callers must not change it, because equal lines
    share it."""
    try:
        return read_json(line)
    except NotJsonError as error:
        raise LineFaultError("102 not JSON") from error


def read_header(line: bytes) -> tuple[int, Limits]:
    """The version and the limits."""
    value = value_of(line)
    if not isinstance(value, dict) or set(value) != {"netrev", *Limits._fields}:
        raise LineFaultError("101 header")
    if not all(is_whole(number, 0, 2**64 - 1) for number in value.values()) or value["netrev"] not in VERSIONS:
        raise LineFaultError("101 header")
    version, limits = value["netrev"], Limits(*(value[key] for key in Limits._fields))
    if not all(1 <= getattr(limits, key) <= most for key, most in RANGES[version].items()):
        raise LineFaultError("105 limit")
    return version, limits


def step_of(version: int, value: Any) -> tuple[Step, Answer | None]:
    """The step in a line, and its recorded answer, which is None in version 1."""
    if not isinstance(value, list) or not value or not isinstance(value[0], str) or value[0] not in KINDS[version]:
        raise LineFaultError("103 unknown step")
    kind, *arguments = value
    answer = arguments.pop() if version == 2 and arguments else None
    if version == 2 and not is_answer(answer):
        raise LineFaultError("104 arguments")
    forms = ARGUMENTS[kind]
    if len(forms) != len(arguments) or not all(map(is_argument, forms, arguments)):
        raise LineFaultError("104 arguments")
    step = (kind, *(bytes.fromhex(value) if form == "bytes" else value for form, value in zip(forms, arguments)))
    return step, None if answer is None else answer_of(answer)


def answer_of(value: Any) -> Answer:
    """A recorded answer in the machine's form: a name, and for some answers a number."""
    return (value,) if isinstance(value, str) else tuple(value)


def read_text(text: bytes) -> Contents:
    """The Recording in a text, or the Fault of its first faulty line."""
    version, limits = 0, None
    steps: list[Step] = []
    answers: list[Answer | None] = []
    for number, line in enumerate(text.split(b"\n"), 1):
        try:
            if len(line) > LONGEST_LINE:
                raise LineFaultError("105 limit")
            if not line.strip(b" \t\r"):
                continue
            if limits is None:
                version, limits = read_header(line)
                continue
            value = value_of(line)
            if len(steps) == MOST_STEPS:
                raise LineFaultError("106 too many steps")
            step, answer = step_of(version, value)
            steps.append(step)
            answers.append(answer)
        except LineFaultError as fault:
            raise FaultError(f"line {number}: fault {fault}") from fault
    if limits is None:
        raise FaultError(f"line {text.count(10) + 1}: fault 101 header")
    return Contents(version, limits, steps, answers)
