"""Hints about a line of a recording that netrev rejects with fault 101 to 106."""

import json
import re
import unicodedata
from typing import Any

from netrev.messages import texts as messages
from netrev.recording.answers import spelled
from netrev.recording.recording import Recording
from netrev.text.vocabulary import (
    HEADER_EXAMPLE,
    HEADERS,
    KINDS,
    MOST,
    VERSIONS,
    Kind,
    Limit,
    Written,
    is_answer,
    written,
)

from .line_hints import kind_hint

MOST_BYTES = 200_000
MOST_STEPS = 1_000_000


def text_hint(recording: Recording, number: int, fault: int) -> str:
    """The hint for line `number`, in which netrev found this fault."""
    line = recording.line(number)
    for magic, message in messages.MAGIC.items():
        if line.startswith(magic):
            return message
    if len(line) > MOST_BYTES:
        return messages.LONG_LINE.format(bytes=len(line), most=MOST_BYTES)
    if fault == 106:
        return messages.MANY_STEPS.format(most=MOST_STEPS)
    if b"\0" in line:
        return messages.NUL
    try:
        text = line.decode("utf-8").strip(" \t\r")
    except UnicodeDecodeError as error:
        return messages.NOT_UTF8.format(number=error.start + 1)
    value = parsed(text)
    if fault == 102 or value is None:
        return json_hint(recording, number, text)
    if fault == 104:
        return (answered_hint if recording.has_answers else arguments_hint)(value)
    return {101: header_hint, 105: header_hint, 103: kind_of_step_hint}[fault](value)


def parsed(text: str) -> Any:
    """The JSON value of a text; None if the text isn't JSON."""
    try:
        return json.loads(text)
    except (ValueError, RecursionError):
        return None


def json_hint(recording: Recording, number: int, text: str) -> str:
    """The hint for a line that isn't JSON."""
    is_last = recording.is_last(number)
    if not text:
        return messages.EMPTY if is_last else messages.NO_HEADER
    if "\r" in text:
        return messages.CARRIAGE_RETURNS
    if text.startswith(("//", "#", "/*", ";")):
        return messages.COMMENTS
    if number == recording.header_line and text == "{":
        return messages.ONE_LINE.format(example=HEADER_EXAMPLE)
    if text.endswith(",") and parsed(text[:-1]) is not None:
        return messages.COMMA_AT_END
    if re.search(r",\s*[\]}]", text):
        return messages.COMMA_AT_BRACKET
    if "'" in text and parsed(text.replace("'", '"')) is not None:
        return messages.QUOTES
    if found := re.match(r"[^\[{]+([\[{].*)", text):
        if parsed(found[1]) is not None:
            return messages.BEFORE_BRACKET.format(text=found[0][: -len(found[1])].strip())
    if is_last and text.startswith("[") and "]" not in text:
        return messages.LAST_LINE_IS_CUT
    try:
        json.loads(text)
    except json.JSONDecodeError as error:
        return messages.JSON_ERROR.format(number=error.pos + 1)
    except (ValueError, RecursionError):
        pass
    return messages.OTHER_JSON


def header_hint(value: Any) -> str:
    """The hint for a first line that isn't a valid header."""
    if isinstance(value, list) and value and isinstance(value[0], dict):
        return messages.ONE_ARRAY
    if not isinstance(value, dict):
        return messages.NOT_A_HEADER.format(example=HEADER_EXAMPLE)
    version = value.get("netrev", VERSIONS[0])
    limits = HEADERS[version if version in VERSIONS else VERSIONS[-1]]
    faults = [
        messages.KEY_IS_MISSING.format(key=key, says=limit.says) for key, limit in limits.items() if key not in value
    ]
    faults += [messages.KEY_IS_UNKNOWN.format(key=key) for key in value if key not in limits]
    for key, limit in limits.items():
        given = value.get(key, limit.least)
        if not (type(given) is int and limit.least <= given <= limit.greatest):
            words = limits_words(key, limit)
            faults.append(messages.KEY_IS_WRONG.format(key=key, given=json.dumps(given), limits=words))
    return "; ".join(faults)


def limits_words(key: str, limit: Limit) -> str:
    """The values that a key may have."""
    if key == "netrev":
        return messages.EITHER.format(least=limit.least, greatest=limit.greatest)
    newest = HEADERS[VERSIONS[-1]][key].greatest
    given = {"least": limit.least, "greatest": limit.greatest}
    if limit.greatest == newest:
        return messages.WHOLE_NUMBER.format(**given)
    return messages.WHOLE_NUMBER_IN_VERSION.format(**given, version=VERSIONS[-1], newest=newest)


def kind_of_step_hint(value: Any) -> str:
    """The hint for a step of an unknown kind."""
    if isinstance(value, dict) and "netrev" in value:
        return messages.SECOND_HEADER
    name = value[0] if isinstance(value, list) and value else None
    if not isinstance(name, str):
        return messages.NOT_A_STEP
    if name in KINDS:
        return messages.NEWER_KIND.format(kind=name, since=KINDS[name].since)
    plain = re.sub(r"^(runtime|internal/poll|poll)[._]|[^a-z]", "", unicodedata.normalize("NFKC", name).lower())
    return messages.GO_NAMES.get(plain) or kind_hint(plain if plain in KINDS else name.lower())


def answered_hint(value: list[Any]) -> str:
    """The hint for a step of version 2 whose arguments or recorded answer are wrong."""
    kind, given = KINDS[value[0]], value[1:]
    if given and is_answer(given[-1]):
        return arguments_hint(value[:-1])
    if len(given) <= len(kind.arguments):
        return messages.ANSWER_IS_MISSING.format(usage=kind.usage, answers=spelled(kind.name))
    shown = json.dumps(given[-1])[:40]
    return messages.ANSWER_IS_WRONG.format(usage=kind.usage, given=shown, answers=spelled(kind.name))


def arguments_hint(value: list[Any]) -> str:
    """The hint for a step whose arguments are wrong."""
    kind = KINDS[value[0]]
    given = value[1:]
    if len(given) == len(kind.arguments) + 1 and is_answer(given[-1]):
        return messages.ANSWER_IN_VERSION_1.format(usage=kind.usage, given=json.dumps(given[-1]))
    if len(given) != len(kind.arguments):
        wanted = f"{len(kind.arguments)} ({' '.join(kind.arguments)})" if kind.arguments else "none"
        return messages.ARGUMENTS.format(usage=kind.usage, expected=wanted, given=len(given))
    wrong = [argument_hint(kind, name, argument) for name, argument in zip(kind.arguments, given)]
    return f"{kind.usage}: " + "; ".join(filter(None, wrong))


def argument_hint(kind: Kind, name: str, given: Any) -> str | None:
    """A description of what is wrong with an argument; None if the argument is valid."""
    how = written(kind, name)
    if is_written(how, given):
        return None
    shown = json.dumps(given)
    given = shown if len(shown) <= 40 else f"{shown[:38]}.."
    return messages.ARGUMENT_IS_WRONG.format(name=name, given=given, form=how.value)


def is_written(how: Written, given: Any) -> bool:
    """Whether an argument has the required form."""
    if how is Written.SIDE:
        return given in ("r", "w")
    if how is Written.MODE:
        return given in ("r", "w", "rw")
    if how is Written.BYTES:
        return (
            isinstance(given, str) and re.fullmatch("(?:[0-9a-fA-F]{2})*", given) is not None and len(given) <= 131_072
        )
    ranges = {
        Written.NUMBER: (0, MOST),
        Written.TAG: (0, 2**64 - 1),
        Written.BIT: (0, 1),
        Written.DEADLINE: (-(2**63), 2**63 - 1),
        Written.CLOCK: (0, 2**63 - 1),
    }
    least, greatest = ranges[how]
    return type(given) is int and least <= given <= greatest
