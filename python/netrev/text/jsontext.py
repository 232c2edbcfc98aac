"""Reads a line of JSON as strictly as docs/reference/RECORDING.md says. Unlike Python's `json`, it rejects

- `NaN`, `Infinity`, numbers too large for floating point, and half of a surrogate pair;
- arrays and objects nested 128 deep;

It doesn't accept, as a whole number, `-0`, a number with a point or an exponent, or a number that doesn't fit into 64
bits.

JSON parsers differ about numbers close to the largest floating-point number. `DoubtfulNumberError` is raised for such a
number, and the case isn't judged.
"""

import json
import re
from decimal import Decimal, InvalidOperation
from typing import Any, NoReturn

from netrev.errors import NetrevError

DEEPEST = 127
DOUBTED = (Decimal("1.7976e308"), Decimal("1.7978e308"))


class NotJsonError(NetrevError, ValueError):
    """Raised if the text isn't JSON."""


class DoubtfulNumberError(NetrevError):
    """A number that JSON parsers may read differently."""


class Fraction:
    """A number that isn't accepted as a whole number."""


def whole(text: str) -> object:
    if text == "-0":
        return Fraction()
    if len(text) < 21:
        return int(text)
    return fraction(text)


def fraction(text: str) -> Fraction:
    try:
        if DOUBTED[0] <= Decimal(text).copy_abs() <= DOUBTED[1]:
            raise DoubtfulNumberError(text)
    except InvalidOperation:  # the exponent is too large for Decimal
        pass
    if float(text) in (float("inf"), float("-inf")):
        raise NotJsonError(text)
    return Fraction()


def no_constant(text: str) -> NoReturn:
    raise NotJsonError(text)


def pairs(items: list[tuple[str, object]]) -> dict[str, object]:
    """An object; if a key occurs twice, its last value counts. Each string in it is checked."""
    for key, value in items:
        whole_text(key)
        whole_text(value)
    return dict(items)


def whole_text(value: object) -> None:
    """Rejects half of a surrogate pair anywhere in the value. (Objects were checked when they were read.)"""
    if isinstance(value, str) and any("\ud800" <= letter <= "\udfff" for letter in value):
        raise NotJsonError("half of a surrogate pair")
    if isinstance(value, list):
        for item in value:
            whole_text(item)


def depth(text: str) -> int:
    """How deep the text nests arrays and objects; brackets in strings don't count."""
    deepest = now = 0
    for bracket in re.findall(r'"(?:[^"\\]|\\.)*"|[\[\]{}]', text):
        now += (bracket in "[{") - (bracket in "]}")
        deepest = max(deepest, now)
    return deepest


def read_json(line: bytes) -> Any:
    """The value of a line of bytes."""
    try:
        text = line.decode("utf-8")
        if depth(text) > DEEPEST:
            raise NotJsonError("too deep")
        value = json.loads(
            text, parse_int=whole, parse_float=fraction, parse_constant=no_constant, object_pairs_hook=pairs
        )
    except (ValueError, RecursionError) as error:
        raise NotJsonError(str(error)) from error
    whole_text(value)
    return value
