"""Recordings as text: well formed in one of many ways, random bytes, random JSON, and numbers at the limits of a line's
arguments."""

import json
import random
import re
from itertools import chain

from netrev.text.contents import Contents
from netrev.text.parser import ARGUMENTS, KINDS, MOST_DIGITS, RANGES
from netrev.text.vocabulary import COUNTED_ANSWERS, PLAIN_ANSWERS, VERSIONS
from netrev.text.writer import header_of, write_plain

BLANKS = [b"", b"  ", b"\t", b"\r", b" \t \r"]
PIECES = """[ ] { } , : " \\ 0 1 -0 1.0 1e0 -1 1e999 true false null "r" "rw" [] {} "spawn" "exit" ["spawn"] ["exit",0]
"\\ud800" {"\\udc00":1} ["spawn",{"a":"\\ud800"}] "\\ud83d\\ude00" "\\u0072" NaN Infinity 00 .5 1. +1 'r' // "netrev":1 "gor":4 "sock":1 "desc":1 "buf":9
18446744073709551615 18446744073709551616 -9223372036854775808 ["pop"] ["tick",5] "netrev":2 "done" ["got",2] ["code",0]
["pop","done"] ["tick",5,"done"] ["spawn",["number",1]] ["closewrite",0,0,"done"]""".split()
NUMBERS = [
    0,
    1,
    2,
    2**32 - 1,
    2**32,
    2**63 - 1,
    2**63,
    2**64 - 1,
    2**64,
    -1,
    -(2**63),
    -(2**63) - 1,
    10**30,
]
ODD = ["-0", "1.0", "1e0", "0.0", "-1.5", "1E2", "0e5", "1e-999", "null", "true", '"1"', '""', "[]", "{}", "[0]", '"R"']
ENDS: dict[str, list[int]] = {
    "tag": [2**64 - 1],
    "err": [],
    "deadline": [-1, 2**63 - 1, -(2**63)],
    "clock": [2**63 - 1],
}
WITH_LIMITS = ("arrive", "syswrite", "setdeadline", "pollevent", "tick")
TEXTS = ["r", "w", "rw", "wr", "", "R", "6869", "686", "6g", "ABcd", "0x12", " 12", "é1", "00", "done", "Done", "got"]
# texts that aren't valid recorded answers
NO_ANSWERS = [
    *("null", "0", "{}", "[]", '"Done"', '""', '"got"', '["done"]', '["got"]', '["got",1,1]', '["got","1"]'),
    '["got",-1]',
    *(
        '["got",1.0]',
        '["got",4294967296]',
        '["Got",1]',
        '[1,"got"]',
        '["number",-0]',
        '[["got"],1]',
        '{"got":1}',
        "true",
    ),
]


def write_text(dice: random.Random, recording: Contents) -> bytes:
    """The text of a recording in one of its possible forms."""
    plain = write_plain(recording)
    if dice.random() < 0.4:
        return plain
    lines = plain.split(b"\n")[:-1]
    lines[0] = shuffled_header(dice, recording)
    if dice.random() < 0.3:
        lines = [line.replace(b",", b" ,\t ") for line in lines]
    if dice.random() < 0.3:
        lines = [line.replace(b'"rw"', b'"\\u0072w"').replace(b'"r"', b'"\\u0072"') for line in lines]
        lines = [line.replace(b'"done"', b'"d\\u006Fne"').replace(b'"code"', b'"\\u0063ode"') for line in lines]
    if dice.random() < 0.3:
        lines = [re.sub(rb'"[0-9a-f]+"', lambda found: found[0].upper(), line) for line in lines]
    if dice.random() < 0.3:
        for _ in range(dice.randint(1, 4)):
            lines.insert(dice.randint(0, len(lines)), dice.choice(BLANKS))
    end = dice.choice([b"\n", b"\n", b"\r\n", b" \n"])
    text = end.join(lines)
    return text if dice.random() < 0.3 else text + end


def shuffled_header(dice: random.Random, recording: Contents) -> bytes:
    """The header with its keys in any order, sometimes with a key twice."""
    items: list[tuple[str, object]] = list(header_of(recording).items())
    dice.shuffle(items)
    if dice.random() < 0.2:
        items.insert(0, (dice.choice(items)[0], dice.choice([0, 1, "x", 3])))
    spaces = dice.choice(["", " "])
    return (
        "{" + ",".join(f"{spaces}{json.dumps(key)}:{spaces}{json.dumps(value)}" for key, value in items) + "}"
    ).encode()


def random_bytes(dice: random.Random) -> bytes:
    alphabet = dice.choice([bytes(range(256)), b'[]{}",:0123456789-.eE \t\r\n\\urwspawnexit', b"\n\r\t []", b"\n\r\t "])
    data = bytes(dice.choices(alphabet, k=dice.choice([0, 1, 5, 40, 400])))
    return data if dice.random() < 0.5 else small_header(dice).encode() + b"\n" + data


def small_header(dice: random.Random) -> str:
    return f'{{"netrev":{dice.choice(VERSIONS)},"gor":4,"sock":2,"desc":2,"buf":16}}'


def random_json(dice: random.Random) -> bytes:
    """Lines made of pieces of JSON, mostly malformed, sometimes after a good header."""
    lines = []
    if dice.random() < 0.7:
        lines.append(small_header(dice))
    for _ in range(dice.randint(1, 4)):
        if dice.random() < 0.5:
            lines.append(json.dumps(random_value(dice, 0)))
        elif dice.random() < 0.3:
            lines.append(nested(dice))
        else:
            lines.append(dice.choice(["", " "]).join(dice.choices(PIECES, k=dice.randint(1, 6))))
    return "\n".join(lines).encode()


def nested(dice: random.Random) -> str:
    deep = dice.choice([126, 127, 128, 129, 2000])
    opening, closing = dice.choice([("[", "]"), ("[", "]"), ('{"a":', "}")])
    return opening * deep + dice.choice(["", "1"] if opening == "[" else ["1"]) + closing * deep


def random_value(dice: random.Random, depth: int) -> object:
    roll = dice.random()
    if depth < 3 and roll < 0.35:
        return [random_value(dice, depth + 1) for _ in range(dice.randint(0, 4))]
    if depth < 3 and roll < 0.45:
        keys = [*RANGES[1], "netrev", "x"]
        return {dice.choice(keys): random_value(dice, depth + 1) for _ in range(dice.randint(0, 5))}
    return dice.choice([*KINDS[2], *TEXTS, *PLAIN_ANSWERS, *COUNTED_ANSWERS, *NUMBERS, 1.5, None, True, False])


def at_limits(dice: random.Random) -> bytes:
    """A header, and steps that have the right number of arguments in the right form; most arguments are at a limit or
    one past it."""
    version = dice.choice(VERSIONS)
    lines = [limits_header(dice, version)]
    for _ in range(dice.randint(1, 5)):
        kind = dice.choice(KINDS[version if dice.random() < 0.95 else 2] if dice.random() < 0.7 else WITH_LIMITS)
        arguments = [limits_argument(dice, form) for form in ARGUMENTS[kind]]
        if (version == 2) == (dice.random() < 0.97):
            arguments.append(limits_answer(dice))
        if dice.random() < 0.05:
            arguments = dice.choice([arguments[:-1], [*arguments, "0"], [*arguments, '"done"']])
        lines.append(f"[{','.join(chain([json.dumps(kind)], arguments))}]")
    return "\n".join(lines).encode()


def limits_answer(dice: random.Random) -> str:
    """A text that is or isn't a recorded answer."""
    if dice.random() < 0.1:
        return dice.choice(NO_ANSWERS)
    if dice.random() < 0.5:
        return json.dumps(dice.choice(PLAIN_ANSWERS))
    return json.dumps([dice.choice(COUNTED_ANSWERS), dice.choice([0, 1, 2**32 - 1])])


def limits_header(dice: random.Random, version: int) -> str:
    header = {"netrev": str(version)}
    for key, most in RANGES[version].items():
        good = dice.random() < 0.95
        header[key] = str(dice.choice([1, most, 2, 4]) if good else dice.choice([0, most + 1, *NUMBERS, *ODD]))
    if dice.random() < 0.05:
        header["netrev"] = dice.choice(["0", "1", "2", "3", "1.0", "2.0", "-0", "-1", '"2"'])
    if dice.random() < 0.03:
        del header[dice.choice(list(header))]
    if dice.random() < 0.03:
        header[dice.choice(["more", "Gor", "gor "])] = "1"
    return "{" + ",".join(f'"{key}":{value}' for key, value in header.items()) + "}"


def limits_argument(dice: random.Random, form: str) -> str:
    """An argument as text: mostly the least or greatest value of its form, otherwise a value just outside these limits
    or of another form."""
    if dice.random() < 0.05:
        return dice.choice(ODD)
    past = dice.random() < 0.1
    if form in ("side", "mode"):
        return json.dumps(dice.choice(TEXTS if past else ["r", "w"] if form == "side" else ["r", "w", "rw"]))
    if form == "bytes":
        return f'"{limits_bytes(dice, past)}"'
    ends: list[int] = ENDS.get(form, [2**32 - 1])
    return str(dice.choice(NUMBERS if past else [0, 1, *ends]))


def limits_bytes(dice: random.Random, past: bool) -> str:
    if dice.random() < 0.2:
        return "aB" * (MOST_DIGITS // 2 + dice.choice([0, 1] if past else [0, -1]))
    return dice.choice(
        ["686", "6g", " 12", "0x12", "6 8", "\u00e9\u00e9"] if past else ["", "6869", "ABcd", "00", "Ff"]
    )
