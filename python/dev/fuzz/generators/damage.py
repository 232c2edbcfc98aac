"""Damage to the text of a good recording: bytes, lines and numbers are changed, cut, duplicated, dropped or swapped."""

import random
import re

from netrev.text.parser import LONGEST_LINE, RANGES

from .texts import BLANKS, NO_ANSWERS, NUMBERS, PIECES, TEXTS


def damaged(dice: random.Random, text: bytes) -> bytes:
    """The text after it was damaged one to three times."""
    for _ in range(dice.choice([1, 1, 1, 2, 3])):
        text = dice.choice(DAMAGES)(dice, text)
    return text


def byte_changed(dice: random.Random, text: bytes) -> bytes:
    if not text:
        return text
    place = dice.randrange(len(text))
    return text[:place] + dice.randbytes(1) + text[place + 1 :]


def byte_likened(dice: random.Random, text: bytes) -> bytes:
    """Changes one byte to another byte that occurs in recordings."""
    if not text:
        return text
    place = dice.randrange(len(text))
    return text[:place] + bytes([dice.choice(b'[]{}",:0123456789-.erwg \n')]) + text[place + 1 :]


def cut_short(dice: random.Random, text: bytes) -> bytes:
    return text[: dice.randint(0, len(text))]


def piece_doubled(dice: random.Random, text: bytes) -> bytes:
    start = dice.randint(0, len(text))
    piece = text[start : start + dice.choice([1, 2, 10, 60])]
    return text[:start] + piece + text[start:]


def piece_dropped(dice: random.Random, text: bytes) -> bytes:
    start = dice.randint(0, len(text))
    return text[:start] + text[start + dice.choice([1, 2, 10, 60]) :]


def put_in(dice: random.Random, text: bytes) -> bytes:
    start = dice.randint(0, len(text))
    piece = (
        dice.choice(PIECES).encode() if dice.random() < 0.6 else dice.choice([b"\r", b"\0", b"\xff", b"\xef\xbb\xbf"])
    )
    return text[:start] + piece + text[start:]


def line_dropped(dice: random.Random, text: bytes) -> bytes:
    lines = text.split(b"\n")
    del lines[dice.randrange(len(lines))]
    return b"\n".join(lines)


def line_doubled(dice: random.Random, text: bytes) -> bytes:
    lines = text.split(b"\n")
    lines.insert(dice.randint(0, len(lines)), dice.choice(lines))
    return b"\n".join(lines)


def lines_exchanged(dice: random.Random, text: bytes) -> bytes:
    lines = text.split(b"\n")
    index, other = dice.randrange(len(lines)), dice.randrange(len(lines))
    lines[index], lines[other] = lines[other], lines[index]
    return b"\n".join(lines)


def blank_line(dice: random.Random, text: bytes) -> bytes:
    lines = text.split(b"\n")
    lines.insert(dice.randint(0, len(lines)), dice.choice([*BLANKS, b"\f", b"\v", b"\xc2\xa0"]))
    return b"\n".join(lines)


def line_lengthened(dice: random.Random, text: bytes) -> bytes:
    """Pads a line, or an empty line, with blanks to about the greatest length of a line."""
    lines = text.split(b"\n")
    place = dice.randrange(len(lines))
    line = b"" if dice.random() < 0.3 else lines[place]
    blanks = dice.choice([b" ", b"\t", b"\r"]) * max(0, LONGEST_LINE + dice.choice([-1, 0, 0, 1]) - len(line))
    lines[place] = line + blanks if dice.random() < 0.7 else blanks + line
    return b"\n".join(lines)


def number_changed(dice: random.Random, text: bytes) -> bytes:
    """Changes a number to another number that is near it or at a limit."""
    numbers = list(re.finditer(rb"-?\d+", text))
    if not numbers:
        return text
    found = dice.choice(numbers)
    number = int(found[0]) if len(found[0]) < 40 else 0
    near = [number - 1, number + 1, -number, number * 10, *RANGES[1].values(), RANGES[2]["buf"], *NUMBERS]
    return text[: found.start()] + str(dice.choice(near)).encode() + text[found.end() :]


def word_changed(dice: random.Random, text: bytes) -> bytes:
    """Changes a text in quotes to another text, which may or may not be valid there."""
    words = list(re.finditer(rb'"[^"\n]*"', text))
    if not words:
        return text
    found = dice.choice(words)
    other = dice.choice(words)[0] if dice.random() < 0.7 else f'"{dice.choice(TEXTS)}"'.encode()
    return text[: found.start()] + other + text[found.end() :]


def last_element_changed(dice: random.Random, text: bytes) -> bytes:
    """Removes, duplicates or changes the last element of a line; in version 2, that is the recorded answer."""
    lines = text.split(b"\n")
    place = dice.randrange(len(lines))
    if found := re.fullmatch(rb"(\[.*),((?:\[[^\[\]]*\]|[^,\]]*))\](\s*)", lines[place]):
        before, last, after = found.groups()
        other = dice.choice([*NO_ANSWERS, '"done"', '"yes"', '["got",1]', '["code",0]']).encode()
        put = dice.choice([b"", b"," + last + b"," + last, b"," + other, b"," + other])
        lines[place] = before + put + b"]" + after
    return b"\n".join(lines)


def lines_ended_otherwise(dice: random.Random, text: bytes) -> bytes:
    return text.replace(b"\n", dice.choice([b"\r\n", b"\r", b"\n\n"]))


DAMAGES = (
    *(byte_changed, byte_likened, cut_short, piece_doubled, piece_dropped, put_in),
    *(line_dropped, line_doubled, lines_exchanged, blank_line, line_lengthened),
    *(number_changed, number_changed, word_changed, word_changed, lines_ended_otherwise),
    *(last_element_changed, last_element_changed),
)
