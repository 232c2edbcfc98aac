"""Compares a recording with the machine: each answer and Go's own lock words, by netrev or by the model in Python."""

from __future__ import annotations

import json
import pathlib
import subprocess
from collections import defaultdict

from netrev.machine.observer import Observer
from netrev.machine.replay import positions
from netrev.text.jsontext import DoubtfulNumberError
from netrev.text.parser import FaultError, read_text

# A session has room for 65,536 commands that move, so longer recordings need several sessions.
AT_ONCE = 30_000

DIFFERS = "a lock word differs"
REFUSES = "the model in Python refuses the recording"
Word = tuple[int, str, str]


def read_words(name: pathlib.Path) -> list[Word]:
    """Go's lock words, as stored beside a recording."""
    words = (json.loads(line) for line in name.read_text().splitlines())
    return [(int(step), str(cell), str(value)) for step, cell, value in words]


def asked(netrev: str, recording: pathlib.Path, words: list[Word]) -> list[str]:
    """netrev's output for Go's lock words."""
    commands, at = [], 0
    for step, cell, _ in words:
        if step > at:
            commands.append(f"stepi {step - at}")
            at = step
        commands.append(f"print {cell}")
    text = "\n".join(commands) + "\n"
    run = subprocess.run([netrev, "run", recording], input=text, capture_output=True, text=True, check=False)
    return [reply for reply in run.stdout.splitlines() if " = " in reply]


def sentence(step: int, cell: str, value: str, recorded: str) -> str:
    """The message about a lock word that differs."""
    return f"step {step}: Go had {cell} = {value}, netrev says {recorded}"


def differing(netrev: str, recording: pathlib.Path) -> tuple[int, list[str]]:
    """The number of compared lock words, and a message for each word that differs."""
    words = read_words(recording.with_suffix(".words"))
    sentences: list[str] = []
    for first in range(0, len(words), AT_ONCE):
        sentences += asked(netrev, recording, words[first : first + AT_ONCE])
    if len(sentences) != len(words):
        return len(words), [f"netrev gave {len(sentences)} values of {len(words)}"]
    return len(words), [
        sentence(step, cell, value, reply)
        for (step, cell, value), reply in zip(words, sentences)
        if reply != f"{cell} = {value}"
    ]


def by_the_model(recording: pathlib.Path) -> tuple[bool, str]:
    """Whether the model accepts the recording with all its answers and lock words, and the model's message."""
    words: dict[int, list[Word]] = defaultdict(list)
    for word in read_words(recording.with_suffix(".words")):
        words[word[0]].append(word)
    position = 0
    try:
        for position, (world, _) in enumerate(positions(read_text(recording.read_bytes()), Observer())):
            for step, cell, value in words.get(position, ()):
                number_now = world.sockets[int(cell.split()[1])].lock.number
                if str(number_now) != value:
                    return False, f"{DIFFERS}: {sentence(step, cell, value, f'{cell} = {number_now}')}"
    except FaultError as fault:
        return False, f"{REFUSES}: {fault}"
    except DoubtfulNumberError as doubt:
        return False, f"{REFUSES}: it can't decide about {doubt}"
    return True, f"ok {position} steps"
