"""nrdb's answers to random lines about some recordings, and the files that it writes; the lines use all commands.
Because the texts are long, a checksum is stored for every few answers.

    /usr/bin/python3 python tests.session.test_stored_lines         stores new checksums
    /usr/bin/python3 python tests.session.test_stored_lines NAME    prints a recording's answers, to compare them with earlier answers
"""

import hashlib
import json
import os
import random
import re
import sys
import tempfile
from collections.abc import Iterator
from pathlib import Path

import pytest

from netrev.machine.cells import CELLS_OF_ALL, CELLS_OF_ONE
from netrev.session.commands import ALL_SPELLINGS, COMMANDS, OF_FILES, TABLES_OF_OTHERS, TOPIC_SPELLINGS, TOPICS
from netrev.text.vocabulary import DUMPS, KINDS
from tests.failed_calls.test_causes import in_the_folder_of_the_source
from tests.failed_calls.test_stored_sentences import PROGRAMS
from tests.trials.go_caused import SOURCE, source_of

from .test_stored_views import session_of

STORED = Path(__file__).with_name("lines.json")
CAUSED = "python/tests/caused"
NAMES = (
    "examples/first", "examples/stale-deadline", "examples/reused-descriptor", "examples/leaked-reference", "examples/real/hijacked", "examples/past-deadline",
    *(f"{CAUSED}/{name}-bad" for name in ("hub", "gaveup", "kept", "probed", "rounds", "datagram", "pooled", "uncased")),
)  # fmt: skip
COUNT, TOGETHER = 400, 20  # the lines for a recording, and how many of them share a checksum
LEFT_OUT = {"quit", "explore", "reduce", "report", "source", "save"}
VALUES = ("*", "idle", "parked *", "nil", "wait", "g*", "ready", "0", "8", "*read lock*", "no deadline", "1")
FILES = (
    "timeline page.html",
    "timeline page.html 2 9",
    "trace trace.json",
    "save breakpoints marks",
    "source marks",
    "timeline page.html 9 2",
)
ENDLESS = ("continue", "reverse-continue")
PLACES = ("main.go:20", "served.go:30", "main.main", "main.serve", "net.Listen", "Read", "nowhere.go:1")


class Author:
    """Writes lines for a recording of this length."""

    def __init__(self, dice: random.Random, length: int) -> None:
        self.dice, self.length, self.open = dice, length, 0  # how many lines may come before `end`
        wanted = [name for name in COMMANDS if name not in LEFT_OUT and name not in OF_FILES]
        others = [name for name, of in ALL_SPELLINGS.items() if of in wanted] + list(TABLES_OF_OTHERS)
        self.commands = [*wanted * 3, *others, *ENDLESS * 6, *("goto",) * 20]

    def number(self) -> str:
        return str(self.dice.choice((0, 0, 1, 1, 2, 3, 5, 9, 40, self.length // 2, self.length, self.length + 1)))

    def cell(self) -> str:
        if self.dice.random() < 0.2:
            return self.dice.choice(CELLS_OF_ALL)
        return f"{self.dice.choice(CELLS_OF_ONE)} {self.dice.choice((0, 0, 0, 1, 1, 2, 7))}"

    def word(self) -> str:
        """One or two arguments that a command may accept."""
        choices = (
            self.number, self.number, self.number, self.cell, self.cell, lambda: self.dice.choice(list(KINDS)),
            lambda: f"{self.dice.choice(('gor', 'sock', 'desc'))} {self.number()}", lambda: f"{self.cell()} {self.dice.choice(VALUES)}",
            lambda: self.dice.choice(("all", "start", "end", "on", "off", "failures", "x", "-1", "p1", "p2", "goid 1", "35ms", "2s", "1ms", "@3")),
            lambda: self.dice.choice(PLACES),
            lambda: f"{self.dice.choice(list(DUMPS))} {self.dice.choice('012')}", lambda: self.dice.choice([*TOPICS, *TOPIC_SPELLINGS]),
            lambda: self.dice.choice(list(COMMANDS)),
        )  # fmt: skip
        return self.dice.choice(choices)()

    def fitting(self, usage: str) -> str:
        """Words that fit a command's usage."""
        number, word, usage = self.number, self.dice.choice, usage.replace("gor G|sock S|desc D", "SUBJECT")
        words = {
            "CELL": self.cell, "VALUE": lambda: word(VALUES), "KIND": lambda: word(list(KINDS)), "N": number, "G": number, "S": number, "D": number,
            "TOPIC": lambda: word([*TOPICS]), "WORD": lambda: word(list(COMMANDS)), "COMMAND": lambda: word(list(COMMANDS)),
            "SUBJECT": lambda: f"{word(('gor', 'sock', 'desc'))} {number()}", "PLACE": lambda: word(PLACES), "FUNCTION": lambda: word(PLACES), "FILE:LINE": lambda: word(PLACES), "TIME": lambda: word(("35ms", "2s")),
        }  # fmt: skip
        parts = [word(part.split("|")).strip() for part in re.findall(r"\[[^]]*\]|[^\s\[\]]+", usage)[1:]]
        chosen = [part.strip("[]").split("|") for part in parts if not part.startswith("[") or self.dice.random() < 0.7]
        return " ".join(words[name]() if name in words else name for part in chosen for name in word(part).split())

    def line(self) -> str:
        if self.open:
            self.open -= 1
            return self.dice.choice(("info gor 0", "print clock", "where")) if self.open else "end"
        name = self.dice.choice(self.commands)
        self.open = 3 * (name == "commands")
        if name in ("info", "i"):
            more = f" {self.number()}" if self.dice.random() < 0.3 else " all" if self.dice.random() < 0.2 else ""
            return f"{name} {self.dice.choice([*TOPICS, *TOPIC_SPELLINGS])}{more}"
        if name == "goto" and self.dice.random() < 0.7:
            return f"goto {self.dice.randint(0, self.length)}"
        if name in COMMANDS and self.dice.random() < 0.6:
            return f"{name} {self.fitting(COMMANDS[name].usage)}".strip()
        if self.dice.random() < 0.06:
            name = name[: self.dice.randint(1, len(name))]
        words = [name, *(self.word() for _ in range(self.dice.choice((0, 0, 1, 1, 1, 2))) if name not in ENDLESS)]
        return " ".join(words)


def answers(name: str) -> Iterator[str]:
    """Each line for a recording, with its answer."""
    session, printer = session_of(name)
    session.text().lines.written = float("inf")  # (a clone's files are newer than the recording)
    author = Author(random.Random(name), session.text().length)
    printer.take()
    for number in range(COUNT):
        line = FILES[number // TOGETHER % len(FILES)] if number % TOGETHER == TOGETHER - 1 else author.line()
        goes_on = session.attempt(line)
        yield "\n".join([f"> {line}", *printer.take().splitlines()])
        assert goes_on, line
        for path in map(Path, ("page.html", "trace.json")):
            if path.exists():
                yield path.read_text()
                path.unlink()


def texts_of(name: str) -> list[str]:
    """All answers, several in each text."""
    program = name.removeprefix(f"{CAUSED}/").rpartition("-")[0]
    source = (source_of(program) if program in PROGRAMS else SOURCE).parent
    with tempfile.TemporaryDirectory() as folder, in_the_folder_of_the_source(source):
        for path in source.iterdir():
            Path(folder, path.name).symlink_to(path)
        os.chdir(folder)
        with pytest.MonkeyPatch.context() as patch:
            patch.setenv("COLUMNS", "120")
            patch.setenv("LINES", "50")
            found = [text.replace(folder, "FOLDER") for text in answers(name)]
    return ["\n".join(found[first : first + TOGETHER]) for first in range(0, len(found), TOGETHER)]


def sums_of(name: str) -> list[str]:
    return [hashlib.sha256(text.encode()).hexdigest()[:12] for text in texts_of(name)]


@pytest.mark.parametrize("name", NAMES)
def test_the_answers_are_what_the_sums_are_of(name: str) -> None:
    assert sums_of(name) == json.loads(STORED.read_text())[name]


def main(words: list[str]) -> None:
    for word in words:
        print("\n".join(texts_of(word)))
    if not words:
        lines = (f"{json.dumps(name)}: {json.dumps(sums_of(name))}" for name in NAMES)
        STORED.write_text("{\n" + ",\n".join(lines) + "\n}\n")


if __name__ == "__main__":
    main(sys.argv[1:])
