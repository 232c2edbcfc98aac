"""Cases for the page: lines that a browser sends, including forbidden lines. No line may read or write a file or end
nrdb, and the page must be able to show every answer."""

import os
import random
import sys
from pathlib import Path
from typing import Any

from netrev.connection.collected_output import Collecting
from netrev.session.commands import COMMANDS, TOPICS
from netrev.text.writer import write_plain
from nrdb.web.requests import LONGEST_LINE, RejectedRequestError, line_of
from nrdb.web.shared_session import Shared
from nrdb.web.streams import Streams, message

from .generators.random_steps import Author
from .nrdb_sessions import line_of as line_of_nrdb
from .sessions.sessions import session_over

OF_FILES = ("open", "os.rename", "os.remove", "os.mkdir", "os.link", "os.symlink", "os.truncate", "shutil", "tempfile")
NAMES = (
    "x.jsonl",
    "recording.jsonl",
    "recording.where",
    "/etc/passwd",
    "x.html",
    "x.md",
    "x.json",
    "..",
    "/dev/zero",
    "-",
    "5",
    "1000000",
)
BYTES = (b"\xff", b"\0", b"\n", b"\x1b[2J", "\u202e".encode(), b";", b"\xed\xa0\x80", "²".encode(), b" " * LONGEST_LINE)
SPELLED = (
    "explore",
    "explo",
    "timel",
    "tr",
    "redu",
    "repo",
    "sour",
    "com",
    "i sus",
    "quit",
    "q",
    "exit",
    "shell",
    "!ls",
)


class Watched:
    """Notices when this process opens a file. An audit hook can't be removed, so only one hook exists; it is active
    while a line is answered."""

    def __init__(self) -> None:
        self.events: list[str] = []
        self.is_on = False
        sys.addaudithook(self._hook)

    def _hook(self, event: str, arguments: tuple[Any, ...]) -> None:
        if self.is_on and event.startswith(OF_FILES):
            named = arguments[0] if arguments else event
            if (
                isinstance(named, (str, bytes, os.PathLike))
                and os.fsdecode(named) != os.devnull
                and not is_of_python(named)
            ):
                self.events.append(f"{event} {os.fsdecode(named)}")


def is_of_python(name: Any) -> bool:
    """Whether a file is Python's own or nrdb's, which may be read at any time."""
    return os.fsdecode(name).endswith((".py", ".pyc", ".so", "/page", ".js", ".css"))


WATCHED = Watched()


class StoredStreams(Streams):
    """Stores what is sent to browsers."""

    def __init__(self) -> None:
        super().__init__("recording.jsonl")
        self.sent: list[bytes] = []

    def tell(self, event: str, **values: Any) -> None:
        self.sent.append(message({"event": event, **values}))


def body(dice: random.Random, length: int) -> bytes:
    """The body that a browser sends for a line."""
    sort = dice.randrange(5)
    if sort == 0:
        return line_of_nrdb(dice, length).encode()
    if sort == 1:
        return f"{dice.choice(SPELLED)} {dice.choice(NAMES)}".encode()
    if sort == 2:
        line = f"{dice.choice([*COMMANDS])} {dice.choice([*NAMES, *TOPICS, ''])} {dice.choice(NAMES)}".encode()
    else:
        line = b" ; ".join(body(dice, length) for _ in range(2))[:LONGEST_LINE]
    at = dice.randint(0, len(line))
    return line[:at] + dice.choice(BYTES) + line[at:] if dice.random() < 0.3 else line


def wrong(seed: str, folder: Path, program: str) -> str:
    """The fault in the effects of a seed's lines; empty if they are right."""
    dice = random.Random(seed)
    recording, _ = Author(dice).recording(dice.choice([5, 20]))
    path = folder / "recording.jsonl"
    path.write_bytes(write_plain(recording))
    path.with_suffix(".where").write_text("mine", encoding="ascii")
    streams, here = StoredStreams(), os.getcwd()
    os.chdir(folder)
    try:
        with session_over(program, path, Collecting()) as session:
            shared = Shared.over(session, streams)
            return typed(dice, shared, streams, len(recording.steps)) or files_wrong(folder)
    finally:
        os.chdir(here)


def typed(dice: random.Random, shared: Shared, streams: StoredStreams, length: int) -> str:
    """Sends lines, and returns the fault of an answer, if any."""
    for _ in range(dice.choice([5, 30])):
        data = body(dice, length)
        try:
            line = line_of(data)
        except RejectedRequestError:
            continue
        WATCHED.events.clear()
        WATCHED.is_on = True
        try:
            shared.run_for("browser 1", line)
        finally:
            WATCHED.is_on = False
        if WATCHED.events:
            return f"{line!r} asks for {WATCHED.events[0]}"
    sent = b"".join(streams.sent)
    return "" if sent.isascii() and b"\x1b" not in sent else "the output has characters that a page must not show"


def files_wrong(folder: Path) -> str:
    """The fault if the files in nrdb's folder have changed; empty if they haven't."""
    found = sorted(os.listdir(folder))
    if found != ["recording.jsonl", "recording.where"] or (folder / found[1]).read_text() != "mine":
        return f"files were written: {found}"
    return ""
