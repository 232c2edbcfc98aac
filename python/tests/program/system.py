"""Tests the built program against the operating system. The name of each case begins with its kind:

    output    standard output is closed or full, or is a pipe that has no reader: netrev ends with status 3, without a signal
              and with nothing on standard error
    input     standard input is closed, is a folder, is empty, or has no data yet
    words     command lines that are valid, and usage errors
    file      unusual files: a folder, a pipe that delivers pieces, a name with spaces, a missing file
    lines     commands and recordings without a line feed, of the greatest length and one byte longer, and with bytes that
              aren't text. In some cases netrev has less memory than the input has bytes, so it can't keep the input
    signals   a signal ends `run` and `serve` after whole lines, and no port stays in use; a stopped process can continue
    callers   other callers are served while a caller resets its connection, is silent or is slow; a request of a web page
    memory    address spaces of a hundred sizes, from too small for any program to ample: netrev gives the right replies or
              reports that memory ran out; if the system can't load the program, it prints its own message
    upgrade   `upgrade` in all these situations prints its whole text, or its first lines and the fault
    suspects  `suspects` with the same outputs and files
"""

import os
import pty
import signal
import socket
import subprocess
import threading
import time
from contextlib import contextmanager
from dataclasses import dataclass
from functools import partial
from pathlib import Path

import pytest

from netrev.machine.debugger_model import DebuggedRecording

from .address_spaces import LOOKS, MEGABYTE, NO_MEMORY, ended, limit_memory, loads_in, play_memory, play_memory_of_serve
from .support.callers import callers
from .support.case_files import (
    ANSWERS,
    ARRIVED,
    FIRST,
    LARGE,
    LOST,
    LOST_AFTER,
    POSITION,
    TEXT,
    TICKS,
    UPGRADED,
    UPGRADED_TICKS,
    Function,
    file_of,
    rest_of,
    suspects_of,
    upgrade_of,
)
from .support.sharing import NETREV, PATIENCE, Server, WrongResultError, expect, talk

pytestmark = pytest.mark.alone

USAGE = b"""usage: netrev run FILE
       netrev check FILE
       netrev upgrade FILE
       netrev changes FILE
       netrev suspects FILE
       netrev serve FILE --port P [--fronts N] [--workers W] [--journal H] [--connections C]
"""
GOOD = b"ok 10 steps\n"
EMPTY = b"line 1: fault 101 header\n"
POSITIONS = b"info position\n" * 50_000


# ---- standard input, standard output and FILE in unusual states: each gives a file descriptor or a name ----


def opened(path, flags):
    return lambda folder: os.open(folder / path, flags)


def gone(_folder):
    """A pipe whose reader has closed it."""
    reader, writer = os.pipe()
    os.close(reader)
    return writer


def full_pipe_that_never_waits(_folder):
    """A full pipe whose writes fail instead of waiting. Its reader stays open."""
    reader, writer = os.pipe()
    os.set_blocking(writer, False)
    KEPT.append(reader)
    os.write(writer, b"x" * MEGABYTE)
    return writer


def empty_pipe_that_never_waits(_folder):
    """An empty pipe whose reads fail instead of waiting. Its writer stays open."""
    reader, writer = os.pipe()
    os.set_blocking(reader, False)
    KEPT.append(writer)
    return reader


def pipe_of(size, pause, text):
    """A named pipe whose writer sends the text in pieces of this size."""

    def make(folder):
        path = folder / "pipe"
        path.unlink(missing_ok=True)
        os.mkfifo(path)
        threading.Thread(target=send, args=(path,), daemon=True).start()
        return path

    def send(path):
        with open(path, "wb", buffering=0) as pipe:
            for at in range(0, len(text), size):
                pipe.write(text[at : at + size])
                time.sleep(pause)

    return make


def unreadable(folder):
    path = file_of("unreadable", TEXT)(folder)
    os.chmod(path, 0)
    return path


def sparse(folder):
    """A file of 64 GB that takes no space on the disk."""
    path = file_of("sparse", b"")(folder)
    os.truncate(path, 64 << 30)
    return path


def endless_link(folder):
    """A link to itself."""
    path = folder / "link"
    path.symlink_to(path)
    return path


def bound_socket(folder):
    with socket.socket(socket.AF_UNIX) as item:
        item.bind(str(folder / "socket"))
    return folder / "socket"


KEPT: list[int] = []  # the other ends of pipes
CLOSED = object()
FULL = opened("/dev/full", os.O_WRONLY)


# ---- cases of `run` and `check` with known replies ----


@dataclass
class Case:
    """A call of netrev with `word` and FILE, and its expected end. `input` is bytes, one of the above states, or
    CLOSED. Standard output goes to `into`, and is read if that is None. `memory` limits the address space. `beside`
    limits the address space to this many bytes more than loading the program takes."""

    name: str
    word: str
    file: object
    status: int
    output: bytes = b""
    errors: bytes = b""
    input: object = b""
    into: object = None
    memory: int = 0
    beside: int = 0
    skipped: bool = False

    def play(self, folder):
        files = []
        memory = loads_in() + self.beside if self.beside else self.memory

        def stream(what, otherwise):
            if what is CLOSED or what is None or isinstance(what, bytes):
                return otherwise
            files.append(what(folder))
            return files[-1]

        def begin():
            for number, what in ((0, self.input), (1, self.into)):
                if what is CLOSED:
                    os.close(number)
            if memory:
                limit_memory(memory)

        file = self.file(folder) if callable(self.file) else self.file
        words = [NETREV, self.word, file] if self.word else [NETREV]
        taken = subprocess.PIPE if isinstance(self.input, bytes) else None
        process = subprocess.Popen(
            words,
            stdin=stream(self.input, taken),
            stdout=stream(self.into, subprocess.PIPE),
            stderr=subprocess.PIPE,
            preexec_fn=begin if memory or CLOSED in (self.input, self.into) else None,
        )
        for number in files:
            os.close(number)
        reply = ended(process, self.input if taken else None)
        while KEPT:
            os.close(KEPT.pop())
        expect("status, output and errors", (self.status, self.output, self.errors), reply)


def outputs():
    for into, what in ((CLOSED, "closed"), (FULL, "full"), (gone, "without a reader")):
        yield Case(f"output {what}: run", "run", FIRST, 3, input=b"stepi\n", into=into)
        yield Case(f"output {what}: run with nothing to print", "run", FIRST, 0, input=b"  \n", into=into)
        yield Case(f"output {what}: check", "check", FIRST, 3, into=into)
        yield Case(f"output {what}: check of a refused recording", "check", "/dev/null", 3, into=into)
        yield Case(f"output {what}: check without memory", "check", FIRST, 3, into=into, beside=8192)
        yield Case(f"output {what}: no words", "", None, 2, errors=USAGE, into=into)
        yield Function(f"output {what}: serve", partial(play_output_of_serve, into))
    yield Case("output full, and never waits: run", "run", FIRST, 3, input=b"si\n", into=full_pipe_that_never_waits)
    yield Function("output whose reader goes in the middle of many replies: run", play_reader_goes)
    yield Function("output whose reader goes in the middle of one reply: run", play_reader_goes_in_a_reply)
    yield Function("output for errors closed, full or without a reader: no words", play_errors)


def inputs():
    folder = opened("/", os.O_RDONLY)
    for what, given in (
        ("closed", CLOSED),
        ("that is a folder", folder),
        ("for writing only", opened("/dev/null", os.O_WRONLY)),
        ("that never waits", empty_pipe_that_never_waits),
    ):
        yield Case(f"input {what}: run", "run", FIRST, 3, input=given)
        yield Case(f"input {what}: run of a refused recording", "run", "/dev/null", 1, EMPTY, input=given)
        yield Case(f"input {what}: check", "check", FIRST, 0, GOOD, input=given)
    yield Case("input empty: run", "run", FIRST, 0, input=opened("/dev/null", os.O_RDONLY))
    yield Case("input and output closed: run", "run", FIRST, 3, input=CLOSED, into=CLOSED)
    yield Function("input, output and errors closed: serve", play_nothing_open)
    yield Function("input that is a terminal: run", play_terminal)
    yield Function("input that is a terminal, which is gone: run", play_terminal_gone)
    yield Function("output that is a terminal, which is gone: run", play_output_terminal_gone)


# valid arguments with a file that doesn't exist, and arguments that are usage errors
GREATEST = ["--fronts=64", "--port", "65472", "--workers=16", "--journal", "1000000"]
ASKING: tuple[tuple[str, list[str]], ...] = (
    ("a name without letters", ["check", ""]),
    ("a name like an option's behind --", ["run", "--", "-x"]),
    ("serve with its port alone", ["serve", "a", "--port", "21840"]),
    ("serve with the greatest numbers", ["serve", *GREATEST, "a", "--connections", "4294967295", "--"]),
    ("serve with the least numbers", "serve a --port 1 --fronts 1 --workers 1 --journal 1 --connections 0".split()),
)
BAD_USAGE: tuple[tuple[str, list[str]], ...] = (
    ("none", []),
    ("run without a file", ["run"]),
    ("two files", ["check", "a", "b"]),
    ("another program's name", ["walk", "a"]),
    ("a program's beginning", ["ru", "a"]),
    ("--help", ["--help"]),
    ("help", ["help"]),
    ("a name like an option's", ["run", "-x"]),
    ("serve without a port", ["serve", "a"]),
    ("serve with an option twice", "serve a --port 1 --port 2".split()),
    ("run with an option of serve", "run a --port 1".split()),
    *(
        (f"serve with {' '.join(words)}", ["serve", "a", *words])
        for words in (
            ["--port", "0"],
            ["--port", "65536"],
            ["--port", "65473", "--fronts", "64"],
            ["--port", "1", "--fronts", "0"],
            ["--port", "1", "--fronts", "65"],
            ["--port", "1", "--workers", "0"],
            ["--port", "1", "--workers", "17"],
            ["--port", "1", "--journal", "0"],
            ["--port", "1", "--journal", "1000001"],
            ["--port", "1", "--connections", "4294967296"],
            ["--port", "1", "--fronts", "x"],
            ["--port", ""],
        )
    ),
)


def words():
    for what, given in ASKING:
        yield Function(f"words: {what}", partial(play_words, given, 3, b""))
    for what, given in BAD_USAGE:
        yield Function(f"words that are bad usage: {what}", partial(play_words, given, 2, USAGE))
    yield Function("words: a file whose name is like an option's", play_hyphen)


def play_words(given, status, errors, folder, output=b""):
    """Calls netrev in the folder with these arguments."""
    process = subprocess.run(
        [NETREV, *given], cwd=folder, input=b"", capture_output=True, timeout=PATIENCE, check=False
    )
    expect("status, output and errors", (status, output, errors), (process.returncode, process.stdout, process.stderr))


def play_hyphen(folder):
    file_of("-x", TEXT)(folder)
    play_words(["check", "--", "-x"], 0, b"", folder, GOOD)


def files():
    spoken = {"check": b"", "run": b"info position\n"}
    for word in ("check", "run"):
        good = GOOD if word == "check" else POSITION
        for what, file in (
            ("that isn't there", "no such file"),
            ("that is a folder", "/"),
            ("without a name", ""),
            ("with a name too long", "x" * 5000),
            ("behind what is no folder", "/dev/null/first.jsonl"),
            ("that is a link to itself", endless_link),
            ("that is a socket", bound_socket),
            ("whose reads fail", "/proc/self/mem"),
        ):
            yield Case(f"file {what}: {word}", word, file, 3)
        yield Case(f"file that may not be read: {word}", word, unreadable, 3, skipped=os.geteuid() == 0)
        yield Case(f"file with a name that is no text: {word}", word, file_of(b"\xff.jsonl", TEXT), 2, errors=USAGE)
        yield Case(f"file that is empty: {word}", word, "/dev/null", 1, EMPTY)
        yield Case(f"file that is a pipe, which ends at once: {word}", word, pipe_of(1, 0, b""), 1, EMPTY)
        for what, file in (
            ("that is a pipe, in pieces of 3 bytes", pipe_of(3, 0.002, TEXT)),
            ("with spaces in its name", file_of(" two  words ", TEXT)),
            ("with letters above 127 in its name", file_of("größe 日本", TEXT)),
            ("with a line feed in its name", file_of("two\nlines", TEXT)),
        ):
            yield Case(f"file {what}: {word}", word, file, 0, good, input=spoken[word])
    pieces = pipe_of(60_000, 0.01, TICKS.encode())
    yield Case("file that is a pipe, in pieces of 60000 bytes: check", "check", pieces, 0, b"ok 50000 steps\n")
    yield Case("file that is standard input: check", "check", "/dev/stdin", 0, GOOD, input=TEXT)
    yield Case("file of 64 GB, with 64 MB of memory: check", "check", sparse, 1, NO_MEMORY, memory=64 * MEGABYTE)
    yield Case(
        "file without an end, with 64 MB of memory: check", "check", "/dev/zero", 1, NO_MEMORY, memory=64 * MEGABYTE
    )


UNKNOWN, BAD, TOO_LONG = b"fault 201 unknown command\n", b"fault 202 bad argument\n", b"fault 203 line too long\n"
COMMANDS = (
    ("of 10 MB without a line feed", b"x" * 10_000_000, TOO_LONG),
    ("of 10 MB, and one behind it", b"stepi " * 1_700_000 + b"\nstepi\n", TOO_LONG + b"at 1\n"),
    ("of 10 MB of NUL bytes", bytes(10_000_000), TOO_LONG),
    ("of 256 bytes", b"stepi" + b" " * 251 + b"\n", b"at 1\n"),
    ("of 257 bytes", b"stepi" + b" " * 252 + b"\nstepi\n", TOO_LONG + b"at 1\n"),
    ("of 256 bytes, a carriage return the last", b"stepi" + b" " * 250 + b"\r\n", b"at 1\n"),
    ("of 257 bytes, a carriage return the last", b"stepi" + b" " * 251 + b"\r\n", TOO_LONG),
    ("of 256 bytes and no line feed", b"stepi" + b" " * 251, b"at 1\n"),
    ("of 257 bytes and no line feed", b"stepi" + b" " * 252, TOO_LONG),
    ("of 256 spaces", b" " * 256 + b"\n", b""),
    ("of 257 spaces", b" " * 257 + b"\n", TOO_LONG),
    ("of 256 bytes above 127", b"\x80" * 256 + b"\n", UNKNOWN),
    ("of 257 bytes above 127", b"\x80" * 257 + b"\n", TOO_LONG),
    ("without a line feed", b"stepi\nstepi", b"at 1\nat 2\n"),
    ("without a line feed, but with a carriage return", b"stepi\r", b"at 1\n"),
    ("of a carriage return", b"\r\n", b""),
    ("with two carriage returns", b"stepi\r\r\n", UNKNOWN),
    ("with a carriage return in the middle", b"stepi\r1\n", UNKNOWN),
    ("of a NUL byte", b"\0\n", UNKNOWN),
    ("with a NUL byte behind the word", b"stepi\0\nstepi\n", UNKNOWN + b"at 1\n"),
    ("with a NUL byte in the argument", b"stepi 1\0\n", BAD),
    ("of a NUL byte and no line feed", b"stepi\n\0", b"at 1\n" + UNKNOWN),
    ("with a byte that is no text", b"\xffstepi\n", UNKNOWN),
    ("with a byte in the argument that is no text", b"stepi \xff\n", BAD),
    ("with a letter above 127", "stepi é\n".encode(), BAD),
    ("with a space that isn't ASCII's", "stepi\u00a01\n".encode(), UNKNOWN),
    ("with a byte order mark", b"\xef\xbb\xbfstepi\n", UNKNOWN),
)
STEP = b'["spawn"]'
RECORDINGS = (
    ("of 10 MB without a line feed", b"x" * 10_000_000, b"line 1: fault 105 limit\n"),
    ("with a line of 10 MB of spaces", TEXT + b" " * 10_000_000 + b"\n", b"line 12: fault 105 limit\n"),
    ("with 200000 spaces", TEXT + b" " * 200_000 + b"\n", GOOD),
    ("with 200001 spaces", TEXT + b" " * 200_001 + b"\n", b"line 12: fault 105 limit\n"),
    ("with 200000 spaces and no line feed", TEXT + b" " * 200_000, GOOD),
    ("with 200001 spaces and no line feed", TEXT + b" " * 200_001, b"line 12: fault 105 limit\n"),
    ("with a step of 200000 bytes", TEXT + STEP + b" " * 199_991 + b"\n", b"ok 11 steps\n"),
    ("with a step of 200001 bytes", TEXT + STEP + b" " * 199_992 + b"\n", b"line 12: fault 105 limit\n"),
    ("with 200000 bytes, a carriage return the last", TEXT + STEP + b" " * 199_990 + b"\r\n", b"ok 11 steps\n"),
    (
        "with 200001 bytes, a carriage return the last",
        TEXT + STEP + b" " * 199_991 + b"\r\n",
        b"line 12: fault 105 limit\n",
    ),
    ("with carriage returns", TEXT.replace(b"\n", b"\r\n"), GOOD),
    ("without its last line feed", TEXT.rstrip(b"\n"), GOOD),
    ("without its last line feed, but with a carriage return", TEXT.rstrip(b"\n") + b"\r", GOOD),
    ("of a NUL byte", b"\0", b"line 1: fault 102 not JSON\n"),
    ("with a NUL byte", TEXT + STEP + b"\0\n", b"line 12: fault 102 not JSON\n"),
    ("with a byte that is no text", TEXT + b'["\xff"]\n', b"line 12: fault 102 not JSON\n"),
    ("with a letter above 127", TEXT + '["é"]\n'.encode(), b"line 12: fault 103 unknown step\n"),
    ("with a byte order mark", b"\xef\xbb\xbf" + TEXT, b"line 1: fault 102 not JSON\n"),
    ("of line feeds", b"\n" * 1000, b"line 1001: fault 101 header\n"),
)


def lines():
    little = 6 * MEGABYTE  # as much as loading the example takes, and less than the 10 MB
    for what, text, output in COMMANDS:
        yield Case(f"lines: a command {what}", "run", FIRST, 0, output, input=text, beside=little)
    many = POSITIONS * 4
    yield Case("lines: 200000 commands", "run", FIRST, 0, POSITION * 200_000, input=many, beside=little)
    for what, text, output in RECORDINGS:
        status = 0 if output.startswith(b"ok") else 1
        yield Case(f"lines: a recording {what}", "check", file_of("lines", text), status, output, memory=40 * MEGABYTE)


# ---- cases that a function runs ----


@contextmanager
def started(words, **options):
    """A process whose output and errors are read; it is stopped at the end."""
    process = subprocess.Popen(words, stdout=subprocess.PIPE, stderr=subprocess.PIPE, **options)
    try:
        yield process
    finally:
        process.kill()
        process.wait()
        for stream in (process.stdin, process.stdout, process.stderr):
            if stream:
                stream.close()


def upgrades():
    for into, what in ((CLOSED, "closed"), (FULL, "full"), (gone, "without a reader")):
        yield Case(f"upgrade: output {what}", "upgrade", FIRST, 3, into=into)
        yield Case(f"upgrade: output {what}, a refused recording", "upgrade", "/dev/null", 3, into=into)
        yield Case(f"upgrade: output {what}, no memory", "upgrade", FIRST, 3, into=into, beside=8192)
        yield Case(f"upgrade: output {what}, no such file", "upgrade", "no such file", 3, into=into)
    yield Case("upgrade: output full, and never waits", "upgrade", FIRST, 3, into=full_pipe_that_never_waits)
    yield Function("upgrade: output whose reader goes in the middle", play_reader_goes_in_an_upgrade)
    for what, given in (("closed", CLOSED), ("that is a folder", opened("/", os.O_RDONLY)), ("empty", b"")):
        yield Case(f"upgrade: input {what}", "upgrade", FIRST, 0, UPGRADED, input=given)
    ticks = TICKS.encode()
    for what, file, right in (
        ("that is a pipe, in pieces of 3 bytes", pipe_of(3, 0.002, TEXT), UPGRADED),
        ("that is a pipe, in pieces of 60000 bytes", pipe_of(60_000, 0.01, ticks), UPGRADED_TICKS),
        ("that is upgraded already, and a pipe", pipe_of(60_000, 0.01, UPGRADED_TICKS), UPGRADED_TICKS),
        ("with spaces in its name", file_of(" two  words ", TEXT), UPGRADED),
    ):
        yield Case(f"upgrade: file {what}", "upgrade", file, 0, right)
    yield Case("upgrade: file that is standard input", "upgrade", "/dev/stdin", 0, UPGRADED, input=TEXT)
    yield Case("upgrade: file that is a pipe, which ends at once", "upgrade", pipe_of(1, 0, b""), 1, EMPTY)
    for what, file in (("isn't there", "no such file"), ("is a folder", "/"), ("can't be read", "/proc/self/mem")):
        yield Case(f"upgrade: file that {what}", "upgrade", file, 3)
    yield Case("upgrade: file of 64 GB, with 64 MB of memory", "upgrade", sparse, 1, NO_MEMORY, memory=64 * MEGABYTE)
    yield Function("upgrade: memory of a hundred sizes", play_memory_of_upgrade)


def suspects():
    for into, what in ((CLOSED, "closed"), (FULL, "full"), (gone, "without a reader")):
        yield Case(f"suspects: output {what}", "suspects", LOST, 3, into=into)
        yield Case(f"suspects: output {what}, without suspects", "suspects", ANSWERS, 3, into=into)
        yield Case(f"suspects: output {what}, a refused recording", "suspects", "/dev/null", 3, into=into)
        yield Case(f"suspects: output {what}, no memory", "suspects", LOST, 3, into=into, beside=8192)
        yield Case(f"suspects: output {what}, no such file", "suspects", "no such file", 3, into=into)
    yield Case("suspects: output full, and never waits", "suspects", LOST, 3, into=full_pipe_that_never_waits)
    text = Path(LOST).read_bytes()
    right = suspects_of(text)
    for what, given in (("closed", CLOSED), ("that is a folder", opened("/", os.O_RDONLY)), ("empty", b"")):
        yield Case(f"suspects: input {what}", "suspects", LOST, 0, right, input=given)
    for what, file, lines in (
        ("that is a pipe, in pieces of 3 bytes", pipe_of(3, 0.002, text), right),
        ("that is a pipe, in pieces of 60000 bytes", pipe_of(60_000, 0.01, TICKS.encode()), b"ok 50000 steps\n"),
        ("with spaces in its name", file_of(" two  words ", text), right),
    ):
        yield Case(f"suspects: file {what}", "suspects", file, 0, lines)
    yield Case("suspects: file that is standard input", "suspects", "/dev/stdin", 0, right, input=text)
    yield Case("suspects: file that is a pipe, which ends at once", "suspects", pipe_of(1, 0, b""), 1, EMPTY)
    for what, file in (("isn't there", "no such file"), ("is a folder", "/"), ("can't be read", "/proc/self/mem")):
        yield Case(f"suspects: file that {what}", "suspects", file, 3)
    yield Case("suspects: file of 64 GB, with 64 MB of memory", "suspects", sparse, 1, NO_MEMORY, memory=64 * MEGABYTE)
    yield Function("suspects: memory of a hundred sizes", play_memory_of_suspects)


def play_memory_of_suspects(folder):
    text = (LARGE + LOST_AFTER).encode()
    path = Path(os.fsdecode(file_of("recording", text)(folder)))
    play_memory("suspects", DebuggedRecording.read(NETREV, path, LOOKS), suspects_of(text))


def play_memory_of_upgrade(folder):
    text = LARGE.encode()
    path = Path(os.fsdecode(file_of("recording", text)(folder)))
    play_memory("upgrade", DebuggedRecording.read(NETREV, path, LOOKS), upgrade_of(text))


def play_reader_goes_in_an_upgrade(folder):
    """Reads the first lines of an upgrade that is longer than a pipe's capacity, and closes the pipe."""
    file_of("ticks", TICKS.encode())(folder)
    file_of("positions", b"")(folder)
    leave_pipe(folder, UPGRADED_TICKS[:100], False, "ticks", "upgrade")


def play_output_of_serve(into, _folder):
    """Two callers are served, although nothing can be printed at the end."""
    redirected = {CLOSED: '"$@" >&-', FULL: '"$@" > /dev/full', gone: '"$@"'}[into]
    with Server(FIRST, fronts=2, through=["sh", "-c", f"exec {redirected}", "sh"]) as server:
        if into is gone:
            server.process.stdout.close()
        expect("the replies of front 0", ["at 3", "bye"], talk(server.call(0), ["stepi 3", "quit"]))
        expect("the replies of front 1", ["at 2", "bye"], talk(server.call(1), ["rsi", "quit"]))
        server.expect_end(3, "")


def play_nothing_open(_folder):
    """netrev starts with its standard streams closed, so its ports and callers get the descriptors 0 to 2. It must not
    use any of them as a standard stream."""
    with Server(FIRST, fronts=2, through=["sh", "-c", 'exec "$@" <&- >&- 2>&-', "sh"]) as server:
        first, second = server.call(0), server.call(1)
        expect("the replies of front 0", ["at 3", "bye"], talk(first, ["stepi 3", "quit"]))
        expect("the replies of front 1", ["at 2", "bye"], talk(second, ["rsi", "quit"]))
        server.expect_end(3, "")


@contextmanager
def terminal():
    """The two ends of a terminal, which are closed at the end: the keyboard's and the program's."""
    ends = list(pty.openpty())
    try:
        yield ends
    finally:
        for end in ends:
            if end is not None:
                os.close(end)


def play_terminal(_folder):
    """A line is answered when it has been typed, and Ctrl-D ends the input."""
    with terminal() as (typist, typed), started([NETREV, "run", FIRST], stdin=typed, bufsize=0) as process:
        os.write(typist, b"stepi\n")
        expect("the reply", b"at 1\n", process.stdout.readline())
        os.write(typist, b"info position\n\x04")
        expect("status, output and errors", (0, b"at 1 of 10 forward\n", b""), ended(process))


def play_terminal_gone(_folder):
    """The keyboard's end of the terminal is closed, which counts as a failed read."""
    with terminal() as ends, started([NETREV, "run", FIRST], stdin=ends[1], bufsize=0) as process:
        os.write(ends[0], b"stepi\n")
        expect("the reply", b"at 1\n", process.stdout.readline())
        os.close(ends[0])
        ends[0] = None
        status, output, errors = ended(process)
        # the system reports a failed read to a reader that was waiting, and the end of the input to others
        expect("the status is 0 or 3", True, status in (0, 3))
        expect("output and errors", (b"", b""), (output, errors))


def play_output_terminal_gone(_folder):
    """The screen's end of the terminal is closed, which counts as a failed write."""
    with terminal() as ends:
        words = [NETREV, "run", FIRST]
        pipe = subprocess.PIPE
        process = subprocess.Popen(words, stdin=pipe, stdout=ends[1], stderr=pipe)
        os.close(ends[0])
        ends[0] = None
        expect("status, output and errors", (3, b"", b""), ended(process, b"stepi\n"))


def play_reader_goes(folder):
    """Reads the first of many replies, and closes the pipe."""
    file_of("positions", POSITIONS)(folder)
    for ignored in (False, True):
        leave_pipe(folder, POSITION, ignored)


def play_reader_goes_in_a_reply(folder):
    """Reads part of a reply that is longer than a pipe's capacity, and closes the pipe."""
    file_of("large", LARGE.encode())(folder)
    file_of("positions", f"stepi {ARRIVED}\ndump in 0\ninfo position\n".encode())(folder)
    leave_pipe(folder, f"at {ARRIVED}\nin 0 = abab".encode(), False, "large")


def leave_pipe(folder, first, ignored, recording=FIRST, word="run"):
    """Reads the first bytes of the output and no more, with SIGPIPE either ignored by the parent or as a shell sets
    it."""
    words = [NETREV, word, folder / recording]
    with open(folder / "positions", "rb") as commands:
        with started(words, stdin=commands, bufsize=0, restore_signals=not ignored) as process:
            reply = b""
            while len(reply) < len(first) and (more := process.stdout.read(len(first) - len(reply))):
                reply += more
            process.stdout.close()
            expect("the first bytes", first, reply)
            expect("status", 3, process.wait(PATIENCE))
            expect("errors", b"", process.stderr.read())


def play_errors(folder):
    """The usage text can't be printed, and the status shows that."""
    for into in (CLOSED, FULL, gone):
        stream = None if into is CLOSED else into(folder)
        close = (lambda: os.close(2)) if into is CLOSED else None
        process = subprocess.Popen([NETREV], stdout=subprocess.PIPE, stderr=stream, preexec_fn=close)
        if stream is not None:
            os.close(stream)
        expect("status, output and errors", (2, b"", b""), ended(process))


SIGNALS = (signal.SIGINT, signal.SIGTERM, signal.SIGHUP)


def signals():
    for stop in SIGNALS:
        name = stop.name
        yield Function(f"signals: {name} while run waits", partial(play_stopped_run, stop))
        yield Function(f"signals: {name} while serve serves three", partial(play_stopped_serve, stop))
    yield Function("signals: run is stopped and goes on", play_held_run)
    yield Function("signals: serve is stopped and goes on", play_held_serve)


@contextmanager
def answered_run():
    """A `run` that has answered a line and waits for the next line."""
    with started([NETREV, "run", FIRST], stdin=subprocess.PIPE, bufsize=0) as process:
        process.stdin.write(b"stepi\n")
        expect("the reply", b"at 1\n", process.stdout.readline())
        yield process


def play_stopped_run(stop, _folder):
    """The replies have been written, and nothing is printed about the signal."""
    with answered_run() as process:
        process.stdin.write(b"info posi")
        process.send_signal(stop)
        expect("status, output and errors", (-stop, b"", b""), ended(process))


def play_stopped_serve(stop, _folder):
    """The signal comes while one caller has a reply, one is silent and one doesn't read. Another server can use the
    same ports immediately."""
    with Server(FIRST, fronts=3, connections=None) as server:
        answered, silent, busy = (server.call(front) for front in range(3))
        answered.sendall(b"stepi\n")
        expect("a reply", b"at 1\n", answered.recv(100))
        busy.sendall(b"info position\n" * 2000)
        begun = busy.recv(100)
        server.process.send_signal(stop)
        expect("status, output and errors", (-stop, "", ""), server.ended())
        expect("what comes behind it", (b"", b""), (rest_of(answered), rest_of(silent)))
        reply = begun + rest_of(busy)
        expect("replies so far", (b"at 1 of 10 forward\n" * 2000)[: len(reply)], reply)
        with Server(FIRST, fronts=3, port=server.port) as next_one:
            for front in range(3):
                expect("the replies", [f"at {front + 1}", "bye"], talk(next_one.call(front), ["stepi", "quit"]))
            next_one.expect_end(0, "placed 3\n")


def hold(process):
    """Stops a process as Ctrl-Z does, waits until it has stopped, and continues it."""
    process.send_signal(signal.SIGSTOP)
    os.waitid(os.P_PID, process.pid, os.WSTOPPED)
    process.send_signal(signal.SIGCONT)


def play_held_run(_folder):
    with answered_run() as process:
        hold(process)
        expect("status, output and errors", (0, b"at 2\n", b""), ended(process, b"stepi\n"))


def play_held_serve(_folder):
    """One front waits for a caller, one for a line, and one for its caller to close the connection."""
    with Server(FIRST, fronts=3) as server:
        first, last = server.call(0), server.call(2)
        last.sendall(b"quit\n")
        expect("a reply", b"bye\n", last.recv(100))
        hold(server.process)
        last.close()
        expect("the replies", ["at 1", "bye"], talk(first, ["stepi", "quit"]))
        expect("the replies", ["at 2", "bye"], talk(server.call(1), ["stepi", "quit"]))
        server.expect_end(0, "placed 2\n")


def memory():
    for what, text in (("the first example", TEXT), ("a recording with large limits", LARGE.encode())):
        for word in ("check", "run"):

            def play(folder, word=word, text=text):
                path = Path(os.fsdecode(file_of("recording", text)(folder)))
                play_memory(word, DebuggedRecording.read(NETREV, path, LOOKS))

            yield Function(f"memory of a hundred sizes: {word} of {what}", play)

        def share(folder, text=text):
            path = Path(os.fsdecode(file_of("recording", text)(folder)))
            play_memory_of_serve(DebuggedRecording.read(NETREV, path, LOOKS))

        yield Function(f"memory of a hundred sizes: serve of {what}", share)


def cases():
    for group in (outputs, inputs, words, files, lines, signals, callers, memory, upgrades, suspects):
        yield from group()


def parameters():
    """The cases by their names."""
    another = pytest.mark.skip(reason="it needs another user than root")
    return [pytest.param(case, id=case.name, marks=[another] * case.skipped) for case in cases()]


@pytest.fixture
def patience():
    """Stops a process that takes too long."""

    def stop_waiting(*_):
        raise WrongResultError(f"it took more than {4 * PATIENCE} s")

    before = signal.signal(signal.SIGALRM, stop_waiting)
    signal.alarm(4 * PATIENCE)
    yield
    signal.alarm(0)
    signal.signal(signal.SIGALRM, before)


@pytest.fixture
def signals_of_a_terminal():
    """Within this test, SIGNALS have their default handlers, even if pytest was started with them ignored."""
    before = [(one, signal.signal(one, signal.SIG_DFL)) for one in SIGNALS]
    yield
    for one, handler in before:
        signal.signal(one, handler)


@pytest.mark.usefixtures("patience", "signals_of_a_terminal")
@pytest.mark.parametrize("case", parameters())
def test_system(folder, case):
    case.play(folder)
