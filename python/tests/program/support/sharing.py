"""A serving netrev and callers that talk to it at the same time, for the scripts that test `netrev serve`.

No function here waits by sleeping. To wait for a port, a function keeps trying to connect. To wait for replies, it
reads the socket. To wait for netrev's end, it waits for the process. Each wait has a limit.
"""

import os
import random
import selectors
import socket
import subprocess
import sys
import tempfile
import threading
import time
from dataclasses import dataclass, field
from itertools import count
from pathlib import Path

from netrev.errors import NetrevError
from netrev.machine.debugger_model import FULL, Reply, Request, is_command, read_line

ROOT = Path(__file__).resolve().parents[4]
NETREV = os.path.abspath(os.environ.get("NETREV", ROOT / "crates/netrev/out/netrev"))
PATIENCE = 30  # seconds
LOOPBACK = "127.0.0.1"


@dataclass
class Exchange:
    """A line and its reply. `sent` and `read` say when the line was sent and its reply was read, as numbers that count
    these events over all fronts."""

    asked: Request
    line: bytes
    sent: int
    reply: Reply = ()
    read: int = 0

    def is_placed(self) -> bool:
        """Whether the line is a command that found a place in the journal."""
        return is_command(self.asked) and self.reply != (FULL,)

    def is_calm(self) -> bool:
        """Whether a line with this reply never changes the state."""
        return not is_command(self.asked) or self.reply[0].startswith("fault ")


class WrongResultError(NetrevError):
    """Raised if a result isn't as expected."""


def expect(what, expected, reply):
    """Prints the expected and the actual result, and fails, if they differ."""
    if expected != reply:
        raise WrongResultError(f"{what}\n  expected: {expected!r}\n  came:     {reply!r}")


def is_program(path):
    """Whether the file at the path is a program."""
    return os.path.isfile(path) and os.access(path, os.X_OK)


def library_of(name, folder):
    """The library of scripts/NAME.c, which is loaded before the C library. It is built by a C compiler."""
    library = folder / f"{name}.so"
    words = ["cc", "-O2", "-fPIC", "-shared", "-o", library, ROOT / f"scripts/{name}.c", "-ldl"]
    subprocess.run(words, timeout=60, check=True)
    return library


class Ports:
    """Unused ports, none of which is given twice. They are below the system's ephemeral ports. They come
    from blocks whose first port is held as long as this script runs, so that two scripts don't take the same ports. No
    process may be started while a port is tried, because the process would hold that port for a moment; `lock` prevents
    this."""

    BLOCK = 256

    def __init__(self):
        self.lock = threading.Lock()
        self.held = []
        self.left = range(0)

    def take(self, wanted):
        """The first of this many free consecutive ports."""
        while True:
            while len(self.left) >= wanted:
                first, self.left = self.left[0], self.left[1:]
                if all(map(self.is_free, range(first, first + wanted))):
                    self.left = self.left[wanted - 1 :]
                    return first
            self.take_block()

    def take_block(self):
        """Holds the first port of another block."""
        blocks = list(range(10_240, 32_000 - self.BLOCK, self.BLOCK))
        random.shuffle(blocks)
        for first in blocks:
            marker = socket.socket()
            try:
                marker.bind((LOOPBACK, first))
            except OSError:
                marker.close()
                continue
            self.held.append(marker)
            self.left = range(first + 1, first + self.BLOCK)
            return
        raise WrongResultError("there are no free ports")

    @staticmethod
    def is_free(port):
        with socket.socket() as item:
            try:
                item.bind((LOOPBACK, port))
            except OSError:
                return False
            return True


PORTS = Ports()


class Server:
    """A netrev that serves a recording on ports of its own, or on `port` and the ports after it. `before` is called
    with the first port before netrev starts. The command `through`, if given, starts netrev. Each search uses the given
    number of workers. Without a number of connections, it serves until it is stopped."""

    def __init__(self, recording, fronts=1, connections=1, journal=4096, workers=1, through=(), before=None, port=None):
        self.errors = tempfile.TemporaryFile()
        with PORTS.lock:
            self.port = port or PORTS.take(fronts)
            if before:
                before(self.port)
            words = [*through, NETREV, "serve", str(recording), "--port", str(self.port), "--fronts", str(fronts)]
            words += ["--journal", str(journal), "--workers", str(workers)]
            if connections:
                words += ["--connections", str(connections)]
            self.process = subprocess.Popen(words, stdin=subprocess.DEVNULL, stdout=subprocess.PIPE, stderr=self.errors)

    def __enter__(self):
        return self

    def __exit__(self, *_):
        if self.process.poll() is None:
            self.process.kill()
        self.process.communicate()
        self.errors.close()

    def has_ended(self):
        return self.process.poll() is not None

    def call(self, front, **options):
        """Connects to the front as soon as it listens, and returns the socket, or None if netrev ends first."""
        limit = time.monotonic() + PATIENCE
        while time.monotonic() < limit:
            caller = socket.socket()
            for option, value in options.items():
                caller.setsockopt(socket.SOL_SOCKET, getattr(socket, option), value)
            try:
                caller.connect((LOOPBACK, self.port + front))
                caller.setsockopt(socket.IPPROTO_TCP, socket.TCP_NODELAY, 1)
                caller.settimeout(PATIENCE)
                return caller
            except ConnectionError:  # refused before the front listens, or reset if netrev ends during the call
                caller.close()
            if self.has_ended():
                return None
            time.sleep(0.002)
        raise WrongResultError(f"front {front} didn't listen within {PATIENCE} s")

    def ended(self):
        """Waits for the end of netrev, and returns its status, output and errors."""
        try:
            output, _ = self.process.communicate(timeout=PATIENCE)
        except subprocess.TimeoutExpired:
            raise WrongResultError(f"netrev serve didn't end within {PATIENCE} s") from None
        self.errors.seek(0)
        return self.process.returncode, output.decode(), self.errors.read().decode()

    def expect_end(self, status, output):
        """Checks that netrev ends by itself with this status and this output, and with nothing on standard error."""
        expect("the end of netrev serve: status, output and errors", (status, output, ""), self.ended())


def talk(caller, lines):
    """Sends the lines, reads to the end, and returns the lines that were received."""
    caller.sendall("".join(f"{line}\n" for line in lines).encode())
    return read_to_end(caller)


def read_to_end(caller):
    """Reads until netrev ends the connection, and returns the lines that were received."""
    with caller, caller.makefile("r", encoding="ascii", newline="\n") as replies:
        return replies.read().splitlines()


CLOCK = count(1)


@dataclass
class Talker:
    """A caller that has at most this many unanswered lines at a time, and records when each line was sent and
    answered."""

    caller: socket.socket
    lines: list
    window: int
    exchanges: list = field(default_factory=list)
    answered: int = 0
    unsent: bytes = b""
    unread: bytes = b""
    reply: list = field(default_factory=list)
    missing: int = 0
    sent: int = 0
    ended: bool = False

    def wants_to_send(self):
        """Prepares as many lines for sending as the window allows, and returns whether anything is left to send."""
        while self.sent < len(self.lines) and len(self.exchanges) - self.answered < self.window:
            line = self.lines[self.sent]
            self.sent += 1
            self.unsent += line + b"\n"
            request = read_line(line)
            if request:
                self.exchanges.append(Exchange(request, line, next(CLOCK)))
        return bool(self.unsent)

    def send(self):
        self.unsent = self.unsent[self.caller.send(self.unsent) :]

    def receive(self):
        """Reads what has arrived. At the end of the stream, this talker has ended."""
        reply = self.caller.recv(1 << 16)
        self.ended = not reply
        *whole, self.unread = (self.unread + reply).split(b"\n")
        for line in whole:
            self.take(line.decode("ascii"))

    def take(self, line):
        """Reads a line of a reply. Two kinds of replies are lists, whose first line says how many lines follow."""
        if self.answered == len(self.exchanges):
            raise WrongResultError(f"a reply to nothing: {line!r}")
        if not self.reply:
            first, _, number = line.partition(" ")
            self.missing = 1 + (int(number) if first in ("marks", "checkpoints") else 0)
        self.reply.append(line)
        self.missing -= 1
        if self.missing == 0:
            exchange = self.exchanges[self.answered]
            exchange.reply, exchange.read = tuple(self.reply), next(CLOCK)
            self.answered += 1
            self.reply = []

    def expect_whole(self):
        """Checks that each line was answered and that nothing else arrived."""
        expect("how many lines were answered", len(self.exchanges), self.answered)
        expect("lines sent", len(self.lines), self.sent)
        expect("what came behind the last reply", (b"", []), (self.unread, self.reply))


def converse(talkers):
    """Lets all callers talk at the same time, each until netrev ends its connection."""
    with selectors.DefaultSelector() as selector:
        for talker in talkers:
            talker.caller.setblocking(False)
            selector.register(talker.caller, selectors.EVENT_READ, talker)
        while selector.get_map():
            for key in list(selector.get_map().values()):
                wanted = selectors.EVENT_READ | (selectors.EVENT_WRITE if key.data.wants_to_send() else 0)
                if wanted != key.events:
                    selector.modify(key.fileobj, wanted, key.data)
            ready = selector.select(PATIENCE)
            if not ready:
                raise WrongResultError(
                    f"nothing came within {PATIENCE} s, with {len(selector.get_map())} callers unanswered"
                )
            for key, events in ready:
                talker = key.data
                if events & selectors.EVENT_WRITE:
                    talker.send()
                if events & selectors.EVENT_READ:
                    talker.receive()
                if talker.ended:
                    selector.unregister(talker.caller)
                    talker.caller.close()
                    talker.expect_whole()


if __name__ == "__main__":
    print(PORTS.take(int(sys.argv[1])))  # prints the first of this many free consecutive ports
