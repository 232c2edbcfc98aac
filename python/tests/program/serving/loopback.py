"""Tests sessions of the built program over the loopback:

    table     two callers one after the other, with known replies, and journals of one word and of four
    turns     three callers at each of two fronts, one after the other
    stopped   a signal stops a server that serves without end; then another server serves at the same ports
    elsewhere callers at this machine's other addresses aren't served
    crowded   eight callers at the same time, with room for seven commands; two callers with a hundred commands each
    silent    a silent caller delays nobody at the sixteen other fronts
    hostile   callers disconnect in the middle, send a line without an end, don't read, or continue after `quit`, or a port is
              in use. The next caller is served, netrev ends by itself, and its status says whether a connection failed
    histories callers at 64 fronts, two at each, send random lines. All replies must fit one order of all lines (history.py), and
              `placed K` must be the number of commands. With all kinds of lines, only eight fronts talk at the same time,
              because the search would take too long for more. All 64 fronts talk at once if they send only queries and
              steps forward. In one session, two fronts fill the journal
    altered   tests that the search for an order can fail: in one session, no order fits if any reply is altered; in another,
              no order fits if any reply to a command is altered

pytest's option --seed sets the seed of the random lines.
"""

import errno
import signal
import socket
import struct
import subprocess
import tempfile
from dataclasses import replace
from pathlib import Path

import pytest

from netrev.machine.debugger_model import (  # (Python needs this to find nrdb)
    FULL,
    DebuggedRecording,
    is_command,
    read_line,
)
from netrev.text.vocabulary import CELLS, DUMPS, KINDS, MOST, ObjectKind
from tests.program.support.history import Search, SearchLimitError
from tests.program.support.sharing import (
    NETREV,
    PATIENCE,
    ROOT,
    Server,
    Talker,
    WrongResultError,
    converse,
    expect,
    read_to_end,
    talk,
)

# a reader parks and is woken by bytes: twelve steps
PARKED = """{"netrev":1,"gor":4,"sock":2,"desc":2,"buf":16}
["sockopen",16,16]
["pollopen",0,0]
["rwlock",0,0,"r"]
["waitbegin",0,0,"r"]
["blockarm",0]
["blockcheck",0]
["parkcommit",0]
["arrive",0,"6869"]
["pollevent",0,1,"r",0]
["blockswap",0]
["sysread",0,0,8]
["rwunlock",0,0,"r"]
"""
SHOWN = [cell.name for cell in CELLS.values() if cell.of is ObjectKind.ALL]
SHOWN += [f"{cell.name} {number}" for cell in CELLS.values() if cell.of is not ObjectKind.ALL for number in (0, 1)]
LOOKS = [f"print {cell}" for cell in SHOWN] + [f"dump {dump} {number}" for dump in DUMPS for number in (0, 1)]
NONSENSE = [b"frob", b"stepi 0", b"print", b"watch clock 1", b"quit now", b"break @0", b"\tstepi", b"stepi 4294967296"]
NOTHING = [b"", b"   ", b"\r"]
TOO_LONG = [b"x" * 257, b"stepi" + b" " * 300, b"checkpoint" + b" " * 246 + b"\r"]
RESET = struct.pack("ii", 1, 0)


@pytest.fixture(scope="module")
def kept():
    """A folder for the recordings of these sessions."""
    with tempfile.TemporaryDirectory() as name:
        yield Path(name)


@pytest.fixture(scope="module")
def parked(kept):
    """A short recording with the values at its positions."""
    path = kept / "parked.jsonl"
    path.write_text(PARKED, encoding="ascii")
    return DebuggedRecording.read(NETREV, path, LOOKS)


@pytest.fixture(scope="module")
def lives(kept):
    """A long recording with the values at its positions."""
    path = kept / "lives.jsonl"
    shapes = ROOT / "bench/shapes.awk"
    with open(path, "wb") as out:
        subprocess.run(["awk", "-v", "shape=mix", "-v", "n=3000", "-f", shapes], stdout=out, timeout=60, check=True)
    return DebuggedRecording.read(NETREV, path, LOOKS)


class Lines:
    """Random lines over a recording. Most of the commands have replies that show where they began; otherwise too many
    orders would have to be tried."""

    def __init__(self, dice, recording):
        self.dice = dice
        self.most = recording.length
        self.kinds = sorted(set(recording.kinds)) + list(KINDS)[:2]

    def number(self):
        """The number of a mark or checkpoint, which may not exist."""
        return self.dice.randint(0, self.dice.choice([12, 120]))

    def step(self):
        word = self.dice.choice(["stepi", "si", "reverse-stepi", "rsi"])
        return word + self.dice.choice(["", " 1", " 02"] + [f" {self.dice.randint(1, 1 + self.most // 10)}"] * 7)

    def seek(self):
        return self.dice.choice(["continue", "c", "reverse-continue", "rc"])

    def far(self):
        restart = f"restart {self.number()}"
        word = self.dice.choice(["stepi", "rsi"])
        return self.dice.choice([restart, restart, f"{word} {self.most}", f"{word} {MOST}"])

    def mark(self):
        word = self.dice.choice(["break", "b", "tbreak", "tb"])
        step = self.dice.randint(1, self.most + 2)
        watch = f"watch {self.dice.choice(SHOWN)}"
        return self.dice.choice([f"{word} {self.dice.choice(self.kinds)}", f"{word} @{step}", f"{word} @{step}", watch])

    def checkpoint(self):
        return "checkpoint"

    def take_away(self):
        return f"delete{self.dice.choice(['', ' checkpoint'])} {self.number()}"

    def turn(self):
        return f"set exec-direction {self.dice.choice(['forward', 'reverse'])}"

    def look(self):
        print_cell = self.dice.choice(LOOKS).replace("print", self.dice.choice(["print", "p"]))
        request = ["info position", "info breakpoints", "info checkpoints", "resume"]
        return self.dice.choice([print_cell] * 3 + ["info position"] * 2 + request)

    def command(self):
        sorts = {
            self.step: 50,
            self.seek: 10,
            self.mark: 6,
            self.checkpoint: 6,
            self.take_away: 6,
            self.far: 3,
            self.turn: 1,
        }
        return self.dice.choices(list(sorts), sorts.values())[0]()

    def line(self):
        sort = self.dice.random()
        if sort < 0.1:
            return self.dice.choice(self.dice.choice([NONSENSE, NOTHING, TOO_LONG]))
        text = self.look() if sort < 0.35 else self.command()
        spaced = text.replace(" ", self.dice.choice([" ", " ", "  "]))
        return (spaced + self.dice.choice(["", "", " ", "\r"])).encode()

    def opening(self):
        """Lines that lead to the middle, with marks and checkpoints along the way, and `quit`."""
        lines = [f"stepi {self.most // 30}\ncheckpoint\n{self.mark()}" for _ in range(15)]
        return "\n".join([*lines, "quit"]).encode().split(b"\n")

    def some(self, count):
        """This many lines, and `quit`."""
        return [self.line() for _ in range(count)] + [b"quit"]

    def some_forwards(self, count):
        """This many lines, each a step forwards or a query, and `quit`."""
        lines = [self.dice.choice(["stepi", "si 2", self.look(), "info position"]) for _ in range(count)]
        return [line.encode() for line in lines] + [b"quit"]


def commands_in(lines):
    """The number of commands among the lines."""
    return sum(is_command(read_line(line)) for line in lines)


def share_lines(recording, fronts, journal=4096, workers=1, windows=(1,), at_once=None):
    """Sends the lines of each front's connections, and returns each front's lines with their replies. The callers take
    their windows from `windows` in turn. All callers connect at the beginning. The first caller talks alone; then the
    callers of `at_once` fronts, by default of all fronts, talk at the same time."""
    at_once = at_once or len(fronts)
    with Server(recording.path, len(fronts), len(fronts[0]), journal, workers) as server:
        talkers = [
            [Talker(server.call(at), lines, windows[(at + turn) % len(windows)]) for turn, lines in enumerate(front)]
            for at, front in enumerate(fronts)
        ]
        converse(talkers[0][:1])
        for first in range(0, len(fronts), at_once):
            batch = [talker for front in talkers[first : first + at_once] for talker in front]
            converse([talker for talker in batch if not talker.ended])
        placed = min(journal, sum(commands_in(lines) for front in fronts for lines in front))
        server.expect_end(0, f"placed {placed}\n")
    return [[exchange for talker in front for exchange in talker.exchanges] for front in talkers]


def history_of(recording, exchanged, journal=4096):
    """The order of a history that explains all replies."""
    order = Search(recording, exchanged, journal).find()
    if order is None:
        raise WrongResultError(f"no history gives the replies of these fronts:\n{as_text(exchanged)}")
    return order


def as_text(exchanged):
    """What the fronts exchanged, one line each."""
    return "\n".join(
        f"  front {front}: {exchange.line!r} (sent {exchange.sent}) {' / '.join(exchange.reply)} (read {exchange.read})"
        for front, exchanges in enumerate(exchanged)
        for exchange in exchanges
    )


# ---- the sessions ----


def test_table(parked):
    """The replies are known: with room for one command, and with room for four."""
    for journal, placed, moved in (
        (1, 1, ["fault 303 journal full", "at 3 of 12 forward"]),
        (4, 2, ["at 2", "at 2 of 12 forward"]),
    ):
        with Server(parked.path, fronts=2, journal=journal) as server:
            expect("the replies of front 0", ["at 3", "bye"], talk(server.call(0), ["stepi 3", "quit"]))
            reply = talk(server.call(1), ["reverse-stepi", "info position", "quit"])
            expect("the replies of front 1", [*moved, "bye"], reply)
            server.expect_end(0, f"placed {placed}\n")


def test_turns(parked):
    """Six callers at two fronts take turns; each continues from the state that the previous one left."""
    turns = (
        (0, ["stepi 3", "quit"], ["at 3", "bye"]),
        (0, ["info position", "break @5", "quit"], ["at 3 of 12 forward", "mark 1", "bye"]),
        (1, ["continue", "quit"], ["at 4 by 1", "bye"]),
        (1, ["stepi", "checkpoint", "quit"], ["at 5", "checkpoint 1 at 5", "bye"]),
        (0, ["reverse-stepi 2", "quit"], ["at 3", "bye"]),
        (1, ["info position", "quit"], ["at 3 of 12 forward", "bye"]),
    )
    with Server(parked.path, fronts=2, connections=3) as server:
        for front, lines, replies in turns:
            expect(f"the replies of front {front}", replies, talk(server.call(front), lines))
        server.expect_end(0, "placed 6\n")


def test_stopped(parked):
    """A signal ends a server that serves without end, even while a caller is connected, and no port stays in use."""
    for stop in (signal.SIGTERM, signal.SIGKILL):
        with Server(parked.path, fronts=2, connections=None) as server:
            for _ in range(3):
                expect("the replies", ["bye"], talk(server.call(1), ["quit"]))
            with server.call(0) as silent:
                expect("netrev serve ended by itself", False, server.has_ended())
                server.process.send_signal(stop)
                expect("the end of netrev serve: status, output and errors", (-stop, "", ""), server.ended())
                with Server(parked.path, fronts=2, port=server.port) as next_one:
                    for front, place in ((0, 1), (1, 2)):
                        reply = talk(next_one.call(front), ["stepi", "quit"])
                        expect(f"the replies of front {front}", [f"at {place}", "bye"], reply)
                    next_one.expect_end(0, "placed 2\n")


def test_elsewhere(parked):
    """Each port is open at 127.0.0.1 only."""
    with Server(parked.path, fronts=2) as server:
        callers = [server.call(front) for front in range(2)]
        for front in range(2):
            for family, address in other_addresses():
                with socket.socket(family) as item:
                    item.settimeout(PATIENCE)
                    refused = item.connect_ex((address, server.port + front))
                expect(f"what a caller at {address} was told", errno.ECONNREFUSED, refused)
        for caller in callers:
            expect("the replies", ["bye"], talk(caller, ["quit"]))
        server.expect_end(0, "placed 0\n")


def other_addresses():
    """This machine's addresses other than 127.0.0.1: further addresses of 127.0.0.0/8, and its addresses in the
    network."""
    found = [(socket.AF_INET, "127.0.0.2"), (socket.AF_INET, "127.255.255.254")]
    # connecting a datagram socket sends nothing: it only finds the local address
    for family, far in ((socket.AF_INET, "192.0.2.1"), (socket.AF_INET6, "2001:db8::1"), (socket.AF_INET6, "::1")):
        try:
            with socket.socket(family, socket.SOCK_DGRAM) as item:
                item.connect((far, 9))
                found.append((family, item.getsockname()[0]))
        except OSError:  # the machine has no such address
            continue
    return found


def test_crowded(lives):
    """Callers step forwards at the same time: each free place of the journal gets one command."""
    for fronts, each, journal in ((8, 1, 7), (2, 100, 4096)):
        exchanged = share_lines(lives, [[[b"stepi"] * each + [b"quit"]]] * fronts, journal, windows=(1000,))
        replies = [item.reply for front in exchanged for item in front if is_command(item.asked)]
        placed = min(journal, fronts * each)
        places = [(f"at {place}",) for place in range(1, placed + 1)]
        expect("the replies", sorted(places + [(FULL,)] * (fronts * each - placed)), sorted(replies))


def test_silent(parked, dice):
    """Sixteen callers finish while another caller is silent."""
    for leave, status in ((socket.socket.close, 0), (reset, 3)):
        with Server(parked.path, fronts=17) as server:
            silent = server.call(0)
            lines = [Lines(dice, parked).some(10) for _ in range(16)]
            talkers = [Talker(server.call(front + 1), some, 1) for front, some in enumerate(lines)]
            converse(talkers)
            expect("netrev serve ended while one was connected", False, server.has_ended())
            leave(silent)
            server.expect_end(status, f"placed {sum(map(commands_in, lines))}\n")


def reset(caller):
    """Disconnects so that the other side's reads and writes fail."""
    caller.setsockopt(socket.SOL_SOCKET, socket.SO_LINGER, RESET)
    caller.close()


def half_a_line(caller):
    """Sends a last line without its end, which still counts as a command; its reply isn't read."""
    caller.sendall(b"stepi 2\n")
    expect("a reply", b"at 2\n", caller.recv(100))
    caller.sendall(b"stepi")
    caller.close()


def half_a_line_and_reset(caller):
    """Sends an unfinished line and resets: the line doesn't count if the read fails."""
    caller.sendall(b"stepi 3\n")
    expect("a reply", b"at 3\n", caller.recv(100))
    caller.sendall(b"stepi 3")
    reset(caller)


def line_without_end(caller):
    """Sends ten million bytes without a line feed, which count as one fault."""
    caller.sendall(b"x" * 10_000_000)
    caller.shutdown(socket.SHUT_WR)
    expect("the reply", ["fault 203 line too long"], read_to_end(caller))


def reads_nothing(caller):
    """Reads no replies, and sends until the connection takes no more. Then resets the connection."""
    caller.sendall(b"stepi 3\n")
    expect("a reply", b"at 3\n", caller.recv(100))
    caller.settimeout(0.5)
    lines = b"info breakpoints\n" * 4096
    for _ in range(1000):
        try:
            caller.sendall(lines)
        except TimeoutError:
            return reset(caller)
    raise WrongResultError("64 MB of lines were taken from one who reads no reply")


def more_behind_quit(caller):
    """Sends lines after `quit`: they aren't answered, and the caller still gets the last reply."""
    caller.sendall(b"quit\n" + b"stepi\n" * 1000)
    expect("the replies", ["bye"], read_to_end(caller))


def no_end_behind_quit(caller):
    """Sends without end after `quit`: netrev reads a part, and closes the connection."""
    caller.sendall(b"quit\n")
    expect("the reply", b"bye\n", caller.recv(100))
    try:
        for _ in range(1000):
            caller.sendall(b"x" * 65_536)
    except ConnectionError:
        return caller.close()
    raise WrongResultError("64 MB behind quit were taken")


def stays_behind_quit(caller):
    """Reads to the end of the replies and then neither closes nor sends; netrev doesn't wait for such a caller."""
    caller.sendall(b"quit\n")
    expect("the reply", b"bye\n", caller.recv(100))
    expect("the end of the replies", b"", caller.recv(100))
    return caller


def test_hostile(parked):
    """Each of these callers disconnects in the middle, or misuses its connection. The next caller of the front is
    served at the front's position, and the session ends."""
    for leave, status, position, placed in (
        (half_a_line, 0, 3, 2),
        (half_a_line_and_reset, 3, 3, 1),
        (line_without_end, 0, 0, 0),
        (reads_nothing, 3, 3, 1),
        (more_behind_quit, 0, 0, 0),
        (no_end_behind_quit, 0, 0, 0),
        (stays_behind_quit, 0, 0, 0),
    ):
        with Server(parked.path, connections=2) as server:
            _staying = leave(server.call(0, SO_RCVBUF=4096))
            reply = talk(server.call(0), ["info position", "stepi", "quit"])
            shown = [f"at {position} of 12 forward", f"at {position + 1}", "bye"]
            expect(f"the replies after {leave.__name__}", shown, reply)
            server.expect_end(status, f"placed {placed + 1}\n")
    play_taken_port(parked)


def play_taken_port(parked):
    """The middle port of three is in use; the other two ports are served."""
    taken = socket.socket()

    def take(first):
        taken.bind(("127.0.0.1", first + 1))
        taken.listen()

    with taken, Server(parked.path, fronts=3, before=take) as server:
        expect("the replies of front 0", ["at 3", "bye"], talk(server.call(0), ["stepi 3", "quit"]))
        expect("the replies of front 2", ["at 2", "bye"], talk(server.call(2), ["reverse-stepi", "quit"]))
        server.expect_end(3, "placed 2\n")


def race_forwards(lives, dice, fronts, connections):
    """The lines and replies of this many fronts, which step forwards at the same time, with queries in between."""
    lines = Lines(dice, lives)
    some = [[lines.some_forwards(10) for _ in range(connections)] for _ in range(fronts)]
    return share_lines(lives, some, windows=(1, 4, 1000))


def play_mixed(lives, dice, windows, workers):
    """Lines of all sorts at 64 fronts, with this many workers for each `continue`. If the search for a history gives
    up, the session is repeated with other lines, at most twice."""
    lines = Lines(dice, lives)
    for left in (2, 1, 0):
        mixed = [[lines.some(15) for _ in range(2)] for _ in range(64)]
        mixed[0][0] = lines.opening()
        try:
            return history_of(lives, share_lines(lives, mixed, workers=workers, windows=windows, at_once=8))
        except SearchLimitError:
            if not left:
                raise


def test_histories(parked, lives, dice):
    """A history exists for the replies to random lines at many fronts."""
    history_of(lives, race_forwards(lives, dice, fronts=64, connections=2))
    for windows, workers in ((1,), 1), ((1, 4), 3):
        play_mixed(lives, dice, windows, workers)
    for _ in range(10):
        two = [[Lines(dice, parked).some(30)] for _ in range(2)]
        for journal in (7, sum(commands_in(front[0]) for front in two)):
            history_of(parked, share_lines(parked, two, journal, windows=(1, 4)), journal)


def other_reply(reply):
    """A reply with its last number raised, or, if it has no number, with one more word."""
    *front, last = reply
    words = last.split(" ")
    numbers = [at for at, word in enumerate(words) if word.isdigit()]
    if numbers:
        words[numbers[-1]] = str(int(words[numbers[-1]]) + 1)
    else:
        words.append("more")
    return (*front, " ".join(words))


def test_altered(parked, lives, dice):
    """If two callers talk one after the other, only one history exists. If one of their replies is altered, no
    history exists. Commands with rising positions have only one possible order, so the same holds if the reply to such
    a command is altered. The altered reply to a query may fit an earlier or a later state."""
    two = [[Lines(dice, parked).some(20)] for _ in range(2)]
    expect_no_other(parked, share_lines(parked, two, at_once=1), lambda item: True)
    expect_no_other(lives, race_forwards(lives, dice, fronts=8, connections=1), lambda item: is_command(item.asked))


def expect_no_other(recording, exchanged, has_one_place):
    """Checks that a history exists. For each line that can have only one place in a history, alters its reply
    alone, and checks that no history exists then."""
    history_of(recording, exchanged)
    for front, exchanges in enumerate(exchanged):
        for at, exchange in enumerate(exchanges):
            if not has_one_place(exchange):
                continue
            altered = [list(each) for each in exchanged]
            altered[front][at] = replace(exchange, reply=other_reply(exchange.reply))
            if Search(recording, altered, 4096).find():
                raise WrongResultError(f"a history was found, with {exchange.line!r} altered:\n{as_text(altered)}")
