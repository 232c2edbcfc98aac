"""Tests `serve` of the built program with each of its allocations refused in turn.

Two callers, each at its own front, send fixed lines one after the other, so the right replies are known: first over a
short recording, which one worker searches, then over a recording of more than three thousand steps, which three workers
search. The second case refuses only allocations that are made while callers are served, because the earlier ones are
like those in the first case. The allocations come in the same order each time, except those of threads that are
starting. Several sessions run at the same time. The tests refuse allocations with ever higher numbers. They stop when
the last AT_A_TIME sessions had no allocation to refuse. A refused allocation must be reported once, and in one of these
ways:

- before a caller is served, as `fault 108 memory`, with status 1;
- as `fault 301 memory` in place of a reply, if the line is a query or first has to complete another front's search; the
  line is then sent again;
- in place of a reply to a search, as `fault 302 memory, placed N`; then only `resume` gives the reply;
- at the end in place of `placed K`, as `fault 108 memory` with status 1.

All other replies must be right, and every reply must be right if netrev could do without the allocation. So no command
is lost or placed twice. In the last session no thread can be started, so the fronts are served one after the other, and
each searches by itself.
"""

from bisect import bisect_left
from concurrent.futures import ThreadPoolExecutor
from dataclasses import dataclass
from typing import NamedTuple

import pytest

from netrev.machine.debugger_model import is_command, read_line
from tests.program.support.sharing import Server, WrongResultError, expect, library_of

from .loopback import PARKED


class Played(NamedTuple):
    """The result of a session: whether an allocation was refused, how often that was reported, whether callers were
    served, and whether the number of their commands was reported."""

    refused: bool
    told: int
    served: bool
    counted: bool


@dataclass
class Script:
    """A recording, the number of workers of a search, and the lines of two callers with the right replies. `loading`:
    whether the allocations that load the recording are refused too."""

    name: str
    text: str
    workers: int
    callers: tuple
    loading: bool

    def commands(self):
        """How many of the lines are commands."""
        return sum(is_command(read_line(line.encode())) for lines in self.callers for line, _ in lines)


SHORT = (
    (
        ("watch rg 0", "mark 1"),
        ("continue", "at 2 by 1"),
        ("stepi 6", "at 8"),
        ("dump in 0", "in 0 = 6869"),
        ("stepi 3", "at 11"),
        ("dump in 0", "in 0 = -"),
        ("reverse-continue", "at 10 by 1"),
        ("print in 0", "in 0 = 2"),
        ("resume", "nothing owed"),
        ("quit", "bye"),
    ),
    (
        ("stepi", "at 11"),
        ("info position", "at 11 of 12 forward"),
        ("reverse-continue", "at 10 by 1"),
        ("dump in 0", "in 0 = 6869"),
        ("continue", "at 12 end"),
        ("dump rq 0", "rq 0 = -"),
        ("resume", "nothing owed"),
        ("quit", "bye"),
    ),
)
LONG = (
    (
        ("watch rg 0", "mark 1"),
        ("stepi 9999", "at 3612 end"),
        ("reverse-continue", "at 10 by 1"),
        ("break @3000", "mark 2"),
        ("continue", "at 2999 by 2"),
        ("info position", "at 2999 of 3612 forward"),
        ("quit", "bye"),
    ),
    (
        ("info position", "at 2999 of 3612 forward"),
        ("continue", "at 3612 end"),
        ("reverse-continue", "at 2999 by 2"),
        ("reverse-continue", "at 10 by 1"),
        ("dump in 0", "in 0 = 6869"),
        ("quit", "bye"),
    ),
)
TICKS = "".join(f'["tick",{time}]\n' for time in range(1, 3601))
SCRIPTS = (Script("short", PARKED, 1, SHORT, loading=True), Script("long", PARKED + TICKS, 3, LONG, loading=False))
NO_MEMORY = "fault 108 memory"
AT_A_TIME = 16


@dataclass
class Session:
    """The callers of a session, and the replies about memory."""

    server: Server
    callers: tuple
    placed: int = 0
    told: int = 0

    def talk(self, front):
        """Sends a caller's lines, and returns whether it was served."""
        lines = self.callers[front]
        caller = self.server.call(front)
        if caller is None:
            return False
        with caller, caller.makefile("r", encoding="ascii", newline="\n") as replies:
            for at, (line, right) in enumerate(lines):
                reply = self.ask(caller, replies, line)
                if reply is None and front == 0 and at == 0:
                    return False
                self.placed += is_command(read_line(line.encode()))
                self.expect_reply(caller, replies, front, at, line, right, reply)
            expect(f"what comes behind {line}", "", replies.read())
        return True

    @staticmethod
    def ask(caller, replies, line):
        """The reply to a line; None if the connection ended."""
        try:
            caller.sendall(f"{line}\n".encode())
            return replies.readline().removesuffix("\n") or None
        except ConnectionError:
            return None

    def expect_reply(self, caller, replies, front, at, line, right, reply):
        """Checks that a line was answered correctly, at once or when it was repeated."""
        request = read_line(line.encode())
        assert request, line
        placed = f"fault 302 memory, placed {self.placed}"
        if reply == "fault 301 memory" and (request.sort in ("look", "info") or (front > 0 and at == 0)):
            self.told += 1
            reply = self.ask(caller, replies, line)
        elif reply == placed and request.sort == "seek":
            self.told += 1
            expect("a further line while a reply is owed", placed, self.ask(caller, replies, "stepi"))
            reply = self.ask(caller, replies, "resume")
        expect(f"the reply to {line} at front {front}", right, reply)


def play(folder, script, words):
    """Runs a session of a netrev that the command `env` starts with these arguments. A file gets a byte for each
    refused allocation."""
    reports = folder / "-".join([script.name, *words[1:]]).replace("=", "-")
    through = ["sh", "-c", 'told=$1; shift; exec env "$@" 9> "$told"', "sh", str(reports), *words]
    recording = folder / f"{script.name}.jsonl"
    with Server(recording, fronts=2, journal=16, workers=script.workers, through=through) as server:
        session = Session(server, script.callers)
        served = session.talk(0) and session.talk(1)
        ended = server.ended()
    refused = reports.stat().st_size > 0
    right = (0, f"placed {session.placed}\n", "")
    if refused and session.told == 0 and ended == (1, f"{NO_MEMORY}\n", ""):
        session.told = 1
        if not served:
            expect("commands that were placed by callers who weren't served", 0, session.placed)
            return Played(refused, session.told, served, counted=False)
    else:
        expect("the end of netrev serve: status, output and errors", right, ended)
    expect("whether each caller was served", True, served)
    expect("commands that were placed", script.commands(), session.placed)
    expect("how often memory was told of is at most once where it was refused", True, session.told <= refused)
    return Played(refused, session.told, served, counted=ended[0] == 0)


def first_served(play_number):
    """The number of the first allocation that can fail while callers are still served; netrev makes the earlier
    allocations while it loads."""
    most = 1
    while not play_number(most).served:
        most *= 2
    return bisect_left(range(most), True, lo=most // 2, key=lambda number: play_number(number).served)


def play_script(folder, preload, script):
    """Refuses each allocation in turn, in several sessions at the same time."""
    (folder / f"{script.name}.jsonl").write_text(script.text, encoding="ascii")

    def play_number(number):
        try:
            return play(folder, script, [preload, f"REFUSED={number}"])
        except WrongResultError as wrong:
            raise WrongResultError(f"with allocation {number} refused: {wrong}") from None

    first = 1 if script.loading else first_served(play_number)
    runs: list[Played] = []
    with ThreadPoolExecutor(4) as pool:
        while not runs or any(run.refused for run in runs[-AT_A_TIME:]):
            begin = first + len(runs)
            runs += pool.map(play_number, range(begin, begin + AT_A_TIME))
    expect(f"{script.name}: whether the first allocation was refused", True, runs[0].refused)
    threadless = play(folder, script, [preload, "THREADS=0"])
    expect("with no thread: refused, told of memory, served, counted", Played(True, 0, True, True), threadless)
    if script.workers == 1:
        # (the workers need varying amounts of memory, so their last allocation may be missed)
        uncounted = any(run.served and not run.counted for run in runs)
        expect(f"{script.name}: whether memory was refused for the history once", True, uncounted)
    return runs


@pytest.mark.long
@pytest.mark.parametrize("script", SCRIPTS, ids=lambda script: script.name)
def test_each_allocation_refused(folder, script):
    runs = play_script(folder, f"LD_PRELOAD={library_of('refused', folder)}", script)
    print(f"{sum(run.refused for run in runs)} allocations refused, {sum(run.told for run in runs)} of them told")
