"""The common parts of nrdb's tests: paths, runs of nrdb with given lines, and netrev's own values at each position of a
recording, from plain `print`s."""

import contextlib
import io
import json
import subprocess
import sys
from functools import lru_cache

from netrev.recording.recording import Recording
from netrev.text.vocabulary import CELLS, DUMPS, ObjectKind
from nrdb.cli import main
from tests.program.support.sharing import NETREV, ROOT
from tests.support.examples import ALL

EXAMPLES = ROOT / "examples"
HUNTS = EXAMPLES / "hunts"
NRDB = str(ROOT / "nrdb")
PATIENCE = 60  # seconds
BESIDE = ("changed", "timer")  # the topics of the tables that follow each move

LIMIT_OF = {ObjectKind.GOROUTINE: "gor", ObjectKind.SOCKET: "sock", ObjectKind.DESCRIPTOR: "desc"}


def nrdb(*words, lines=(), status=0):
    """nrdb's output for these arguments, with these lines as input. Checks the exit status. nrdb runs in this process,
    which is faster."""
    output, input_before = io.StringIO(), sys.stdin
    sys.stdin = io.StringIO("".join(f"{line}\n" for line in lines))
    try:
        with contextlib.redirect_stdout(output):
            ended = main(["--netrev", NETREV, *map(str, words)])
    finally:
        sys.stdin = input_before
    assert ended == status, (words, ended, output.getvalue())
    return output.getvalue()


def nrdb_process(*words, lines=()):
    """Runs nrdb in a separate process with these arguments and lines, and returns its standard output, standard error
    and exit status."""
    ended = subprocess.run(
        [NRDB, "--netrev", NETREV, *map(str, words)],
        input="".join(f"{line}\n" for line in lines),
        capture_output=True,
        text=True,
        timeout=PATIENCE,
        check=False,
    )
    return ended.stdout, ended.stderr, ended.returncode


def events(path, lines, beside=False):
    """nrdb's events for this recording and these lines. The events at its start and end are left out, and so are the
    events that follow each move unless `beside` is true."""
    reports = [json.loads(line) for line in nrdb("--json", path, lines=lines).splitlines()]
    assert [event["event"] for event in reports[:2] + reports[-1:]] == ["reply", "place", "end"], reports[:2]
    return [event for event in reports[2:-1] if beside or event.get("topic") not in BESIDE]


def netrev(path, lines):
    """netrev's own replies."""
    ended = subprocess.run(
        [NETREV, "run", str(path)],
        input="".join(f"{line}\n" for line in lines),
        capture_output=True,
        text=True,
        timeout=PATIENCE,
        check=True,
    )
    return ended.stdout.splitlines()


class Shown:
    """netrev's values for a recording, from plain queries."""

    def __init__(self, path):
        self.path, self.recording = path, Recording.read(path)
        limits = self.recording.limits
        self.cells = [cell.name for cell in CELLS.values() if cell.of is ObjectKind.ALL]
        for cell in CELLS.values():
            if cell.of is not ObjectKind.ALL:
                self.cells += [f"{cell.name} {number}" for number in range(limits[LIMIT_OF[cell.of]])]
        self.queues = [f"{dump} {number}" for dump in DUMPS if dump not in CELLS for number in range(limits["sock"])]
        self.seen = {}

    @property
    def length(self):
        return self.recording.length

    def at(self, position):
        """The values of all cells and queues at a position."""
        if position not in self.seen:
            looks = [f"print {cell}" for cell in self.cells] + [f"dump {queue}" for queue in self.queues]
            moves = [f"stepi {position}"] if position else []
            replies = netrev(self.path, [*moves, *looks])[len(moves) :]
            self.seen[position] = dict(reply.split(" = ") for reply in replies)
        return self.seen[position]

    def series(self, cells):
        """The values of each of these cells at all positions."""
        replies = netrev(self.path, [*(f"print {cell}" for cell in cells), "stepi"] * (self.length + 1))
        values = [reply.partition(" = ")[2] for reply in replies]
        return {cell: values[at :: len(cells) + 1] for at, cell in enumerate(cells)}

    def made(self, cell, position):
        """The numbers for which a cell exists at a position."""
        values = self.at(position)
        numbers = (int(name.split()[1]) for name in values if name.startswith(f"{cell} "))
        return [number for number in numbers if values[f"{cell} {number}"] != "absent"]

    def made_cells(self):
        """The cells of all objects that exist at the end."""
        return [cell for cell in self.cells if self.at(self.length)[cell] != "absent"]


@lru_cache(maxsize=None)
def shown(path):
    """netrev's values for a recording, which are cached."""
    return Shown(path)


def recordings():
    """The recordings of examples/ and its folders that netrev accepts."""
    return sorted(example.path for example in ALL if not example.refused_at)
