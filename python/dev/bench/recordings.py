"""The recordings that `dev.bench.run` measures, and the lines that it sends for each.

Each shape of `bench/shapes.awk` is measured with its own limits, and with the limits that netrev-go writes: many
sockets and descriptors, and buffers of 65,536 bytes. Runs of servers are recorded by netrev-go (`servers.py`).
"""

import json
import random
import shutil
from collections.abc import Iterator
from pathlib import Path

from tests.program.support.sharing import WrongResultError

from .programs import write_recording

AT_A_TIME = 100
CHECKPOINTS = 64
RESTARTS = 1_000
BUFFER = 65_536  # bytes, as in the headers that netrev-go writes
Query = tuple[str, str | None]  # a line and its expected reply; None if the first program's reply is right
LOOK: Query = ("print lock 0", None)


def beginning(places: list[int]) -> Iterator[Query]:
    """Marks that never hit, and checkpoints."""
    yield from (("break @4294967295", "mark 1"), ("watch lock 4294967295", "mark 2"))
    for number, place in enumerate(places, 1):
        yield from (("restart 0", "at 0"), (f"stepi {place}", f"at {place}"))
        yield "checkpoint", f"checkpoint {number} at {place}"
    yield from (("restart 0", "at 0"), LOOK)


def walk(steps: int) -> Iterator[Query]:
    """A walk to the end and back."""
    stops = [*range(0, steps, AT_A_TIME), steps]
    for before, stop in zip(stops, stops[1:]):
        yield from ((f"stepi {stop - before}", f"at {stop}"), LOOK)
    stops.reverse()
    for before, stop in zip(stops, stops[1:]):
        yield from ((f"reverse-stepi {before - stop}", f"at {stop}"), LOOK)


def restarts(places: list[int], dice: random.Random) -> Iterator[Query]:
    for _ in range(RESTARTS):
        number = dice.randrange(len(places))
        yield from ((f"restart {number + 1}", f"at {places[number]}"), LOOK)


class BenchRecording:
    """A recording in a file, with the lines of each part and the expected replies. The other programs must
    give the same replies to queries as the first program."""

    def __init__(self, name: str, file: Path, steps: int) -> None:
        self.name, self.file, self.steps = name, file, steps
        dice = random.Random(1)
        places = [dice.randint(1, steps) for _ in range(CHECKPOINTS)]
        self.parts: dict[str, list[Query]] = {
            "begin": list(beginning(places)),
            "walk": list(walk(steps)),
            "continue": [("continue", f"at {steps} end")],
            "reverse": [("reverse-continue", "at 0 start")],
            "restarts": list(restarts(places, dice)),
        }

    def lines(self, part: str) -> bytes:
        return "".join(f"{line}\n" for line, _ in self.parts[part]).encode()

    def expect(self, program: str, part: str, replies: bytes) -> None:
        """Compares a program's replies with the expected replies."""
        queries = self.parts[part]
        lines = replies.decode().splitlines()
        for index, (line, right) in enumerate(queries):
            reply = lines[index] if index < len(lines) else "nothing"
            if right is None:
                queries[index] = (line, reply)
            elif reply != right:
                raise WrongResultError(f"{program}: {self.file.name}: {line}: {reply}, not {right}")

    def expect_checked(self, program: str, printed: bytes) -> None:
        if printed.decode() != f"ok {self.steps} steps\n":
            raise WrongResultError(f"{program}: {self.file.name}: check: {printed.decode()!r}")


def of_shape(folder: Path, shape: str, steps: int, sockets: int = 0) -> BenchRecording:
    """A recording of a shape: with its own limits, or with this many sockets and descriptors and large buffers."""
    file = folder / f"{shape}-{steps}.jsonl"
    write_recording(shape, steps, file)
    if not sockets:
        return BenchRecording(shape, file, steps)
    large = folder / f"{shape}-{steps}-{sockets}.jsonl"
    give_limits(file, large, sockets)
    file.unlink()
    return BenchRecording(large_name(shape, sockets), large, steps)


def large_name(shape: str, sockets: int) -> str:
    """The name of a shape with this many sockets in its header."""
    return f"{shape}, {sockets} sockets"


def give_limits(file: Path, large: Path, sockets: int) -> None:
    """Writes the same steps after a header with room for at least this many sockets and descriptors."""
    with open(file, "rb") as steps, open(large, "wb") as out:
        header = json.loads(steps.readline())
        header |= {key: max(header[key], sockets) for key in ("sock", "desc")}
        out.write(f"{json.dumps(header | {'buf': BUFFER}, separators=(',', ':'))}\n".encode())
        shutil.copyfileobj(steps, out)
