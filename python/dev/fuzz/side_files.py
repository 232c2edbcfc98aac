"""Cases for the views of nrdb: a random recording that netrev accepts, and a NAME.where for it with any contents. Each
command must end, print no terminal controls, and write only the files that it names."""

import io
import json
import os
import random
from pathlib import Path
from typing import Any

from netrev.connection.output import TextPrinter
from netrev.recording.where import SourceLines
from netrev.text.writer import write_plain

from .generators.damage import damaged
from .generators.random_steps import Author
from .generators.texts import random_value
from .sessions.sessions import session_over

VIEWS = (
    "where", "list", "info goroutines all", "info sockets all", "info descriptors all", "info timers", "info suspects", "info errors all", "info hangs",
    "info holders 0", "calls all", "calls gor 0", "steps gor 1 all", "steps sock 0 all", "steps desc 0 all", "goto 3", "next", "finish",
    "reverse-finish", "continue", "timeline t.html", "trace t.json", "reduce r.jsonl", "report r.md", "explore 4", "reduce c.jsonl lock 0 *",
    "reduce d.jsonl rg 9 absent", "report e.md gor 0 *", "history lock 0 all", "until gor 0 parked*", "source nothing", "help explore",
    "break main.go:7", "frame", "up", "history main.go:7", "list main.go:7", "goto 1ns",
)  # fmt: skip
WRITTEN = (".html", ".json", ".jsonl", ".md", ".where")
REASONS = ("\x1b[2J", "a select", "a mutex", "time.Sleep", "room in a channel", "")
STRANGE = ("\x1b[2J", "\u202e", "\ud800", "</script>", "main.go", "x" * 300, "|`*", "\n")
NESTED = (b"[" * 100_000, b'{"call":' * 50_000, b"9" * 5_000, b"\xff", b"null", b"{}")


def lines_of(dice: random.Random, steps: int) -> list[Any]:
    """The lines of a well-formed file, with texts that a program may have."""
    calls = dice.choice([1, 3, 10])
    found: list[Any] = [{"where": dice.choice([1, 2]), "steps": steps}]
    for number in range(1, calls + 1):
        names = {name: dice.choice(STRANGE) for name in ("function", "file")}
        found.append(
            {"call": number, **names, "line": dice.randrange(100), "of": dice.choice(["program", "library", "go"])}
        )
    for number in range(1, 4):
        creator = {"made": dice.randint(1, calls)} if dice.random() < 0.5 else {}
        found.append({"stack": number, "calls": [dice.randint(1, calls) for _ in range(dice.randrange(15))], **creator})
    found.append({"step": 1, "stacks": [dice.randrange(5) for _ in range(steps)]})
    if dice.random() < 0.7:
        ends = [1, steps, steps + 1, 0, -1, 2**70, dice.randint(1, steps + 1)]
        found.append({"orders": [[dice.choice(ends), dice.choice(ends)] for _ in range(dice.randrange(8))]})
        found.append({"peers": [[dice.choice(ends), dice.choice(ends)], [0, 1]]})
        found.append({"ends": [[dice.choice(ends) for _ in range(3)], [0, 1, 2]]})
        own, other = dice.choice(STRANGE), dice.choice(STRANGE)
        found.append({"addresses": [[dice.choice(ends), own, other], [0, "127.0.0.1:53", ""]]})
        found.append(
            {"sent": [[dice.choice(ends), dice.choice(STRANGE)], [dice.randint(1, steps + 1), "127.0.0.1:53"]]}
        )
        found.append({"sizes": [[dice.choice(ends), dice.choice(ends)], [dice.randint(1, steps + 1), 100]]})
        found.append({"errors": [[dice.choice(ends), dice.choice(STRANGE)], [dice.randint(1, steps + 1), "EPIPE"]]})
        words = dice.choice(STRANGE), dice.choice(ends), dice.choice([-1, 0, 1])
        found.append({"waits": [[dice.choice(ends), 0, dice.randrange(3), *words]]})
        found.append({"bytes": dice.choice(ends)})
        found += [{"tags": dice.choice([0, 1])}, {"prelude": dice.choice(ends)}]
        found.append(
            {"taken": [[dice.randrange(3), dice.choice(ends), dice.choice(ends)] for _ in range(dice.randrange(4))]}
        )
        found.append({"times": [dice.choice([0, 1, 2**40]) for _ in range(dice.choice([steps, 1]))]})
        names = {name: dice.choice(STRANGE) for name in ("test", "package")}
        found.append({**names, "steps": [dice.choice(ends), dice.choice(ends)]})
        found += goroutines_of(dice, ends, calls)
    return found


def goroutines_of(dice: random.Random, ends: list[int], calls: int) -> list[Any]:
    """The lines about all goroutines, with steps and times up to these numbers."""

    def numbers(count: int) -> list[int]:
        return [dice.choice(ends) for _ in range(count)]

    goids = range(1, 5)
    at = [[dice.randrange(3), dice.choice(STRANGE)] for _ in range(dice.randrange(3))]
    words = dice.choice(REASONS), dice.randrange(5)
    return [
        {"goroutines": [[goid, dice.randrange(-1, 3), dice.randint(0, calls), *numbers(5)] for goid in goids]},
        {"objects": [[dice.randrange(3), dice.choice(STRANGE), dice.choice(ends)]]},
        {
            "parks": [
                [dice.choice(goids), *numbers(4), *words, dice.choice(goids), at] for _ in range(dice.randrange(4))
            ]
        },
        {"uses": [[dice.randrange(3), dice.choice(goids), dice.choice(STRANGE), dice.randrange(5), *numbers(5)]]},
        {"timers": [[dice.randrange(3), dice.choice(goids), dice.randrange(5), *numbers(3)]]},
        {"channels": [[dice.randrange(3), dice.choice(goids), dice.randrange(5), *numbers(2)]]},
        {
            "failed_dials": [
                [dice.choice(goids), dice.randrange(5), *numbers(2), *dice.choices(STRANGE, k=2), dice.randrange(3)]
            ]
        },
        {"held": [[dice.randrange(3), dice.choice(goids), dice.choice(["", "read"]), dice.randrange(5), *numbers(1)]]},
        {"left_out": [[*words, *numbers(2)]]},
    ]


def file_of(dice: random.Random, steps: int) -> tuple[bytes, bool]:
    """A file, and whether it is well formed. If it isn't, it has random values in some places, one strange line, or
    damaged bytes."""
    lines = lines_of(dice, steps)
    sort = dice.randrange(4)
    for _ in range(dice.choice([1, 2, 5]) if sort == 1 else 0):
        line = dice.choice(lines)
        line[dice.choice([*line, "of"])] = random_value(dice, 0)
    texts = [json.dumps(line).encode("ascii") for line in lines]
    if sort == 2:
        texts[dice.randrange(len(texts))] = dice.choice(NESTED)
    data = b"".join(text + b"\n" for text in texts)
    return damaged(dice, data) if sort == 3 else data, sort == 0


def wrong(seed: str, folder: Path, program: str) -> str:
    """The fault in the output and the files of a seed's views; empty if they are right."""
    dice = random.Random(seed)
    recording, _ = Author(dice).recording(dice.choice([4, 20, 60]))
    path = folder / "recording.jsonl"
    path.write_bytes(write_plain(recording))
    data, is_good = file_of(dice, len(recording.steps))
    path.with_suffix(".where").write_bytes(data)
    if is_good and (fault := SourceLines.beside(str(path), len(recording.steps)).fault):
        return f"a file of lines that is of its form isn't used: {fault}"
    before = {name: (folder / name).read_bytes() for name in ("recording.jsonl", "recording.where")}
    out, here = io.StringIO(), os.getcwd()
    os.chdir(folder)
    try:
        with session_over(program, path, TextPrinter(out)) as session:
            for line in VIEWS:
                session.run(line)
    finally:
        os.chdir(here)
    obeyed = [line for line in out.getvalue().split("\n") if not line.isprintable()]
    if obeyed:
        return f"a terminal may obey {obeyed[0]!r}"
    changed = [name for name, data in before.items() if (folder / name).read_bytes() != data]
    others = [name for name in os.listdir(folder) if not name.endswith(WRITTEN)]
    return (
        f"{changed or others}: this file was overwritten, or shouldn't have been written" if changed or others else ""
    )
