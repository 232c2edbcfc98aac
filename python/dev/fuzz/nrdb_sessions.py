"""Cases for nrdb: a session over a random recording, while Ctrl-C is pressed, replies are slow, and netrev processes
are killed. views.py checks all output up to the end of the session.

nrdb runs in this process, with its own netrev processes. Events happen at random points of nrdb's communication with
netrev: when it sends lines, and when it waits for a reply. The signals are real, and netrev is slow because it is
stopped for a while.
"""

import io
import json
import random
from collections import Counter
from collections.abc import Sequence
from pathlib import Path

from netrev.connection.arriving_changes import ArrivingChanges
from netrev.connection.netrev import NetrevEndedError
from netrev.connection.output import JsonPrinter
from netrev.connection.scout import Scout
from netrev.machine.cells import CELLS_OF_ALL, CELLS_OF_ONE
from netrev.machine.observer import Observer
from netrev.model.program import replay
from netrev.model.session import ModelSession, recording_of
from netrev.recording.recording import Recording
from netrev.session.session import Session
from netrev.system.interrupts import Interrupts, SessionAbandonedError
from netrev.text.writer import write_plain
from nrdb.prompt.answers import ANSWERS

from .cases import Case
from .counts import Met
from .generators.random_steps import Author
from .sessions.interrupts import confined, heard, pressed
from .sessions.slow import Slow
from .sessions.views import Judge

# HAPPENS has the events that may happen at a point, with their relative frequencies. PRESSED says how often Ctrl-C is
# pressed.
HAPPENS = {
    "ctrl-c": 8,
    "slow ctrl-c": 3,
    "slow": 1,
    "ctrl-c twice": 1,
    "slow ctrl-c twice": 1,
    "killed": 1,
    "slow killed": 1,
}
PRESSED = {"ctrl-c": 1, "slow ctrl-c": 1, "ctrl-c twice": 2, "slow ctrl-c twice": 2}
VALUES = ("*", "idle", "parked *", "nil", "wait", "g*", "ready", "0", "8", "*read lock*", "no deadline", "1")


def visit(seed: str) -> Case:
    """The case of a seed: a recording, and lines for nrdb."""
    dice = random.Random(seed)
    recording, _ = Author(dice).recording(dice.choice([5, 20, 60, 150]))
    lines = [line_of(dice, len(recording.steps)) for _ in range(dice.choice([5, 15, 40]))]
    return Case(seed, "nrdb", "nrdb", write_plain(recording), "\n".join(lines).encode())


def line_of(dice: random.Random, length: int) -> str:
    """A random line."""
    cell = (
        dice.choice(CELLS_OF_ALL) if dice.random() < 0.2 else f"{dice.choice(CELLS_OF_ONE)} {dice.choice([0, 0, 1, 2])}"
    )
    number = dice.choice([0, 0, 1, 2])
    return dice.choice(
        (
            *(
                f"goto {dice.randint(0, length)}",
                f"goto {length}",
                f"stepi {dice.choice([1, 3, 20])}",
                "reverse-stepi 2",
            ),
            *(f"until {cell} {dice.choice(VALUES)}", f"reverse-until {cell} {dice.choice(VALUES)}"),
            *(f"history {cell}", f"history {cell} all", f"history {cell} {dice.choice([1, 2, 5])}"),
            *(f"history {cell}", f"until {cell} *", f"reverse-until {cell} *", f"goto {dice.randint(0, length)}"),
            *("info goroutines", "info goroutines all", "info sockets", "info sockets all", "info descriptors"),
            *("info descriptors all", "info timers", f"info holders {number}", "where", "list", "info breakpoints"),
            *(f"watch {cell}", "continue", "reverse-continue", f"display {cell}", f"print {cell}", f"dump rq {number}"),
        )
    )


class Weather:
    """Chooses random events, which happen while a session communicates with netrev."""

    def __init__(self, dice: random.Random, chance: float) -> None:
        self.dice, self.chance = dice, chance
        self.met: Counter[str] = Counter()

    def blow(self, netrev: Slow) -> None:
        """Lets an event happen at this point, or none."""
        if self.dice.random() >= self.chance:
            return
        (name,) = self.dice.choices(list(HAPPENS), list(HAPPENS.values()))
        self.met[name] += 1
        happening = [netrev.kill] if name.endswith("killed") else [pressed] * PRESSED.get(name, 0)
        if name.startswith("slow"):
            netrev.while_stopped(*happening)
            return
        for happens in happening:
            happens()


def played(program: str, case: Case, folder: Path, counts: Met) -> str:
    """Runs a case, counts the events, and returns the first fault in its output, if any."""
    replayed = replay(case.recording, counts)
    recording = recording_of(replayed.text.steps, replayed.worlds)
    judge = Judge(replayed.text.steps, replayed.worlds, ModelSession(recording, Observer()))
    dice = random.Random(f"{case.seed} weather")
    weather = Weather(dice, dice.choice([0, 0.01, 0.03, 0.1]))
    path = folder / "recording.jsonl"
    path.write_bytes(case.recording)
    with confined():
        wrong = followed(program, str(path), case.script.decode().split("\n"), weather, judge, counts.nrdb)
    counts.nrdb.update(weather.met)
    return wrong


def followed(
    program: str, path: str, lines: Sequence[str], weather: Weather, judge: Judge, counts: Counter[str]
) -> str:
    """Runs the lines in a session, and compares each event with the model."""
    interrupts, out = Interrupts(), io.StringIO()

    def opened() -> Slow:
        return Slow(program, path, interrupts, weather.blow)

    calm, weather.chance = weather.chance, 0.0
    printer, recorded = JsonPrinter(out), ArrivingChanges(program, path, interrupts, lambda _: None)
    session = Session(opened(), Recording.read(path), Scout(opened), printer, interrupts, ANSWERS, recorded=recorded)
    try:
        session.begin(session.ask("info position"))
        weather.chance = calm
        for line in lines:
            out.seek(0)
            out.truncate()
            ended = end_of(session, line)
            for event in map(json.loads, out.getvalue().splitlines()):
                counts["events"] += 1
                if wrong := judge.wrong(line, event):
                    return f"{wrong} (behind {dict(weather.met)})"
            if ended:
                counts[f"sessions that ended: {ended}"] += 1
                return "" if weather.met else f"{line}: {ended}, and nothing had happened"
    finally:
        weather.chance = 0.0
        recorded.drop()
        session.looks().drop()
        session.netrev.drop()
    counts["sessions that came to the end of their lines"] += 1
    return ""


def end_of(session: Session, line: str) -> str:
    """Answers a line, and returns how the session ended, if it did."""
    try:
        heard(lambda: session.run(line))
    except SessionAbandonedError:
        return "given up"
    except NetrevEndedError:
        return "netrev has ended"
    return ""
