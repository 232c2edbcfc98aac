"""The cases. Each is made from its seed, and consists of a recording's text, a script, and a subcommand of netrev."""

import random
from collections.abc import Callable, Sequence
from typing import NamedTuple

from netrev.machine.machine import World
from netrev.machine.steps import apply
from netrev.model.session import ROOM
from netrev.text.contents import Answer, Contents, Limits, Step
from netrev.text.parser import MOST_STEPS, RANGES
from netrev.text.writer import write_plain

from .generators import texts
from .generators.damage import damaged
from .generators.lines import NONSENSE, Speaker, every_cell
from .generators.random_steps import Author, other_answer

HEADER = b'{"netrev":1,"gor":1,"sock":1,"desc":1,"buf":1}\n'


Made = tuple[bytes, bytes | None]  # a recording's text, and the script if there is one


class Case(NamedTuple):
    """A recording, the subcommand that runs over it (`run`, `check`, `upgrade`, `changes` or `suspects`), and for `run`
    the standard input."""

    seed: str
    sort: str
    program: str
    recording: bytes
    script: bytes = b""


def bytes_at_random(dice: random.Random) -> Made:
    return texts.random_bytes(dice), None


def json_at_random(dice: random.Random) -> Made:
    return texts.random_json(dice), None


def numbers_at_limits(dice: random.Random) -> Made:
    return texts.at_limits(dice), None


def damaged_recording(dice: random.Random) -> Made:
    recording, _ = Author(dice).recording(dice.choice([0, 3, 12, 40]))
    return damaged(dice, texts.write_text(dice, recording)), None


def refused_step(dice: random.Random) -> Made:
    """A recording whose last step doesn't apply. If no such step is found, all steps apply."""
    return texts.write_text(dice, with_refused_step(dice, Author(dice))), None


def with_refused_step(dice: random.Random, author: Author) -> Contents:
    recording, worlds = author.recording(dice.choice([1, 4, 12, 40, 120]))
    position = author.rare_position(worlds)
    last = author.refused_step(worlds[position])
    steps, answers = recording.steps[:position], recording.answers[:position]
    if last:
        steps, answers = [*steps, last], [*answers, author.any_answer(last[0])]
    return recording._replace(steps=steps, answers=answers)


def other_answers(dice: random.Random) -> Made:
    """A recording with recorded answers that aren't the machine's; its last step may not apply."""
    recording = with_refused_step(dice, Author(dice, version=2))
    steps, answers = recording.steps, list(recording.answers)
    for _ in range(dice.choice([1, 1, 1, 2, 3]) if steps else 0):
        place = dice.randrange(len(steps))
        answers[place] = other_answer(dice, steps[place][0], answers[place] or ("done",))
    return texts.write_text(dice, recording._replace(answers=answers)), None


def walk(dice: random.Random) -> Made:
    recording, _ = Author(dice).recording(dice.choice([0, 1, 5, 20, 60, 200]))
    script = Speaker(dice, recording.steps).script(dice.choice([5, 40, 150]))
    return texts.write_text(dice, recording), script


def every_cell_shown(dice: random.Random) -> Made:
    """A recording whose cells are all printed at each position."""
    recording, _ = Author(dice).recording(dice.choice([10, 30, 80]))
    script = every_cell(recording.limits, len(recording.steps), dice.random() < 0.5)
    return texts.write_text(dice, recording), script


def lines(dice: random.Random) -> Made:
    """Many bad lines, and bytes that aren't lines, over a short recording."""
    recording, _ = Author(dice).recording(dice.choice([0, 3, 10]))
    speaker = Speaker(dice, recording.steps)
    sent = [dice.choice(NONSENSE) if dice.random() < 0.5 else speaker.line() for _ in range(40)]
    if dice.random() < 0.3:
        sent += [b"checkpoint"] * 66 + [b"break @1"] * 66
        dice.shuffle(sent)
    script = b"\n".join(sent)
    for _ in range(dice.randint(0, 5)):
        place = dice.randint(0, len(script))
        script = script[:place] + dice.choice([dice.randbytes(2), b"\n", b"\r\n", b" "]) + script[place:]
    return texts.write_text(dice, recording), script


def large_buffers(dice: random.Random) -> Made:
    """Buffers of the largest size are filled and emptied in few steps: they have room for exactly 16 times 65,536
    bytes."""
    most = RANGES[2]["buf"]
    full = 16 - dice.choice([0, 0, 1])
    steps: list[Step] = [("sockopen", most, most), *[("arrive", 0, dice.randbytes(65_536))] * full]
    steps += [("syswrite", 0, 0, dice.randbytes(65_536)) for _ in range(17)]
    steps += [("sysread", 0, 0, dice.choice([most, most, 65_537])), ("closewrite", 0, 0), ("drain", 0, most)]
    steps += [("arrive", 0, b"hi"), ("syswrite", 0, 0, b"hi"), ("sysread", 0, 0, most)]
    limits = Limits(1, 1, 1, most)
    recording = Contents(2, limits, steps, answers_of(limits, steps))
    looks = "".join(f"print {cell}\nreverse-stepi\n" for cell in ("in 0", "out 0", "shut 0"))
    return write_plain(recording), f"stepi 99\n{looks}stepi 2\ndump in 0\nrsi 9\ndump in 0\n".encode()


def answers_of(limits: Limits, steps: Sequence[Step]) -> list[Answer]:
    """The answers to these steps, all of which apply."""
    world, answers = World(limits), []
    for step in steps:
        world, answer = apply(world, step)
        answers.append(answer)
    return answers


def long_walk(dice: random.Random) -> Made:
    """A walk past the 1,024 steps between two copies, and sometimes past the 4,096 deltas that are stored."""
    recording, _ = Author(dice).recording(dice.choice([1_023, 1_024, 1_025, 2_100, 6_000]))
    return write_plain(recording), Speaker(dice, recording.steps).script(60)


def full_journal(dice: random.Random) -> Made:
    """As many commands as a session has room for, and a few more."""
    command = dice.choice(["stepi", "checkpoint", "delete 1", "rsi", "set exec-direction reverse"]).encode()
    script = (command + b"\n") * (ROOM - dice.randint(0, 20)) + Speaker(dice, []).script(60)
    return HEADER + b'["tick",0]\n' * 3, script


def many_steps(dice: random.Random) -> Made:
    """As many steps as a recording may have, or one more."""
    step, header = b'["tick",0]', HEADER
    if dice.random() < 0.5:
        step, header = b'["tick",0,"done"]', HEADER.replace(b'"netrev":1', b'"netrev":2')
    last = dice.choice([b"", step, b'["jump"]', b'["pop"]', b"{}", b"[", b"\n\n\r"])
    return header + (step + b"\n") * dice.choice([MOST_STEPS - 1, MOST_STEPS, MOST_STEPS]) + last, None


SORTS: dict[Callable[[random.Random], Made], float] = {
    **{bytes_at_random: 5, json_at_random: 8, numbers_at_limits: 14, damaged_recording: 25, refused_step: 25},
    **{other_answers: 15, walk: 22, every_cell_shown: 10, lines: 6, long_walk: 0.4, large_buffers: 0.1},
    **{full_journal: 0.03, many_steps: 0.02},
}


def make(seed: str) -> Case:
    """The case of a seed."""
    dice = random.Random(seed)
    sort = dice.choices(list(SORTS), list(SORTS.values()))[0]
    recording, script = sort(dice)
    if script is None and dice.random() < 0.1:
        script = Speaker(dice, []).script(3)
    others = ["upgrade", "changes", "suspects"]
    program = dice.choice(["check", *others]) if script is None else dice.choice(["run"] * 8 + others)
    if program in others:
        script = b""
    return Case(seed, sort.__name__.replace("_", " "), program, recording, script or b"")
