"""Explains why netrev refuses a recording: names the line and what to correct in it. If a step doesn't apply, or its
recorded answer differs from the machine's, the module also shows the values just before the step."""

import json
import os
import re
import subprocess
import tempfile
from collections.abc import Iterator
from typing import Any

from netrev.connection.world import opened_by
from netrev.messages import texts as messages
from netrev.recording.answers import answer_text, answer_words, meaning
from netrev.recording.cell_meanings import in_words
from netrev.recording.recording import Recording, Step, shortened
from netrev.text.vocabulary import KINDS, REASONS

from .text_hints import text_hint

LINE = re.compile(r"line (\d+): fault (\d+)")
STEP = re.compile(r"step (\d+): fault 107 reason (\d+)")
ANSWER = re.compile(r"step (\d+): fault 109 answer")
FAR = 4_294_967_295
LONGEST = 100
REFUSED = 1  # the exit status of `netrev check`

CELLS_OF = {
    "g": ("gor",),
    "s": ("lock", "in", "out", "shut"),
    "d": ("info", "rg", "wg", "rd", "wd", "fdseq"),
}
OF_TIME = {"tick": ("clock",), "pop": ("clock", "least", "timers", "firings"), "fire": ("firings",)}


def explained(program: str, path: str, fault: str) -> list[str]:
    """The lines that explain a fault. `fault` is netrev's complete reply to this file."""
    recording = Recording.read(path)
    if found := LINE.match(fault):
        number = int(found[1])
        line = recording.line(number)[:LONGEST].decode("utf-8", "replace").strip("\r")
        hint = text_hint(recording, number, int(found[2]))
        return [f"line {number}: {line}", hint] if line.isprintable() and line and "\ufffd" not in line else [hint]
    if found := STEP.match(fault):
        return step_explained(program, recording, int(found[1]), int(found[2]))
    if found := ANSWER.match(fault):
        return answer_explained(program, recording, int(found[1]))
    return []


def fault_of(program: str, path: str) -> str:
    """The first fault of a recording; empty if netrev accepts the recording or isn't installed."""
    try:
        words = [program, "check", path]
        ended = subprocess.run(words, stdin=subprocess.DEVNULL, stdout=subprocess.PIPE, check=False)
    except OSError:
        return ""
    return ended.stdout.decode("utf-8", "surrogateescape").strip() if ended.returncode == REFUSED else ""


def step_explained(program: str, recording: Recording, number: int, reason: int) -> list[str]:
    """The lines that explain why a step doesn't apply."""
    step = recording.step(number)
    lines = [line_of(step), f"reason {reason}: {REASONS[reason]}"]
    if reason in messages.REASONS:
        lines.append(messages.REASONS[reason])
    return lines + [f"just before: {value}" for value in before(program, recording, step)]


def line_of(step: Step) -> str:
    """The step, followed by the form that steps of its kind have."""
    return f"line {step.line}: {step}" + (f"   ({KINDS[step.kind].usage})" if step.arguments else "")


def answer_explained(program: str, recording: Recording, number: int) -> list[str]:
    """The recorded answer of a step next to the machine's answer, with a hint about where to look."""
    step = recording.step(number)
    shown = before(program, recording, step)
    lines = [line_of(step), f"recorded: {with_meaning(step.kind, step.answer)}"]
    lines += [
        f"machine:  {with_meaning(step.kind, answer)}"
        for answer in likely(recording, step, shown)
        if is_taken(program, recording, step, answer)
    ]
    if words := meaning(step.kind, step.answer):
        lines.append(words)
    return lines + [f"just before: {value}" for value in shown]


def with_meaning(kind: str, answer: Any) -> str:
    """An answer, followed by its meaning."""
    words = answer_words(kind, answer)
    return answer_text(answer) + (f"   ({words})" if words else "")


def likely(recording: Recording, step: Step, shown: list[str]) -> Iterator[Any]:
    """The answers that the machine may give to a step, derived from the values just before the step. netrev then
    decides which answer is right."""
    for name in KINDS[step.kind].answers:
        if name == "code":
            yield from (["code", code] for code in range(4))
        elif name in ("number", "got", "put"):
            yield [name, count_of(recording, step, shown)]
        else:
            yield name


def count_of(recording: Recording, step: Step, shown: list[str]) -> int:
    """The number in the machine's answer to a step: a new object's number, or how many bytes the step moves."""
    earlier = step.number - 1
    if step.kind == "pollopen":
        return opened_by(recording, earlier)[1]
    if step.kind in ("spawn", "sockopen"):
        return sum(1 for _ in recording.steps_of((step.kind,), earlier)) + (step.kind == "spawn")
    if step.kind == "sysread":
        return min(step.argument("n"), held(shown, "in"))
    opened = list(recording.steps_of(("sockopen",), earlier))[step.argument("s")]
    return min(len(step.argument("bytes")) // 2, opened.argument("wc") - held(shown, "out"))


def held(shown: list[str], cell: str) -> int:
    """The number of bytes that a buffer holds, from the values just before a step."""
    return next(int(value.split()[3]) for value in shown if value.startswith(f"{cell} "))


def is_taken(program: str, recording: Recording, step: Step, answer: Any) -> bool:
    """Whether netrev accepts the recording up to this step, if the step has this answer."""
    line = json.dumps([step.kind, *step.arguments, answer]).encode()
    with tempfile.TemporaryDirectory(prefix="nrdb-") as folder:
        cut = os.path.join(folder, "cut.jsonl")
        with open(cut, "wb") as file:
            file.write(recording.before_line(step.line) + line)
        return subprocess.run([program, "check", cut], capture_output=True, check=False).returncode == 0


def named_cells(step: Step) -> list[str]:
    """The cells of the objects that a step names."""
    cells = []
    for name, value in zip(KINDS[step.kind].arguments, step.arguments):
        cells += [f"{cell} {value}" for cell in CELLS_OF.get(name, ())]
    return cells + list(OF_TIME.get(step.kind, ()))


def before(program: str, recording: Recording, step: Step) -> list[str]:
    """The values of the cells that a step names, just before that step. netrev replays the earlier
    steps and prints these values."""
    lines = [f"stepi {FAR}", *(f"print {cell}" for cell in named_cells(step))]
    with tempfile.TemporaryDirectory(prefix="nrdb-") as folder:
        cut = os.path.join(folder, "cut.jsonl")
        with open(cut, "wb") as file:
            file.write(recording.before_line(step.line))
        queries = "".join(f"{line}\n" for line in lines).encode()
        shown = subprocess.run([program, "run", cut], input=queries, capture_output=True, check=False).stdout
    replies = shown.decode().splitlines()[1:]
    return [with_words(reply) for reply in replies]


def with_words(reply: str) -> str:
    """A value with its meaning."""
    cell, _, value = reply.partition(" = ")
    words = in_words(cell, value)
    return shortened(reply) + (f"   ({words})" if words else "")
