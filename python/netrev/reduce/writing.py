"""Writes a reduced recording that netrev accepts, with a NAME.where if the original has one."""

import json
import os
import subprocess
import tempfile
from collections.abc import Sequence
from pathlib import Path
from typing import Any

from netrev.machine.machine import World
from netrev.messages import searches as messages
from netrev.recording.where import SourceCall, SourceLines, Stack
from netrev.session.files import spare, written
from netrev.session.session import UsageError
from netrev.text.contents import Answer, Limits, Step
from netrev.text.files import check_beside, forget_where
from netrev.text.writer import line_of

from .replay import ReplayPlayer


def answered_by(program: str, command: str, data: bytes) -> tuple[int, bytes]:
    """The exit status and the output of `netrev COMMAND` on a file with these data."""
    handle, path = tempfile.mkstemp(suffix=".jsonl")
    try:
        with open(handle, "wb") as file:
            file.write(data)
        ended = subprocess.run([program, command, path], capture_output=True, check=False, start_new_session=True)
        return ended.returncode, ended.stdout
    finally:
        os.unlink(path)


def taken(program: str, player: ReplayPlayer, has_answers: bool) -> bytes:
    """The text of the replayed steps, in the form that netrev accepts. If the recording has answers, the text has
    netrev's own answers."""
    text = text_of(player.world, player.limits.buf, player.steps, has_answers)
    status, output = answered_by(program, "upgrade" if has_answers else "check", text)
    if status:
        fault = output.decode("utf-8", "replace").strip()
        raise UsageError(messages.REDUCED_REFUSED.format(fault=fault))
    return output if has_answers else text


def text_of(world: World, buf: int, steps: Sequence[tuple[Step, Answer]], has_answers: bool) -> bytes:
    """The text of the steps that led to this state, with the limits that the steps need."""
    gor, sock, desc = (max(len(objects), 1) for objects in (world.goroutines, world.sockets, world.descs))
    limits = Limits(gor, sock, desc, buf)
    header = {"netrev": 2 if has_answers or _needs_answers(steps) else 1, **limits._asdict()}
    lines = [json.dumps(header, separators=(",", ":"))]
    lines += [line_of(step, answer if header["netrev"] == 2 else None) for step, answer in steps]
    return "".join(f"{line}\n" for line in lines).encode()


def _needs_answers(steps: Sequence[tuple[Step, Answer]]) -> bool:
    """Whether one of these steps can only be in a recording of version 2."""
    return any(step[0] == "closewrite" for step, _ in steps)


def where_text(lines: SourceLines, numbers: Sequence[int]) -> str:
    """NAME.where for these steps, which are renumbered from 1; empty if no lines are known."""
    if not lines:
        return ""
    calls: dict[SourceCall, int] = {}
    stacks: dict[Stack, int] = {}
    rows: list[dict[str, Any]] = [{"where": 1, "steps": len(numbers)}]
    of_steps = []
    for number in numbers:
        stack = lines.of(number)
        if not stack.calls and not stack.made:
            of_steps.append(0)
            continue
        if stack not in stacks:
            for call in (*stack.calls, *([stack.made] if stack.made else [])):
                if call not in calls:
                    calls[call] = len(calls) + 1
                    rows.append({"call": calls[call], **call._asdict()})
            stacks[stack] = len(stacks) + 1
            origin = {"made": calls[stack.made]} if stack.made else {}
            rows.append({"stack": stacks[stack], "calls": [calls[call] for call in stack.calls], **origin})
        of_steps.append(stacks[stack])
    rows.append({"step": 1, "stacks": of_steps})
    if lines.times:
        times = [lines.times[number - 1] for number in numbers]
        rows.append({"times": [after - before for before, after in zip([0, *times], times)]})
    return "".join(f"{json.dumps(row, separators=(',', ':'))}\n" for row in rows)


def write_recording(path: str, of: str, data: bytes, lines: str) -> None:
    """Writes a part of the recording `of` as a recording, with its NAME.where if it has lines. An existing NAME.where
    is removed, because it belongs to another recording."""
    beside = Path(path).with_suffix(".where")
    spare(str(beside), of)
    try:
        check_beside(beside)
    except OSError as error:
        raise UsageError(f"{beside}: {error.strerror}") from None
    written(of, {path: data} | ({str(beside): lines.encode()} if lines else {}))
    if not lines:
        forget_where(beside)
