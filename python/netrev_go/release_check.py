"""Checks whether the installed Go can be recorded by recording a small program with each kind of step, and comparing
each answer and each lock word. A rule may fit, and the changed file may compile, although Go never runs the changed
code. This trial detects that."""

from __future__ import annotations

import contextlib
import json
import os
import pathlib
import re
import subprocess
import tempfile
from dataclasses import dataclass

from netrev.messages import recorder as messages
from netrev.system.command_lines import command
from netrev.system.program_path import netrev_program
from netrev.text.plain import plain

from .go_command.line_reader import prepare_line_reader
from .go_command.running import LOG
from .go_command.terminal import say
from .go_command.toolchain import SOURCES, Go, RecorderError, is_tried, left_out, overlay, quiet_go, tried
from .log.logfile import NotALogError, read_log
from .steps.analysis import check
from .steps.compare import DIFFERS, by_the_model, differing
from .steps.recording_builder import NewRecording, NothingRecordedError, UnconvertibleError, make, write, write_words

PATIENCE = 60
KEPT = "trial.json"
PROCESSORS = (1, 4)
MOMENTS = (3, 30, 300)  # milliseconds for a goroutine of the program to reach its wait; more on a busy machine
WANTED = frozenset(
    "incref increfclose decref rwlock rwunlock acquire release sysread syswrite closewrite sockopen pollopen pollclose pollreset "
    "waitbegin blockarm blockcheck parkcommit blockswap waitcheck setdeadline evict pollevent pop fire".split()
)
MOVED = re.compile(r'\["sys(read|write)",.*,\["(?:got|put)",(\d+)\]\]')


@dataclass(frozen=True)
class Trial:
    """The result of a trial."""

    good: bool
    said: str
    is_hasty: bool = False  # more time might have helped


def trial(go: Go) -> Trial:
    """Records the small program on one processor and on four, and returns the result. If the trial succeeded, stores
    the result."""
    kept_in = overlay(go).parent / KEPT
    with tempfile.TemporaryDirectory(prefix="netrev-trial-") as name:
        tried_out = tried_in(go, pathlib.Path(name))
    with contextlib.suppress(OSError):  # the trial is repeated then
        if tried_out.good:
            kept_in.write_text(json.dumps({"said": tried_out.said}))
        else:
            kept_in.unlink()
    return tried_out


def tried_in(go: Go, folder: pathlib.Path) -> Trial:
    program = folder / "trial"
    built = quiet_go(go, SOURCES / "trial", "build", "-overlay", str(overlay(go)), "-o", str(program), "main.go")
    if built.returncode != 0:
        return Trial(False, messages.NO_TRIAL_PROGRAM.format(why=built.stderr.strip()[-600:]))
    sentences = []
    for processors in PROCESSORS:
        for moment in MOMENTS:
            trial_run = recorded(
                [str(program), str(moment)], folder / f"{processors}-{moment}", processors, not left_out(go)
            )
            if not trial_run.is_hasty:
                break
        if not trial_run.good:
            return Trial(False, f"GOMAXPROCS={processors}: {trial_run.said}")
        sentences.append(f"{trial_run.said} with GOMAXPROCS={processors}")
    return Trial(True, ", ".join(sentences))


def recorded(command: list[str], folder: pathlib.Path, processors: int, is_whole: bool) -> Trial:
    """Records one run, and compares the recording. If no rule is left out, the recording must have all bytes."""
    folder.mkdir()
    environment = os.environ | {
        "NETREV_LOG": str(folder / "log"), "GOMAXPROCS": str(processors), "NETREV_POINTS": "65536"
    }  # fmt: skip
    try:
        run = subprocess.run(command, env=environment, capture_output=True, text=True, timeout=PATIENCE, check=False)
    except subprocess.TimeoutExpired:
        return Trial(False, messages.TRIAL_HANGS.format(seconds=PATIENCE))
    logs = [path for path in folder.iterdir() if LOG.match(path.name)]
    if run.returncode != 0 or len(logs) != 1:
        words = {"status": run.returncode, "logs": len(logs), "why": run.stderr.strip()[-600:]}
        return Trial(False, messages.TRIAL_FAILED.format(**words))
    try:
        recording = make(read_log(logs[0]))
    except (NotALogError, NothingRecordedError, UnconvertibleError) as fault:
        return Trial(False, messages.NO_TRIAL_RECORDING.format(why=fault))
    if fault_found := incomplete(recording, run.stdout if is_whole else ""):
        return Trial(False, fault_found)
    result = compared(recording, folder / "trial.jsonl")
    missing = WANTED - {line[2 : line.index('"', 2)] for line in map(str, recording.lines)}
    if result.good and missing:
        return Trial(False, messages.STEPS_MISSING.format(kinds=" ".join(sorted(missing))), True)
    return result


def incomplete(recording: NewRecording, counted: str) -> str:
    """The missing part of a recording: a change of a lock word, or bytes that the program counted."""
    if broken := unchained(recording):
        return messages.LOCK_WORD_CHANGED.format(change=broken)
    total = {"read": 0, "write": 0}
    for found in filter(None, map(MOVED.fullmatch, map(str, recording.lines))):
        total[found[1]] += int(found[2])
    total_words = f"{total['read']} {total['write']}"
    if counted and counted.strip() != total_words:
        return messages.BYTES_MISSING.format(counted=counted.strip(), recorded=total_words)
    return ""


def unchained(recording: NewRecording) -> str:
    """The first lock word that differs from the value that the previous point left."""
    last: dict[int, int] = {}
    for (step, socket, new), old in zip(recording.words, recording.old_numbers):
        if last.get(socket, 0) != old:
            words = {"step": step, "found": old, "socket": socket, "expected": last.get(socket, 0)}
            return messages.LOCK_WORD_FOUND.format(**words)
        last[socket] = new
    return ""


def compared(recording: NewRecording, name: pathlib.Path) -> Trial:
    """The comparison with netrev, or with the model in Python if netrev is missing."""
    write(recording, name)
    write_words(recording, name.with_suffix(".words"))
    netrev = netrev_program()
    if netrev is None:
        good, sentence = by_the_model(name)
        return Trial(good, messages.TRIAL_BY_MODEL.format(steps=len(recording.lines)) if good else sentence)
    try:
        taken, sentence = check(netrev, name)
    except OSError as fault:
        return Trial(False, messages.TRIAL_UNCHECKED.format(why=fault.strerror))
    if not taken:
        return Trial(False, messages.TRIAL_REFUSED.format(why=sentence))
    words, differ = differing(netrev, name)
    if differ:
        return Trial(False, f"{DIFFERS}: {differ[0]}")
    return Trial(True, messages.TRIAL_PASSED.format(steps=len(recording.lines), words=words))


def kept(go: Go) -> Trial | None:
    """The stored result of an earlier trial of this Go."""
    try:
        return Trial(True, str(json.loads((overlay(go).parent / KEPT).read_text())["said"]))
    except (OSError, ValueError, TypeError, KeyError):
        return None


def ready(go: Go) -> pathlib.Path:
    """The overlay of a Go that can be recorded. Each Go is tried only once; for an untested release, the result is
    printed."""
    folder = overlay(go)
    prepare_line_reader(go)
    before = kept(go)
    result = before or trial(go)
    if not result.good:
        words = {"version": go.version, "tried": tried(go.version), "why": result.said}
        raise RecorderError(messages.NOT_RECORDABLE.format(**words, netrev_go=command("netrev-go")))
    without = left_out(go)
    if before is None and (without or not is_tried(go.version)):
        sentence = messages.RECORDABLE.format(version=go.version, tried=tried(go.version), how=result.said)
        say([plain(line) for line in [sentence, *without]])
    return folder
