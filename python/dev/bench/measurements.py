"""The cost of a recording for a program: processor time, memory, instructions, and system calls that write."""

import os
import re
import resource
import subprocess
import tempfile
import threading
import time
from concurrent.futures import Future, ThreadPoolExecutor
from pathlib import Path

from tests.program.support.sharing import WrongResultError

from .recordings import RESTARTS, BenchRecording

QUIT = b"quit\n"
WITHOUT_REP = {
    "GLIBC_TUNABLES": "glibc.cpu.x86_rep_stosb_threshold=1000000000:glibc.cpu.x86_rep_movsb_threshold=1000000000"
}
MILLISECONDS = 1_000
MEBIBYTE = 1 << 20
WRITES = re.compile(r"^ *[\d.]+ +[\d.]+ +\d+ +(\d+) .*\bwrite$", re.MULTILINE)  # in the table of `strace -c`


def replies_to(process: "subprocess.Popen[bytes]", lines: bytes) -> bytes:
    """Sends lines, waits for the same number of replies, and returns the replies."""
    assert process.stdin and process.stdout
    sender = threading.Thread(target=process.stdin.write, args=(lines,))
    sender.start()
    left = lines.count(b"\n")
    pieces = []
    while left > 0:
        pieces.append(os.read(process.stdout.fileno(), 1 << 16))
        if not pieces[-1]:
            break
        left -= pieces[-1].count(b"\n")
    sender.join()
    return b"".join(pieces)


def greatest_memory(process: "subprocess.Popen[bytes]") -> int:
    """The most memory, in bytes, that a program has used so far; the program is waiting for a line."""
    for line in Path(f"/proc/{process.pid}/status").read_text(encoding="ascii").splitlines():
        if line.startswith("VmHWM:"):
            return int(line.split()[1]) * 1024
    raise WrongResultError("the system doesn't report a program's memory")


def seconds_of_children() -> float:
    used = resource.getrusage(resource.RUSAGE_CHILDREN)
    return used.ru_utime + used.ru_stime


def timed(program: str, recording: BenchRecording) -> dict[str, float]:
    """The figures of one run: times in milliseconds and, as the last figure, the memory in MiB."""
    began = seconds_of_children()
    checked = subprocess.run([program, "check", recording.file], stdout=subprocess.PIPE, check=True)
    figures = {"check": (seconds_of_children() - began) * MILLISECONDS}
    recording.expect_checked(program, checked.stdout)
    words = [program, "run", str(recording.file)]
    with subprocess.Popen(words, stdin=subprocess.PIPE, stdout=subprocess.PIPE, bufsize=0) as process:
        clock = ~process.pid << 3 | 2  # the system's id for the process's CPU-time clock
        for part in recording.parts:
            began = time.clock_gettime(clock)
            replies = replies_to(process, recording.lines(part))
            figures[part] = (time.clock_gettime(clock) - began) * MILLISECONDS
            recording.expect(program, part, replies)
        figures["memory"] = greatest_memory(process) / MEBIBYTE
        replies_to(process, QUIT)
    return figures


def least(programs: dict[str, str], recording: BenchRecording, runs: int) -> dict[str, dict[str, float]]:
    """For each program, the least value of each figure over this many runs; the programs take turns."""
    found = [{name: timed(program, recording) for name, program in programs.items()} for _ in range(runs)]
    return {name: {figure: min(run[name][figure] for run in found) for figure in found[0][name]} for name in programs}


def instructions(words: list[str | Path], lines: bytes) -> tuple[int, bytes]:
    """The number of instructions that a program executes, and its output."""
    words = ["valgrind", "--tool=callgrind", "--callgrind-out-file=/dev/null", *words]
    ended = subprocess.run(words, input=lines, capture_output=True, check=True, env=os.environ | WITHOUT_REP)
    for line in ended.stderr.decode().splitlines():
        if " Collected : " in line:
            return int(line.split()[-1]), ended.stdout
    raise WrongResultError(f"callgrind counted nothing: {ended.stderr.decode()}")


def script_up_to(recording: BenchRecording, last: str) -> bytes:
    """The lines of a recording's parts up to and including this part, and `quit`."""
    parts = list(recording.parts)
    return b"".join(map(recording.lines, parts[: parts.index(last) + 1])) + QUIT


Counting = dict[str, "Future[tuple[int, bytes]]"]  # for each part, a session that ends after it; and the check


def begun_counting(program: str, recording: BenchRecording, pool: ThreadPoolExecutor) -> Counting:
    """Starts counting the instructions of a program."""
    check = pool.submit(instructions, [program, "check", recording.file], b"")
    sessions = {
        part: pool.submit(instructions, [program, "run", recording.file], script_up_to(recording, part))
        for part in recording.parts
    }
    return {"check": check, **sessions}


def counted(program: str, recording: BenchRecording, counting: Counting) -> dict[str, float]:
    """For each figure, the instructions per step or per restart: the count for a session that ends after the part,
    minus the count for a session that ends before it."""
    count, printed = counting["check"].result()
    recording.expect_checked(program, printed)
    figures = {"check": count / recording.steps}
    parts = list(recording.parts)
    replies = counting[parts[-1]].result()[1].splitlines(keepends=True)
    for part in parts:
        own, replies = replies[: len(recording.parts[part])], replies[len(recording.parts[part]) :]
        recording.expect(program, part, b"".join(own))
    totals = [counting[part].result()[0] for part in parts]
    for part, before, total in zip(parts[1:], totals, totals[1:]):
        figures[part] = (total - before) / (RESTARTS if part == "restarts" else recording.steps)
    return figures


def writes(program: str, recording: BenchRecording, part: str) -> int:
    """The number of system calls that write the replies to a part, from `strace -c`: the count for a session with the
    part, minus the count for a session without it."""
    parts = list(recording.parts)
    before = parts[parts.index(part) - 1]
    with_it, without = (_writes_of(program, recording, script_up_to(recording, last)) for last in (part, before))
    return with_it - without


def _writes_of(program: str, recording: BenchRecording, script: bytes) -> int:
    """The number of `write` system calls that a session makes."""
    with tempfile.TemporaryFile() as lines, tempfile.NamedTemporaryFile("r", encoding="ascii") as table:
        lines.write(script)  # (a file, so that each read is full)
        lines.seek(0)
        words = ["strace", "-f", "-c", "-e", "trace=write", "-o", table.name, program, "run", str(recording.file)]
        subprocess.run(words, stdin=lines, stdout=subprocess.DEVNULL, check=True)
        found = WRITES.search(table.read())
    if found is None:
        raise WrongResultError(f"strace counted no write of {program}")
    return int(found[1])
