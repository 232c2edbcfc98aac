"""Damages the log of a loaded server at a random moment, in each of several ways, on one processor and on four. The
server must go on: no request fails, it ends with status 0 and prints nothing else, and its memory stays. netrev-go must
say what happened.

    python3 python tests.trials.go_damaged [--each N] [--beside N] [--seed S] [--way NAME] [RELEASE ..]

It prints a line for each way, with the number of requests in all its runs. The exit status is 1 if a server didn't go
on. The device of two ways is a file system in memory that only root can mount; without root, they are left out and
named."""

import argparse
import ctypes
import os
import random
import re
import subprocess
import sys
import tempfile
import time
from collections.abc import Callable, Iterator
from concurrent.futures import ThreadPoolExecutor
from contextlib import ExitStack, contextmanager
from pathlib import Path

from netrev_go.go_command.process_logs import has_begun, log_of_process
from netrev_go.go_command.running import places
from netrev_go.go_command.toolchain import RecorderError
from netrev_go.log.logfile import PAGE

from .go_snapshots import PROCESSORS, build
from .go_untouched import go_of

CONNECTIONS = 8
POINTS = 2**15
EARLIEST, LATEST = 0.05, 0.4  # seconds from the log's begin to the damage
AFTER = 0.2  # seconds that the server goes on
PATIENCE = 120.0  # seconds
SLOWEST = 20.0  # seconds, within which a busy machine lets the server use its log
MOST_GROWTH = 16_384  # kB: the recorder's tables, and what a server needs anyway
DEVICE_BYTES = 96 * 2**20
LARGE = 2**20  # points, for which a device has no room
KEEP_SIZE, PUNCH_HOLE = 1, 2  # of fallocate

Damage = Callable[[Path, random.Random], None]


def punch(log: Path, begin: int, size: int) -> None:
    with log.open("r+b") as file:
        call = ctypes.CDLL(None, use_errno=True).fallocate
        call.argtypes = (ctypes.c_int, ctypes.c_int, ctypes.c_int64, ctypes.c_int64)
        assert call(file.fileno(), KEEP_SIZE | PUNCH_HOLE, begin, size) == 0, os.strerror(ctypes.get_errno())


def overwrite(log: Path, chance: random.Random, begin: int, end: int) -> None:
    with log.open("r+b") as file:
        file.seek(begin)
        file.write(chance.randbytes(end - begin))


def fill(log: Path, _: random.Random) -> None:
    """Takes the rest of the device."""
    with (log.parent / "filler").open("wb", buffering=0) as file:
        try:
            while file.write(bytes(2**20)):
                pass
            while file.write(bytes(4096)):
                pass
        except OSError:
            pass


def fail(log: Path, chance: random.Random) -> None:
    """Takes pages from the log that the full device can't give back, as if it had failed."""
    size = log.stat().st_size
    with (log.parent / "filler").open("wb", buffering=0) as file:
        fill(log, chance)
        punch(log, 0, size)
        fill(log, chance)
        del file


WAYS: dict[str, Damage] = {
    "truncated to 0": lambda log, _: os.truncate(log, 0),
    "truncated": lambda log, chance: os.truncate(log, chance.randrange(log.stat().st_size - 4 * PAGE)),
    "overwritten": lambda log, chance: overwrite(log, chance, *sorted(chance.choices(range(log.stat().st_size), k=2))),
    "all overwritten": lambda log, chance: overwrite(log, chance, chance.randrange(8), log.stat().st_size),
    "removed": lambda log, _: log.unlink(),
    "chmod 000": lambda log, _: log.chmod(0),
    "hole": lambda log, chance: punch(log, chance.randrange(log.stat().st_size), chance.randrange(1, 2**23)),
}
ON_A_DEVICE: dict[str, Damage] = {"full device": fill, "failing device": fail}
# What netrev-go says of the log afterwards, if its words don't depend on the bytes that were overwritten.
ENDED, REMOVED = "was truncated, or its device failed; recording ended then", "was removed"
SAYS = {
    "truncated to 0": ENDED,
    "truncated": ENDED,
    "failing device": ENDED,
    "removed": REMOVED,
    "chmod 000": "",
    "hole": "",
}


@contextmanager
def device() -> Iterator[Path]:
    """A small file system in memory."""
    with tempfile.TemporaryDirectory(prefix="netrev-device-") as folder:
        words = ["mount", "-t", "tmpfs", "-o", f"size={DEVICE_BYTES}", "tmpfs", folder]
        subprocess.run(words, check=True)
        try:
            yield Path(folder)
        finally:
            subprocess.run(["umount", folder], check=True)


def own_memory(process: int) -> int:
    """The memory of a process in kB, without that of mapped files."""
    found = re.search(r"^RssAnon:\s+(\d+) kB", Path(f"/proc/{process}/status").read_text(), re.MULTILINE)
    return int(found[1]) if found else 0


def said(process: int) -> str:
    """What netrev-go says of a process's log."""
    try:
        return log_of_process(process).fault
    except RecorderError as fault:
        return str(fault)


def damaged(program: Path, processors: int, name: str, seed: str) -> tuple[int, str]:
    """One run: the number of requests, and what went wrong."""
    chance, way = random.Random(seed), (WAYS | ON_A_DEVICE)[name]
    with ExitStack() as stack:
        if name in ON_A_DEVICE:
            folder = stack.enter_context(device())
        else:
            folder = Path(stack.enter_context(tempfile.TemporaryDirectory(prefix="netrev-damaged-", dir=places()[0])))
        settings = {
            "NETREV_LOG": str(folder / "log"),
            "NETREV_POINTS": str(LARGE if name in ON_A_DEVICE else POINTS),
            "GOMAXPROCS": str(processors),
        }
        process = subprocess.Popen(
            [program, str(CONNECTIONS)], env=os.environ | settings, text=True,
            stdin=subprocess.PIPE, stdout=subprocess.PIPE, stderr=subprocess.PIPE,
        )  # fmt: skip
        log = folder / f"log.{process.pid}"
        while process.poll() is None and not (log.exists() and has_begun(log, process.pid)):
            time.sleep(0.001)
        time.sleep(chance.uniform(EARLIEST, LATEST))
        before = own_memory(process.pid)
        way(log, chance)
        time.sleep(AFTER)
        wanted, until = SAYS.get(name, ""), time.monotonic() + SLOWEST
        while process.poll() is None and wanted not in (words := said(process.pid)) and time.monotonic() < until:
            time.sleep(AFTER)
        after = own_memory(process.pid) if process.poll() is None else 0
        try:
            output, errors = process.communicate(timeout=PATIENCE)
        except subprocess.TimeoutExpired:
            process.kill()
            output, errors = process.communicate()
            return 0, "it hung: " + errors[:300]
    if process.returncode or errors or not output.strip().isdigit():
        return 0, f"status {process.returncode}: {errors.strip()[:120]}"
    if after - before > MOST_GROWTH:
        return int(output), f"its memory grew by {after - before} kB"
    is_wanted = name not in SAYS or wanted in words and bool(wanted) == bool(words)
    return int(output), "" if is_wanted else f"netrev-go says {words!r}"


def main(words: list[str]) -> int:
    parser = argparse.ArgumentParser(prog="tests.trials.go_damaged")
    parser.add_argument("--each", type=int, default=100, help="runs of each way, on so many processors, and release")
    parser.add_argument("--beside", type=int, default=2, help="runs at the same time")
    parser.add_argument("--seed", type=int, default=1)
    parser.add_argument("--way", action="append", help="only this way; may be given several times")
    parser.add_argument("releases", nargs="*", default=["1.19", "1.27"])
    options, status = parser.parse_args(words), 0
    ways = WAYS | (ON_A_DEVICE if os.geteuid() == 0 else {})
    for release in options.releases:
        with tempfile.TemporaryDirectory() as folder, ThreadPoolExecutor(options.beside) as runs:
            program = Path(folder, "server")
            build(go_of(release), Path(__file__).with_suffix(".go"), program)
            for name in options.way or ways:
                for processors in PROCESSORS:
                    seeds = [f"{options.seed} {release} {name} {processors} {run}" for run in range(options.each)]
                    done = list(runs.map(lambda seed: damaged(program, processors, name, seed), seeds))
                    wrong = [why for _, why in done if why]
                    print(
                        f"{release} GOMAXPROCS={processors} {name}: {len(done) - len(wrong)} of {len(done)} went on, "
                        f"{sum(requests for requests, _ in done)} requests",
                        flush=True,
                    )
                    for why in wrong[:3]:
                        print(f"  {why}", flush=True)
                    status |= bool(wrong)
        for name in ON_A_DEVICE.keys() - ways.keys():
            print(f"left out: {name}: only root can mount a file system")
    return status


if __name__ == "__main__":
    sys.exit(main(sys.argv[1:]))
