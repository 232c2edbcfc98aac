"""Tests every prefix of each short recording, byte by byte, for hostile.py: netrev accepts a prefix that ends with a
whole line, and refuses any other prefix at its last line.

The recordings have some thirty thousand prefixes, and Python takes longer to start netrev than netrev takes to check
one. So one shell for each processor of the machine runs netrev, and checks many prefixes in a row.
"""

import os
import signal
import subprocess
from collections.abc import Sequence
from concurrent.futures import ThreadPoolExecutor
from pathlib import Path

from tests.support.examples import REFUSED

from .support.sharing import NETREV, PATIENCE, ROOT, WrongResultError, expect

WALK = "scripts/recordings/woken-by-an-event.jsonl"  # twelve steps
BEGUN = tuple(
    str(path.relative_to(ROOT))
    for pattern in ("*.jsonl", "real/*.jsonl")
    for path in sorted((ROOT / "examples").glob(pattern))
) + (WALK,)
# the steps whose recorded answers differ from the machine's
DIFFERS = {f"examples/{name}.jsonl": step for name, step in REFUSED.items()}
IN_A_ROW = 64
# netrev's output for each file, on both streams, and its status
EACH = 'netrev=$1; shift; for file; do "$netrev" check "$file" 2>&1; echo "status $?"; done'

Printed = tuple[int, str]  # the status, and what is printed


def wanted_of(place: object, fault: object) -> Printed:
    """The output for a fault, or for this many steps."""
    return (0, f"ok {fault} steps\n") if isinstance(fault, int) else (1, f"{place}: fault {fault}\n")


def beginning(text: bytes, differs: int | None) -> Printed:
    """The expected output for a prefix of a recording. A last line that isn't whole is malformed. Step `differs`, if
    given, has a recorded answer that isn't the machine's."""
    lines = text.split(b"\n")
    if not lines[-1] and len(lines) > 1:
        steps = len(lines) - 2
        return wanted_of(f"step {differs}", "109 answer") if differs and steps >= differs else wanted_of("", steps)
    if not lines[-1]:
        return wanted_of("line 1", "101 header")
    return wanted_of(f"line {len(lines)}", "102 not JSON")


def every_beginning(folder: Path, whole: bytes, differs: int | None) -> None:
    """Cuts the text at each byte. A line that lacks only its line feed is read like any other line."""

    def cut(sizes: range) -> None:
        paths = [folder / f"beginning-{size}.jsonl" for size in sizes]
        wanted = []
        for size, path in zip(sizes, paths):
            path.write_bytes(whole[:size])
            ended = whole[:size] + b"\n" if whole[size : size + 1] == b"\n" else whole[:size]
            status, output = beginning(ended, differs)
            wanted.append(f"{output}status {status}\n")
        expect_in_turn(sizes, wanted, printed_in_turn(paths))
        for path in paths:
            path.unlink()

    all_sizes = range(len(whole) + 1)
    with ThreadPoolExecutor(os.cpu_count()) as pool:
        list(pool.map(cut, (all_sizes[first : first + IN_A_ROW] for first in all_sizes[::IN_A_ROW])))


def expect_in_turn(sizes: Sequence[int], wanted: Sequence[str], reply: str) -> None:
    """Checks that the output for each beginning is as expected."""
    for size, item in zip(sizes, wanted):
        expect(f"check of the first {size} bytes", item, reply[: len(item)] if reply.startswith(item) else reply[:500])
        reply = reply[len(item) :]
    expect("behind the last of them", "", reply)


def printed_in_turn(paths: Sequence[Path]) -> str:
    """What netrev prints for each file, with its status."""
    words = ["sh", "-c", EACH, "sh", NETREV, *map(str, paths)]
    with subprocess.Popen(words, stdin=subprocess.DEVNULL, stdout=subprocess.PIPE, start_new_session=True) as shell:
        try:
            return shell.communicate(timeout=PATIENCE)[0].decode()
        except subprocess.TimeoutExpired:
            os.killpg(shell.pid, signal.SIGKILL)
            raise WrongResultError(
                f"{len(paths)} checks took more than {PATIENCE} s, from {paths[0].name} on"
            ) from None
