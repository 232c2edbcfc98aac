"""Measures netrev beside the same machine in plain Rust without proofs:  python3 python dev.bench.run [STEPS ..]

On each recording, the programs take turns to

    check     load the recording and accept it, in a separate process
    walk      go to the end and back by 100 steps at a time, with a query after each
    continue  search forwards over the whole recording, with a break and a watch that never hit
    reverse   search backwards in the same way
    restarts  go to various checkpoints, 1,000 times, with a query after each

Each shape of `bench/shapes.awk` is measured with its own limits, at each of the sizes (10,000, 100,000 and 1,000,000 steps). At the first size, each
shape is also measured with the limits that netrev-go writes: many sockets and descriptors, and buffers of 65,536 bytes. Two more recordings are of
servers: two tests of Go's library, which are recorded first.

`valgrind --tool=callgrind` counts the instructions per step of the recording or per restart, because other work on the
machine doesn't change this count. Under callgrind the C library clears and copies without `rep`, because callgrind
would count each repetition. Times are the program's own processor time, user and system: the least of three runs, or of
RUNS. Memory is the peak use. It also prints the ratios to the baseline by instructions and by time, with their
geometric means over the shapes. The last table has the system calls that write the replies to a walk, from `strace -c`:
each program answers all lines of one read with one write.

NETREV_BEFORE names an older netrev, which is measured in the same run and has columns in each table. All programs must
give the same replies; a wrong reply ends the run. If a tool is missing, a line on standard error says so, and its part
is left out: the columns of the baseline or the older netrev, the instructions without valgrind, the writes without
strace, the servers without Go. NETREV and NETREV_BASELINE name the programs, and SHAPES the shapes. SOCKETS has the
numbers of sockets for the larger limits (default `16 239`; if empty, these limits are omitted), and COUNTED the sizes
at which instructions are counted (default 10000). RUNS=0 omits the times, and SERVERS=0 omits the servers. No figure is
checked against a limit.
"""

import os
import shutil
import subprocess
import sys
import tempfile
from collections.abc import Callable, Iterable, Iterator
from concurrent.futures import ThreadPoolExecutor
from pathlib import Path

from tests.program.support.sharing import WrongResultError

from .measurements import begun_counting, counted, least, writes
from .programs import NETREV, NETREV_BEFORE, built_baseline
from .recordings import BenchRecording, large_name, of_shape
from .servers import of_servers
from .tables import (
    BASELINE,
    BEFORE,
    NOW,
    Cases,
    Figures,
    Measurement,
    cases_table,
    figure_table,
    growth_table,
    mean_table,
    side_by_side,
    table,
)

SHAPES = os.environ.get("SHAPES", "locks queues bytes waits timers mix").split()
SOCKETS = [int(word) for word in os.environ.get("SOCKETS", "16 239").split()]
RUNS = int(os.environ.get("RUNS", "3"))
COUNTED = [int(word) for word in os.environ.get("COUNTED", "10000").split()]
HAS_SERVERS = os.environ.get("SERVERS", "1") != "0"
SIZES = [10_000, 100_000, 1_000_000]
OWN = "own limits"
TIMES = {
    "check": "`check`, ms",
    "walk": "a walk to the end and back, ms",
    "continue": "`continue` that finds nothing, ms",
    "reverse": "`reverse-continue` that finds nothing, ms",
    "restarts": "1,000 restarts, ms",
    "memory": "greatest memory, MiB",
}
COUNTS = {
    "check": "`check`, instructions a step",
    "walk": "a walk to the end and back, instructions a step",
    "continue": "`continue` that finds nothing, instructions a step",
    "reverse": "`reverse-continue` that finds nothing, instructions a step",
    "restarts": "a restart, instructions",
}
Programs = dict[str, str]
Measuring = Callable[[BenchRecording], Figures]


def leave_out(why: str) -> None:
    """Prints what isn't measured, and why."""
    print(f"run.py: left out: {why}", file=sys.stderr)


def measured(recordings: Iterable[BenchRecording], measure: Measuring) -> Cases:
    """The figures of recordings, by name. On a terminal, prints what is being measured."""
    found = {}
    for recording in recordings:
        if sys.stderr.isatty():
            print(f"{recording.name}, {recording.steps:,} steps", file=sys.stderr)
        found[recording.name] = measure(recording)
    return found


def shapes(folder: Path, steps: int, sockets: int = 0) -> Iterator[BenchRecording]:
    """A recording of each shape, which is removed when the next recording is made."""
    for shape in SHAPES:
        recording = of_shape(folder, shape, steps, sockets)
        yield recording
        recording.file.unlink()


class Figure:
    """One kind of figure, instructions or times, for all recordings: the shapes with their own limits, the shapes with
    larger limits, and the runs of servers."""

    def __init__(self, name: str, titles: dict[str, str], sizes: list[int], measure: Measuring) -> None:
        self.name, self.sizes, self._measure = name, sizes, measure
        self.own = Measurement(name, titles, {})
        self.large: dict[int, Cases] = {}
        self.servers: Cases = {}

    def measure(self, folder: Path, servers: list[BenchRecording]) -> None:
        for steps in self.sizes:
            found = measured(shapes(folder, steps), self._measure)
            self.own.found |= {(shape, steps): figures for shape, figures in found.items()}
        for sockets in SOCKETS:
            self.large[sockets] = measured(shapes(folder, self.sizes[0], sockets), self._measure)
        self.servers = measured(servers, self._measure)

    def show(self) -> None:
        """Prints a table for each figure, over the shapes with their own limits; one table for all other recordings;
        and tables that show how restarts and memory grow with the number of sockets."""
        names = list(self.own.titles)
        for name in names:
            show(figure_table(self.own, name))
        others = {case: figures for cases in (*self.large.values(), self.servers) for case, figures in cases.items()}
        if others:
            show(cases_table(f"{self.name}, {self.sizes[0]:,} steps of each shape", names, others))
        for name in ("restarts", "memory"):
            if self.large and name in names:
                by_shape = {
                    f"{sockets} sockets": {shape: cases[large_name(shape, sockets)] for shape in SHAPES}
                    for sockets, cases in self.large.items()
                }
                show(growth_table(self.own.titles[name], name, {OWN: self.own.at(self.sizes[0]), **by_shape}))


def by_instructions(programs: Programs, pool: ThreadPoolExecutor) -> Measuring:
    """The counter of instructions for each program."""

    def measure(recording: BenchRecording) -> Figures:
        counting = {name: begun_counting(program, recording, pool) for name, program in programs.items()}
        return {name: counted(program, recording, counting[name]) for name, program in programs.items()}

    return measure


def show(text: str) -> None:
    """Prints a table after an empty line, at once."""
    print(f"\n{text}", end="", flush=True)


def show_ratios(sorts: list[Figure]) -> None:
    """Prints the ratios to the baseline, by instructions and by time side by side."""
    sizes = ", ".join(f"{sort.name} at {sort.sizes[-1]:,} steps" for sort in sorts)
    show(
        side_by_side(
            f"ratio to the baseline; {sizes}", {sort.name: sort.own.at(sort.sizes[-1]) for sort in sorts}, True
        )
    )
    for sockets in SOCKETS:
        large = {sort.name: sort.large[sockets] for sort in sorts}
        show(side_by_side(f"{sockets} sockets; each at {sorts[0].sizes[0]:,} steps", large, True))
    if sorts[0].servers:
        show(side_by_side("runs of servers", {sort.name: sort.servers for sort in sorts}, False))
    show(mean_table([sort.own for sort in sorts]))


def show_writes(programs: Programs, folder: Path, steps: int) -> None:
    """Prints the number of lines of a walk, and the number of system calls that write each program's replies."""
    rows = []
    for recording in shapes(folder, steps):
        counts = [writes(program, recording, "walk") for program in programs.values()]
        rows.append([recording.name, *(f"{count:,}" for count in (len(recording.parts["walk"]), *counts))])
    show(table([f"a walk of {steps:,} steps, system calls that write", "lines", *programs], rows))


def present() -> Programs:
    """The programs to measure."""
    if not NETREV_BEFORE:
        leave_out("an older netrev, as NETREV_BEFORE isn't set")
    elif not shutil.which(NETREV_BEFORE):
        leave_out(f"an older netrev, as {NETREV_BEFORE} is no program")
    before = NETREV_BEFORE if NETREV_BEFORE and shutil.which(NETREV_BEFORE) else None
    named = {BEFORE: before, NOW: NETREV, BASELINE: built_baseline()}
    return {name: program for name, program in named.items() if program}


def main(sizes: list[int]) -> None:
    programs = present()
    with tempfile.TemporaryDirectory() as name, ThreadPoolExecutor(os.cpu_count()) as pool:
        folder = Path(name)
        servers, missing = of_servers(folder) if HAS_SERVERS else ([], [])
        for why in missing:
            leave_out(why)
        sorts = []
        if COUNTED and not shutil.which("valgrind"):
            leave_out("instructions, as there is no valgrind")
        elif COUNTED:
            sorts.append(Figure("instructions", COUNTS, COUNTED, by_instructions(programs, pool)))
        if RUNS:
            sorts.append(Figure("time", TIMES, sizes, lambda recording: least(programs, recording, RUNS)))
        for sort in sorts:
            sort.measure(folder, servers)
            sort.show()
        if sorts and BASELINE in programs:
            show_ratios(sorts)
        if shutil.which("strace"):
            show_writes(programs, folder, sizes[0])
        else:
            leave_out("writes, as there is no strace")


if __name__ == "__main__":
    try:
        main([int(word) for word in sys.argv[1:]] or SIZES)
    except (OSError, WrongResultError, subprocess.CalledProcessError) as error:
        sys.exit(f"run.py: {error}")
