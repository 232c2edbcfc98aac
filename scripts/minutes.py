#!/usr/bin/env python3
"""Measures the processor time of a run:  scripts/minutes.py LOG COMMAND ..  or  scripts/minutes.py LOG

With a command, runs it, samples the running checks every second, and writes their processor seconds to LOG, with a line
for each crate and kind of check. The exit status is the command's. Without a command, prints LOG as a table:

    proofs   the proofs of each crate, from which the libraries and the program are built
    tests    the same proofs, repeated with the crate's tests
    seeds    the beginning of the crate's edits, and the final check of the unchanged crate
    edits    the edits that must fail

The rest is the command's remaining time: for the compilers, for the programs and tests that ran, and for checks after their last sample.
"""

import os
import re
import resource
import subprocess
import sys
import time
from pathlib import Path

TICKS = os.sysconf("SC_CLK_TCK")
EACH = 1.0  # seconds between two samples
KINDS = ("proofs", "tests", "seeds", "edits")
CHECKS = ("check", "build")


def processes():
    """The running processes, by PID: the parent's PID, and the ticks used by the process and its ended children."""
    found = {}
    for name in filter(str.isdigit, os.listdir("/proc")):
        try:
            fields = Path(f"/proc/{name}/stat").read_text(encoding="utf-8", errors="replace").rpartition(")")[2].split()
        except OSError:
            continue
        if len(fields) >= 15:
            found[int(name)] = int(fields[1]), sum(map(int, fields[11:15]))
    return found


def words_of(number):
    try:
        return Path(f"/proc/{number}/cmdline").read_bytes().decode(errors="replace").split("\0")
    except OSError:
        return []


def check_of(number):
    """The crate and the kind of a check; None if the process isn't a check."""
    words = words_of(number)
    if len(words) < 2 or not words[0].endswith("/rattle") or words[1] not in CHECKS or "--crate-name" not in words:
        return None
    crate = words[words.index("--crate-name") + 1]
    try:
        is_edit = "rt-edit-" in os.readlink(f"/proc/{number}/cwd")
    except OSError:
        return None
    if is_edit:
        over = words[words.index("--incremental") + 1] if "--incremental" in words else ""
        return crate, "seeds" if over.endswith("/seed") else "edits"
    return crate, "tests" if "--test" in words else "proofs"


class Watch:
    """The observed times of the checks that a process starts, directly or through its children."""

    def __init__(self, top):
        self.top = top
        self.kinds = {}  # by process, the crate and kind
        self.ticks = {}
        self.least_free = None

    def look(self):
        found = processes()
        below: dict[int, list[int]] = {}
        for number, (parent, _) in found.items():
            below.setdefault(parent, []).append(number)
        self.walk(self.top, None, found, below, {})
        self.note_memory()

    def walk(self, number, check, found, below, sums):
        """Adds the time of each process to the check that it belongs to; the children of a check belong to the check."""
        if check is None and number != self.top:
            kind = self.kinds.get(number) or check_of(number)
            if kind:
                self.kinds[number] = kind
                check = number
        if check is not None and number in found:
            sums[check] = sums.get(check, 0) + found[number][1]
        for child in below.get(number, []):
            self.walk(child, check, found, below, sums)
        if number == self.top:
            for process, ticks in sums.items():
                self.ticks[process] = max(self.ticks.get(process, 0), ticks)

    def note_memory(self):
        free = re.search(r"MemAvailable:\s+(\d+)", Path("/proc/meminfo").read_text(encoding="ascii"))
        if free:
            self.least_free = min(int(free[1]), self.least_free or int(free[1]))

    def totals(self):
        """The processor seconds of each crate and kind."""
        totals: dict[tuple[str, str], float] = {}
        for number, kind in self.kinds.items():
            totals[kind] = totals.get(kind, 0) + self.ticks.get(number, 0) / TICKS
        return totals


def run(log, words):
    """Runs the command and writes the log; returns the command's status."""
    begun = time.monotonic()
    with subprocess.Popen(words) as process:
        watch = Watch(process.pid)
        while process.poll() is None:
            watch.look()
            time.sleep(EACH)
    used = resource.getrusage(resource.RUSAGE_CHILDREN)
    lines = [f"{crate}\t{kind}\t{seconds:.1f}" for (crate, kind), seconds in sorted(watch.totals().items())]
    lines += [
        f"-\tall\t{used.ru_utime + used.ru_stime:.1f}",
        f"-\tclock\t{time.monotonic() - begun:.1f}",
        f"-\tleast free memory in kB\t{watch.least_free or 0}",
    ]
    log.write_text("\n".join(lines) + "\n", encoding="utf-8")
    return process.returncode


def minutes(seconds):
    return f"{seconds / 60:.1f}" if seconds else ""


def row(name, cells):
    return f"| {name} | {' | '.join(minutes(cell) for cell in (*cells, sum(cells)))} |"


def table(log):
    """The log as lines of a table, with remarks."""
    seconds: dict[str, dict[str, float]] = {}
    beside: dict[str, float] = {}
    for line in log.read_text(encoding="utf-8").splitlines():
        crate, kind, figure = line.split("\t")
        if crate == "-":
            beside[kind] = float(figure)
        else:
            seconds.setdefault(crate, dict.fromkeys(KINDS, 0.0))[kind] += float(figure)
    rows = sorted(seconds.items(), key=lambda it: -sum(it[1].values()))
    sums = [sum(cells[kind] for _, cells in rows) for kind in KINDS]
    lines = [f"| Crate | {' | '.join(KINDS)} | all |", "|---|--:|--:|--:|--:|--:|"]
    lines += [row(f"`{crate}`", [cells[kind] for kind in KINDS]) for crate, cells in rows]
    lines += [row("all of these", sums), f"| the rest | | | | | {minutes(beside['all'] - sum(sums))} |"]
    lines += ["", f"{minutes(beside['all'])} processor minutes in {minutes(beside['clock'])} by the clock"]
    lines += [f"at least {beside['least free memory in kB'] / 1e6:.1f} GB of memory were free"]
    return lines


def main():
    if len(sys.argv) < 2:
        print("usage: scripts/minutes.py LOG [COMMAND ..]", file=sys.stderr)
        return 2
    log, words = Path(sys.argv[1]), sys.argv[2:]
    status = run(log, words) if words else 0
    if not words:
        print("\n".join(table(log)))
    return status


if __name__ == "__main__":
    sys.exit(main())
