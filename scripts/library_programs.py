#!/usr/bin/env python3
"""Tries the programs of docs/reference/LIBRARY.md:  scripts/library_programs.py [NAME ..]

Makes a repository in a separate folder, from copies of the crates and of the page's programs, and runs each program, or those with these
names, with `rt try` over examples/first.jsonl. The status is 1 if a program prints something other than what the page shows. Nothing is proved,
and each program takes a minute of processor time to compile.
"""

import re
import shutil
import subprocess
import sys
import tempfile
from pathlib import Path
from typing import NamedTuple

ROOT = Path(__file__).resolve().parent.parent
PAGE = ROOT / "docs/reference/LIBRARY.md"
FIRST = ROOT / "examples/first.jsonl"
PROGRAM = re.compile(r"`(using_(\w+)): ([\w ]+)`\n\n```rust\n(.*?)```\n\nIt prints:\n\n((?:    [^\n]*\n)+)", re.DOTALL)
SECONDS = 300


class Program(NamedTuple):
    """A program of the page."""

    crate: str
    name: str
    imports: str
    source: str
    printed: str


def programs(page: str) -> list[Program]:
    """The programs on the page, with the output that the page shows."""
    return [
        Program(found[1], found[2], found[3], found[4], re.sub("^    ", "", found[5], flags=re.MULTILINE))
        for found in PROGRAM.finditer(page)
    ]


def make_repository(folder: Path, programs: list[Program]) -> None:
    """Puts the crates, without build results, and these programs into the folder."""
    shutil.copytree(ROOT / "crates", folder / "crates", ignore=shutil.ignore_patterns("out", "must-fail"))
    shutil.copy(ROOT / "HANDLES", folder)
    rows = [f"{program.crate}: {program.imports}\n" for program in programs]
    (folder / "crates.txt").write_text((ROOT / "crates.txt").read_text() + "".join(rows))
    for program in programs:
        source = folder / "crates" / program.crate / "src/main.rt"
        source.parent.mkdir(parents=True)
        source.write_text(program.source)


def prints_it(folder: Path, program: Program) -> bool:
    """Whether the program prints what the page shows; prints the difference if it doesn't."""
    with FIRST.open("rb") as recording:
        command = ["rt", "try", "--seconds", str(SECONDS)]
        place = folder / "crates" / program.crate
        process = subprocess.run(command, cwd=place, stdin=recording, capture_output=True, text=True, check=False)
    is_right = process.returncode == 0 and process.stdout.startswith(program.printed)
    print(f"{program.name}: {'as the page says' if is_right else process.stdout + process.stderr}", flush=True)
    return is_right


def main() -> int:
    """Tries the named programs, or all programs."""
    found = programs(PAGE.read_text(encoding="utf-8"))
    wanted = [program for program in found if program.name in sys.argv[1:] or not sys.argv[1:]]
    if not wanted or len(wanted) < len(sys.argv[1:]):
        sys.exit(f"{PAGE.name} has {', '.join(program.name for program in found)}")
    with tempfile.TemporaryDirectory() as name:
        make_repository(Path(name), wanted)
        return int(not all([prints_it(Path(name), program) for program in wanted]))


if __name__ == "__main__":
    sys.exit(main())
