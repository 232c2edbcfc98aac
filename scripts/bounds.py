#!/usr/bin/env python3
"""Finds the numbers that no proof needs:  scripts/bounds.py [--list] [CRATE ..]

In a copy of the repository, reduces each constant and each loop bound by one; `rt ci` tries each change as an edit that
must fail. If the change is refused, a contract determines the number. If the crate is still proved, no contract
does: a smaller number may make netrev slower, or make it give up earlier, and no theorem rules that out.

Without names it tries netrev's crates. With --list it prints what it would change. Each crate takes a few minutes. The status is 0 if each
change was tried, else 1.
"""

from __future__ import annotations

import argparse
import re
import shutil
import subprocess
import sys
import tempfile
from collections.abc import Iterator
from pathlib import Path
from typing import NamedTuple

ROOT = Path(__file__).resolve().parent.parent
CONSTANT = re.compile(r"^ *(?:pub(?:\(crate\))? )?const (\w+): [iu](?:8|16|32|64|size) = (.+);$", re.M)
BOUND = re.compile(r"^ *for _ in 0\.\.(u64::MAX) \{$", re.M)
VERDICT = re.compile(r"^(?:rt: )?must-fail (\w+)/(\w+)\.edit: (refused|NOT REFUSED|BAD EDIT|NOT TRIED)", re.M)
WORDS = {"refused": "fixed by a contract", "NOT REFUSED": "**the source alone**"}


class Number(NamedTuple):
    """A number in the source of a crate: its file, the line that has it, and the text of the number, which is reduced
    by one."""

    crate: str
    name: str
    file: str
    line: str
    text: str

    @property
    def edit(self) -> str:
        """The edit that reduces the number by one."""
        before, _, after = self.line.rpartition(self.text)
        return f"file: {self.file}\nold: {self.line}\nnew: {before}({self.text}) - 1{after}\n"


def crates_of_netrev() -> list[str]:
    """The crates that netrev consists of, in the order of crates.txt."""
    needs = {}
    for line in (ROOT / "crates.txt").read_text("utf-8").splitlines():
        head, _, below = line.partition(":")
        needs[head.split()[0]] = below.split()
    parts, unread = {"netrev"}, ["netrev"]
    while unread:
        new = set(needs.get(unread.pop(), [])) - parts
        parts |= new
        unread += new
    return [name for name in needs if name in parts]


def numbers_of(crate: str) -> Iterator[Number]:
    """The numbers of a crate, file by file. An edit can't name a line that occurs twice in its file, so such lines are
    left out."""
    folder = ROOT / "crates" / crate
    for path in sorted((folder / "src").rglob("*.rt")):
        source, file = path.read_text("utf-8"), str(path.relative_to(folder))
        bounds = [(f"bound_of_{path.stem}", found[0], found[1]) for found in BOUND.finditer(source)]
        for name, line, text in [(found[1], found[0], found[2]) for found in CONSTANT.finditer(source)] + bounds:
            if source.count(line.strip()) == 1:
                yield Number(crate, name, file, line.strip(), text)


def verdicts(numbers: list[Number]) -> dict[tuple[str, str], str]:
    """The prover's verdict on each number that was reduced by one, by crate and name."""
    with tempfile.TemporaryDirectory(prefix="netrev-bounds-") as folder:
        copy = Path(folder) / "netrev"
        shutil.copytree(ROOT, copy, ignore=shutil.ignore_patterns("must-fail", ".git", "target"))
        for number in numbers:
            path = copy / "crates" / number.crate / "must-fail" / f"{number.name}.edit"
            path.parent.mkdir(exist_ok=True)
            path.write_text(number.edit, "utf-8")
        command = ["rt", "ci", *dict.fromkeys(number.crate for number in numbers)]
        output = subprocess.run(command, cwd=copy, capture_output=True, text=True, check=False)
    return {(found[1], found[2]): found[3] for found in VERDICT.finditer(output.stdout + output.stderr)}


def main() -> int:
    parser = argparse.ArgumentParser(description=(__doc__ or "").partition("\n")[0])
    parser.add_argument("--list", action="store_true", help="print the changes, and try none")
    parser.add_argument("crates", nargs="*", metavar="CRATE")
    arguments = parser.parse_args()
    numbers = [number for crate in arguments.crates or crates_of_netrev() for number in numbers_of(crate)]
    if arguments.list:
        print("\n".join(f"{number.crate}/{number.file}: {number.line}" for number in numbers))
        return 0
    found = verdicts(numbers)
    print("| Crate | Number | Held by |\n|---|---|---|")
    for number in numbers:
        verdict = found.get((number.crate, number.name), "no verdict")
        print(f"| {number.crate} | `{number.name}` = {number.text} | {WORDS.get(verdict, verdict)} |")
    return 0 if all(verdict in WORDS for verdict in found.values()) and len(found) == len(numbers) else 1


if __name__ == "__main__":
    sys.exit(main())
