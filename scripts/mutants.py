#!/usr/bin/env python3
"""Tries mutants:  scripts/mutants.py [--plant FILE] [--list] CRATE [NAME ..]
               scripts/mutants.py around [--seed N] [--count N] [--list] [FILE ..]

`around` chooses random mutants of netrev, nrdb and netrev_go from a seed, and runs their tests against them (scripts/mutating). Otherwise the
edits of a crate are tried, many in a single check.

The gate tries each edit of crates/CRATE/must-fail alone, over the whole crate. This script puts the edits of different
functions into one copy of the repository, and checks only these functions, each separately, because the proof of a
function doesn't depend on the body of another function. So all edits of a crate are tried in minutes. This is a tool for
developers, and not a part of the gate.

An edit counts as refused if a goal of a function that it changes fails. A goal doesn't count if it fails only because
the function calls another function that isn't proved. An edit that changes more than bodies (a constant, a type, a
definition) is named and left to `rt must-fail`, which tries it alone.

--plant FILE tries the mistakes in FILE instead of the crate's edits. FILE contains edits in the form of must-fail/, each after a
line `name: NAME`. --list checks nothing, and prints which function each edit changes, and in which check it is tried.

The status is 0 if each edit is refused, else 1.
"""

import argparse
import re
import shutil
import subprocess
import sys
import tempfile
from dataclasses import dataclass, field
from pathlib import Path

import mutating.command

ROOT = Path(__file__).resolve().parent.parent
PARTS = ("src", "specs", "proofs")
FUNCTION = re.compile(r"^( *)(?:pub(?:\([^)]*\))? )?(?:const )?fn (\w+)", re.M)
IMPL = re.compile(r"^impl(?:<.*?>)? (?:([\w:]+)(?:<.*?>)? for )?&?(?:'\w+ )?([\w:]+)", re.M)
UNPROVED = re.compile(r"not proved$|.*did not prove|.*could not tell")


class MutantError(Exception):
    """Raised if an edit or a check can't be used."""


@dataclass
class Change:
    """The old text and the new text of a line."""

    file: str
    old: str
    new: str


@dataclass
class Edit:
    """A mistake: its changes, and the functions whose bodies they change."""

    name: str
    changes: list = field(default_factory=list)
    functions: set = field(default_factory=set)


def read_edits(text, name):
    """The edits in a text. Each edit has its name in the text; a single edit without a name gets the given name."""
    edits, file, old = [], "", ""
    for line in text.split("\n"):
        key, _, rest = line.partition(":")
        rest = rest[1:] if rest.startswith(" ") else rest
        if key == "name":
            edits.append(Edit(rest.strip()))
        elif key == "file":
            file = rest.strip()
        elif key == "old":
            old = rest
        elif key == "new":
            if not edits:
                edits.append(Edit(name))
            edits[-1].changes.append(Change(file, old, rest))
    return edits


def name_of_impl(head):
    """The beginning of a method's printed name: the name of its type, followed by the name of the trait, if any."""
    impls = list(IMPL.finditer(head))
    if not impls:
        return None
    trait, type_ = impls[-1][1] or "", impls[-1][2]
    name = type_.split("::")[-1]
    return name[0].upper() + name[1:] + trait.split("::")[-1]


def function_at(crate, file, text, place):
    """The name of the function whose body contains this place in a source file: the last parts of the name that the
    prover prints. None if no body contains the place. A method is named after its type, wherever its block is."""
    if not file.startswith("src/"):
        return None
    head = text[:place]
    found = list(FUNCTION.finditer(head))
    if not found:
        return None
    indent, name = found[-1][1], found[-1][2]
    body = head[found[-1].end() :]
    # (a brace at the function's own indentation ends it; its body begins after its clauses)
    if re.search(rf"^{indent}}}$", body, re.M) or not re.search(rf"(?:^{indent}|\) |> |\w ){{$", body, re.M):
        return None
    module = [part for part in Path(file).with_suffix("").parts[1:] if part not in ("lib", "main", "mod")]
    owner = [name_of_impl(head[: found[-1].start()])] if indent else []
    if None in owner:
        return None
    return "::".join([*owner, name] if owner else [crate, *module, name])


def place_functions(crate, folder, edit):
    """Stores the functions whose bodies the edit changes; none if the edit also changes something else."""
    for change in edit.changes:
        path = folder / change.file
        text = path.read_text(encoding="utf-8") if path.is_file() else ""
        if text.count(change.old) != 1:
            raise MutantError(f"{edit.name}: its text occurs {text.count(change.old)} times in {change.file}, not once")
        place = text.index(change.old) + len(change.old) - len(change.old.lstrip())
        function = function_at(crate, change.file, text, place)
        if function is None:
            edit.functions = set()
            return
        edit.functions.add(function)


def batches_of(edits):
    """The edits in as few batches as possible; no batch has two edits of the same function."""
    batches: list[list[Edit]] = []
    for edit in edits:
        for batch in batches:
            if not any(edit.functions & other.functions for other in batch):
                batch.append(edit)
                break
        else:
            batches.append([edit])
    return batches


def copied(room, crate, edits):
    """A copy of the repository's crates with these edits."""
    shutil.copy(ROOT / "crates.txt", room)
    if (ROOT / "HANDLES").is_file():
        shutil.copy(ROOT / "HANDLES", room)
    for crate_folder in sorted((ROOT / "crates").iterdir()):
        for part in PARTS:
            if (crate_folder / part).is_dir():
                shutil.copytree(crate_folder / part, room / "crates" / crate_folder.name / part)
    for edit in edits:
        for change in edit.changes:
            path = room / "crates" / crate / change.file
            text = path.read_text(encoding="utf-8")
            path.write_text(text.replace(change.old, change.new), encoding="utf-8")
    return room / "crates" / crate


def check(folder, functions, jobs):
    """The prover's result for each of the functions, by name, and its whole output."""
    words = ["rt", "check", "--jobs", str(jobs)]
    for function in sorted(functions):
        words += ["--only", function]
    process = subprocess.run(
        words, cwd=folder, stdout=subprocess.PIPE, stderr=subprocess.STDOUT, text=True, check=False
    )
    verdicts: dict[str, list[str]] = {}
    for line in process.stdout.splitlines():
        match = re.match(r"fn (\S+?): (.*)", line)
        if match:
            verdicts.setdefault(match[1], []).append(match[2])
    return verdicts, process.stdout


def is_own(function, line, output):
    """Whether one of the function's own goals failed. If not, the function is unproved only because of a function
    that it calls."""
    answers = "/".join(["proofs", *function.split("::")[1:], "Answers.antt"])
    return bool(
        UNPROVED.match(line) or line.startswith("not proved;") and re.search(rf"{answers}:\d+:\d+: error", output)
    )


def verdict(edit, verdicts, output):
    """Whether an edit was refused, and the output about it."""
    matching_lines = [
        (name, line)
        for name, lines in verdicts.items()
        if any(f"::{name}".endswith(f"::{function}") for function in edit.functions)
        for line in lines
    ]
    return any(is_own(name, line, output) for name, line in matching_lines), [
        f"{name}: {line}" for name, line in matching_lines
    ]


def try_batch(crate, batch, jobs):
    """Tries a batch of edits in one check, and returns the names of the edits that weren't refused."""
    functions = set().union(*(edit.functions for edit in batch))
    with tempfile.TemporaryDirectory(prefix="mutants-") as room:
        verdicts, output = check(copied(Path(room), crate, batch), functions, jobs)
    missed = []
    for edit in batch:
        is_refused, lines = verdict(edit, verdicts, output)
        print(f"{'refused' if is_refused else 'NOT REFUSED'}: {edit.name}", flush=True)
        for line in lines or ["nothing was said of it: " + ", ".join(sorted(edit.functions))]:
            print(f"    {line[:200]}")
        if not is_refused:
            missed.append(edit.name)
    if not verdicts:
        print(output[-2000:])
    return missed


def edits_of(crate, plant, names):
    """The edits to try, each with the functions that it changes."""
    folder = ROOT / "crates" / crate
    if plant:
        edits = read_edits(Path(plant).read_text(encoding="utf-8"), Path(plant).stem)
    else:
        files = sorted((folder / "must-fail").glob("*.edit"))
        edits = [edit for path in files for edit in read_edits(path.read_text(encoding="utf-8"), path.stem)]
    for edit in edits:
        place_functions(crate, folder, edit)
    return [edit for edit in edits if not names or edit.name in names]


def main():
    if sys.argv[1:2] == ["around"]:
        return mutating.command.main(sys.argv[2:])
    parser = argparse.ArgumentParser(description=__doc__, formatter_class=argparse.RawDescriptionHelpFormatter)
    parser.add_argument("--plant", metavar="FILE", help="try the mistakes of this file")
    parser.add_argument("--list", action="store_true", help="print what would be tried")
    parser.add_argument("--jobs", type=int, default=2, help="how many processors a check uses (2)")
    parser.add_argument("crate")
    parser.add_argument("names", nargs="*", metavar="NAME")
    given = parser.parse_args()
    try:
        edits = edits_of(given.crate, given.plant, given.names)
    except (MutantError, OSError) as wrong:
        print(f"mutants.py: {wrong}", file=sys.stderr)
        return 1
    alone = [edit.name for edit in edits if not edit.functions]
    batches = batches_of([edit for edit in edits if edit.functions])
    missed = []
    for number, batch in enumerate(batches, 1):
        print(f"check {number} of {len(batches)}: {len(batch)} edits", flush=True)
        if given.list:
            for edit in batch:
                print(f"    {edit.name}: {', '.join(sorted(edit.functions))}")
        else:
            missed += try_batch(given.crate, batch, given.jobs)
    if alone:
        print(f"left to `rt must-fail {given.crate}`: {' '.join(alone)}")
    if missed:
        print(f"not refused: {' '.join(missed)}")
    return 1 if missed else 0


if __name__ == "__main__":
    sys.exit(main())
