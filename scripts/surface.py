#!/usr/bin/env python3
"""Compares the list of stable public calls with the sources:  scripts/surface.py [--list CRATE]

scripts/surface.txt has a line for each crate's name, and below it a line for each call, with its arguments and result. The gate fails if
such a call is renamed, or if its arguments or result change; for an intended change, edit the line too. Calls that aren't listed may
change. `--list CRATE` prints all public calls of a crate, in the table's form.
"""

import argparse
import re
import sys
from collections.abc import Iterator
from pathlib import Path

ROOT = Path(__file__).resolve().parent.parent
TABLE = ROOT / "scripts" / "surface.txt"

# the first line of a block of methods: an impl without a trait, or a trait
OWNER = re.compile(r"(?:impl(?:<.*?>)? (?P<type>\w+)(?:<.*>)?(?: \{)?|pub trait (?P<trait>\w+).*)$")
CALL = re.compile(r"(?P<public>pub )?fn (?P<name>\w+)")
# the underscore that marks an argument as unused by the body; it isn't part of the signature
UNUSED = re.compile(r"(?<=[(\s])_(?=\w+:)")
# what follows a signature: clauses, bounds and the body
BEHIND = re.compile(r"\s(?:where|requires|ensures|ghost|decreases)\b|\s?\{|;")


def without_comments(text: str) -> str:
    """A source with its comments and attributes replaced by empty lines."""
    return "\n".join("" if line.lstrip().startswith(("//", "#[")) else line for line in text.split("\n"))


def signature(text: str) -> str:
    """A call's arguments and result, on one line, without bounds, clauses and body. The text begins after its name."""
    depth = 0
    for at, char in enumerate(text):
        depth += (char == "(") - (char == ")")
        if depth == 0 and char == ")":
            break
    arguments, rest = text[text.index("(") : at + 1], text[at + 1 :]
    found = BEHIND.search(rest)
    line = UNUSED.sub("", " ".join((arguments + rest[: found.start() if found else None]).split()))
    return line.replace("( ", "(").replace(", )", ")").replace(" )", ")")


def calls_of(text: str) -> Iterator[str]:
    """The public calls of a source, as laid out by `rt fmt`: items at the start of a line, methods after four
    spaces."""
    lines = without_comments(text).split("\n")
    owner: str | None = None
    in_trait = False
    for at, line in enumerate(lines):
        if line == "}":
            owner = None
        elif begins := OWNER.match(line):
            owner, in_trait = begins["type"] or begins["trait"], begins["trait"] is not None
        indent = "" if owner is None else "    "
        call = CALL.match(line, len(indent)) if line.startswith(indent) else None
        if call and (call["public"] or (owner and in_trait)):
            behind = "\n".join([line[call.end() :], *lines[at + 1 : at + 30]])
            name = call["name"] if owner is None else f"{owner}::{call['name']}"
            yield name + signature(behind[behind.index("(") :])


def crate_calls(crate: str) -> list[str]:
    """The public calls of a crate's sources, sorted."""
    sources = sorted((ROOT / "crates" / crate / "src").glob("**/*.rt"))
    return sorted(call for source in sources for call in calls_of(source.read_text(encoding="utf-8")))


def table(text: str) -> dict[str, list[str]]:
    """The table's calls, by crate."""
    calls: dict[str, list[str]] = {}
    crate = ""
    for line in text.split("\n"):
        if not line.strip() or line.startswith("#"):
            continue
        if line.startswith(" "):
            calls[crate].append(line.strip())
        else:
            crate = line.strip()
            calls[crate] = []
    return calls


def missing(wanted: dict[str, list[str]]) -> list[str]:
    """The faults: each call in the table that its crate doesn't have in this form, with the crate's calls of the same
    name."""
    faults = []
    for crate, calls in wanted.items():
        there = crate_calls(crate)
        for call in calls:
            if call not in there:
                name = call[: call.index("(")] + "("
                like = [other for other in there if other.startswith(name)] or ["no call of this name"]
                faults.append(f"{crate}: {call}\n    the source has: {', '.join(like)}")
    return faults


def main() -> int:
    """Compares the calls, or lists them."""
    words = argparse.ArgumentParser(description=__doc__, formatter_class=argparse.RawDescriptionHelpFormatter)
    words.add_argument("--list", metavar="CRATE", help="print all public calls of a crate")
    options = words.parse_args()
    if options.list:
        print(options.list, *("    " + call for call in crate_calls(options.list)), sep="\n")
        return 0
    wanted = table(TABLE.read_text(encoding="utf-8"))
    count = sum(map(len, wanted.values()))
    faults = missing(wanted)
    for fault in faults:
        print(fault)
    print(f"surface: {count} calls of {len(wanted)} crates, {len(faults)} not as scripts/surface.txt has them")
    return 1 if faults or count == 0 else 0


if __name__ == "__main__":
    sys.exit(main())
