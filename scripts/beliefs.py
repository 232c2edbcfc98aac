#!/usr/bin/env python3
"""Prints the definitions that the laws rest on:  scripts/beliefs.py [--names | --write] [CRATE/FILE:NAME ..]

It prints the tables of docs/proof/THEOREM.md: the numbers of definitions and of their lines, and the files in reading
order. `--write` writes them into the page. It doesn't change sentences with numbers; scripts/pages.py finds outdated
sentences. `--names` prints the definitions themselves, file by file. Definitions named as arguments replace the laws:
`scripts/beliefs.py nr_rev/Step:outcome` prints the definitions that `outcome` rests on.
"""

import argparse
import sys
from pathlib import Path

from page_rules import reading_list
from page_rules.reading_list import Law, ReadingList
from page_rules.tree import Tree

ROOT = Path(__file__).resolve().parent.parent


def names(found: ReadingList) -> str:
    """The definitions, file by file, in reading order."""
    files = [file for crate in found.tree.crates for file in found.files(crate)]
    return "\n".join(f"{path}: {' '.join(place.name for place in places)}" for path, places in files)


def write(page: Path, rows: list[str]) -> None:
    """Replaces the page's tables."""
    before, heading, rest = page.read_text(encoding="utf-8").partition(f"{reading_list.HEADING}\n")
    lines = rest.split("\n")
    end = next((at for at, line in enumerate(lines) if line.startswith("## ")), len(lines))
    tables = [at for at, line in enumerate(lines[:end]) if line.startswith("|")]
    if not tables:
        raise SystemExit(f"{page} has no table under {reading_list.HEADING[3:]!r}")
    lines[tables[0] : tables[-1] + 1] = rows
    page.write_text(before + heading + "\n".join(lines), encoding="utf-8")


def main(given_words: list[str] | None = None) -> int:
    """Prints the result for these arguments, or for those of the command line."""
    given = argparse.ArgumentParser(description=__doc__, formatter_class=argparse.RawDescriptionHelpFormatter)
    how = given.add_mutually_exclusive_group()
    how.add_argument("--names", action="store_true", help="print the definitions, file by file")
    how.add_argument("--write", action="store_true", help=f"put the tables into {reading_list.PAGE}")
    given.add_argument("--root", type=Path, default=ROOT, help=argparse.SUPPRESS)
    given.add_argument("definitions", nargs="*", metavar="CRATE/FILE:NAME", help="these, and not the laws")
    options = given.parse_args(given_words)
    laws = (
        tuple(Law(f"`{definition.rpartition(':')[2]}`", (definition,)) for definition in options.definitions)
        or reading_list.LAWS
    )
    found = ReadingList(Tree(options.root), laws)
    if found.missing:
        given.error(f"there is no definition {', '.join(found.missing)}")
    if options.write and options.definitions:
        given.error("--write is for the laws, and takes no definitions")
    if options.write:
        write(options.root / reading_list.PAGE, reading_list.tables(found.tree))
    rows = found.rows() if options.definitions else reading_list.tables(found.tree)
    print(names(found) if options.names else "\n".join(rows))
    return 0


if __name__ == "__main__":
    sys.exit(main())
