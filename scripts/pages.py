#!/usr/bin/env python3
"""Checks the pages against the tree:  scripts/pages.py [--diagram] [RULE ..]

The gate runs all rules. These are about pages and Python code, and about what pages say of the source:

    quotes, texts, runs  the quotes of docs/proof/THEOREM.md, and the computed sessions, equal their files
    beliefs              the reading list of docs/proof/THEOREM.md is what scripts/beliefs.py prints, and within its limits
    verdict              docs/proof/TRUSTED.md lists what the verdict on netrev takes as given, and no called function may wait
    raw-calls            calls that reach a stream or a caller are made only in code that docs/proof/TRUSTED.md lists
    promises, names      the functions, clauses and definitions that pages cite exist
    in-files             a name is in the file that a page names for it: `Step` in `nr_rev/src/step.rt`
    links, paths         each link, anchor and path leads somewhere
    shared-names         a name that two crates define is in the glossary's list, with each of these crates
    tables               a file that names most kinds, cells or commands is in a list of docs/internals/ARCHITECTURE.md
    diagram              the crates of docs/internals/ARCHITECTURE.md are those of crates.txt
    imports              modules of Python import only their own folder and rows above it in the table of CONTRIBUTING.md
    docstrings           no docstring depends on the text before it
    markers              no page has the marks of a merge conflict

And these are about the source itself:

    modules              a specs/Lib.antt has two groups: the modules that callers need, and the others
    comments             no comment depends on the one before it: "The same."
    lines                no line of specs/ has more than 100 columns
    forgotten            only one file calls `mem::forget` or leaks memory in another way
    refused              no function of the program reports that memory ran out unless it has the library's error

`--diagram` prints the diagram of the crates. With RULE .., only these rules run. Prints each finding with its file and line; the status is 1 if there is any.
"""

import argparse
import sys
from collections.abc import Callable, Iterator
from pathlib import Path

from page_rules import citations, definitions, links, lists, quotes, reading_list, verdict
from page_rules.code import comments, imports, memory, merges, raw_calls
from page_rules.tree import Finding, Tree

Rule = Callable[[Tree], Iterator[Finding]]

# files that the rules about pages examine; if one of them is missing, a rule finds nothing
NEEDED = (
    "docs/proof/THEOREM.md",
    "docs/proof/TRUSTED.md",
    "scripts/page_rules/shared_names.txt",
    "docs/proof/PROMISES.md",
    "docs/internals/ARCHITECTURE.md",
    "crates.txt",
)


RULES: dict[str, Rule] = {
    "quotes": quotes.quotes,
    "texts": quotes.texts,
    "runs": quotes.runs,
    "beliefs": reading_list.reading_list,
    "verdict": verdict.verdict,
    "raw-calls": raw_calls.raw_calls,
    "promises": citations.promises,
    "names": citations.names,
    "in-files": citations.in_files,
    "links": links.links,
    "paths": links.paths,
    "shared-names": definitions.shared_names,
    "tables": lists.named_many,
    "diagram": lists.diagram,
    "imports": imports.imports,
    "docstrings": comments.leaning_docstrings,
    "markers": merges.markers,
    "modules": definitions.groups,
    "comments": comments.leaning_comments,
    "lines": comments.long_lines,
    "forgotten": memory.forgotten,
    "refused": memory.refused,
}


def main(given_words: list[str] | None = None) -> int:
    """Runs the rules that these arguments name, or those that the command line names."""
    given = argparse.ArgumentParser(description=__doc__, formatter_class=argparse.RawDescriptionHelpFormatter)
    given.add_argument("--diagram", action="store_true", help="print the diagram of the crates")
    given.add_argument("--root", type=Path, default=Path(__file__).resolve().parent.parent, help=argparse.SUPPRESS)
    given.add_argument("rules", nargs="*", metavar="RULE", help="just these")
    options = given.parse_args(given_words)
    if unknown := [name for name in options.rules if name not in RULES]:
        given.error(f"there is no rule {', '.join(unknown)}")
    tree = Tree(options.root)
    if options.diagram:
        print(lists.drawn(tree), end="")
        return 0
    names = options.rules or list(RULES)
    faults = [f"there is no {path}" for path in NEEDED if not options.rules and not tree.has(path)]
    faults += [f"{finding} [{name}]" for name in names for finding in sorted(RULES[name](tree))]
    notes = [f"note: {note}" for note in tree.notes]
    print(*faults, *notes, f"pages: {len(tree.pages)} pages, {len(names)} rules, {len(faults)} findings", sep="\n")
    return 1 if faults else 0


if __name__ == "__main__":
    sys.exit(main())
