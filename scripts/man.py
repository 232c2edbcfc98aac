#!/usr/bin/env python3
"""Writes a man page to standard output:  scripts/man.py [netrev | nrdb | netrev-go] > netrev.1

netrev's page is made from docs/reference/COMMANDS.md: headings become sections, and each row of a table becomes an entry. The pages of nrdb
and netrev-go are made from their parsers and from their pages' tables of exit statuses.
"""

from __future__ import annotations

import argparse
import pathlib
import re
import sys
from collections.abc import Iterator

ROOT = pathlib.Path(__file__).resolve().parents[1]
COMMANDS = ROOT / "docs/reference/COMMANDS.md"
sys.path.insert(0, str(ROOT / "python"))

from netrev.system.version import VERSION  # noqa: E402
from netrev_go import options, usage  # noqa: E402
from nrdb import cli  # noqa: E402

CODE = "    "  # the indentation of each line of a block of code
TITLE = f'.TH NETREV 1 "" "netrev {VERSION}" "User commands"\n'
HEAD = r""".SH NAME
netrev \- walk a recorded schedule of a Go program's network poller in both directions
.SH SYNOPSIS
.B netrev run
.I FILE
.br
.B netrev check
.I FILE
.br
.B netrev upgrade
.I FILE
.br
.B netrev changes
.I FILE
.br
.B netrev suspects
.I FILE
.br
.B netrev serve
.I FILE
.BI \-\-port " P"
.RB [ \-\-fronts
.IR N ]
.RB [ \-\-workers
.IR W ]
.RB [ \-\-journal
.IR H ]
.RB [ \-\-connections
.IR C ]
.SH DESCRIPTION
"""

TAIL = r""".SH SEE ALSO
.BR gdb (1),
and the pages of netrev's docs folder: the guide, COMMANDS, RECORDING, MACHINE, INSTRUMENTING.
"""


def text(words: str) -> str:
    """A line of Markdown converted to roff: code and emphasis in bold, and a link as its text."""
    words = words.replace("\\", "\\e")
    words = re.sub(r"\[([^]]+)\]\([^)]*\)", r"\1", words)
    words = re.sub(r"\*\*([^*]+)\*\*|`([^`]+)`", lambda found: rf"\fB{found[1] or found[2]}\fR", words)
    words = words.replace("-", r"\-")
    return rf"\&{words}" if words.startswith((".", "'")) else words


def rows_of(table: list[str]) -> list[list[str]]:
    """The cells of a table's rows, without its header."""
    rows = [[cell.strip() for cell in row.strip("|").split("|")] for row in table]
    return rows[2:]


def entries(table: list[str]) -> list[str]:
    """Converts a table to a list: the first column is the term, and the other columns are below it. A table with four
    columns counts as two tables side by side."""
    rows = rows_of(table)
    if len(rows[0]) == 4:
        rows = [row[:2] for row in rows] + [row[2:] for row in rows]
    lines = []
    for first, *rest in rows:
        if first:
            lines += [".TP", text(first), text(". Reply: ".join(rest) if len(rest) == 2 else " ".join(rest))]
    return lines


def block(lines: list[str]) -> list[str]:
    """Converts a paragraph, a list, a table, a block of code or a heading from Markdown."""
    first = lines[0]
    if first.startswith("# "):
        return []
    if first.startswith("## "):
        return [f".SH {first[3:].upper()}"]
    if first.startswith("### "):
        return [f".SS {text(first[4:])}"]
    if all(line.startswith(CODE) for line in lines):
        return [".PP", ".nf", *(text(line.removeprefix(CODE)) for line in lines), ".fi"]
    if first.startswith("|"):
        return entries(lines)
    whole = " ".join(line.strip() for line in lines)
    if first.startswith("- "):
        return [line for item in re.split(r"(?:^| )- ", whole)[1:] for line in (r".IP \(bu 2", text(item))]
    return [".PP", text(whole)]


def page(markdown: str) -> str:
    """Converts the whole page, block by block: blank lines separate blocks."""
    blocks = [part.splitlines() for part in re.split(r"\n\n+", markdown.strip())]
    return TITLE + HEAD + "\n".join(line for lines in blocks for line in block(lines)) + "\n" + TAIL


# For each program except netrev: its parser, a short description, its usage, what it does, and its exit statuses.
OTHERS: dict[str, tuple[argparse.ArgumentParser, str, str, str]] = {
    "nrdb": (
        cli.parser(),
        "the companion at netrev's prompt",
        "[options] [FILE]",
        "nrdb walks a recording in both directions: it prints netrev's replies unchanged, and what it adds to them begins with | and "
        "is unproved. `help` at its prompt lists the commands. Its exit status is netrev's: 0 done, 1 the recording was "
        "refused, 2 usage error, 3 the file, the program or the connection failed; and 4 if --suspects, "
        "--explore prints findings.",
    ),
    "netrev-go": (
        options.parser(),
        "record an unchanged Go program",
        f"[options] {' | '.join(options.COMMANDS)} ..",
        "Put options of netrev-go before the command, and Go's own after run, test and build. These end with Go's own status, and print "
        "netrev-go's messages on standard error. When Go's status is 0, --fail-on makes it 3 and --strict 5. 4 means that Go wasn't run, "
        "and 2 a usage error.",
    ),
}


def options_of(parser: argparse.ArgumentParser) -> Iterator[str]:
    """An entry for each option, below the title of its group."""
    for group in parser._action_groups:
        options_of_group = [action for action in group._group_actions if action.option_strings and action.help]
        if options_of_group and group.title and group.title not in ("options", "optional arguments"):
            yield f".SS {text(group.title)}"
        for action in options_of_group:
            value = f" {action.metavar}" if action.metavar else ""
            yield from (
                ".TP",
                text(", ".join(f"`{name}`{value}" for name in action.option_strings)),
                text(action.help or ""),
            )


def other_page(name: str) -> str:
    """The page of a program, from its parser."""
    parser, summary, called, does = OTHERS[name]
    head = [
        f'.TH {name.upper()} 1 "" "netrev {VERSION}" "User commands"',
        ".SH NAME",
        rf"{text(name)} \- {text(summary)}",
    ]
    head += [".SH SYNOPSIS", f".B {text(name)}", text(called), ".SH DESCRIPTION", text(does)]
    if name == "netrev-go":
        head += [".PP", ".nf", *map(text, usage.SUMMARY.split("\n\n")[1].splitlines()), ".fi"]
    return "\n".join([*head, ".SH OPTIONS", *options_of(parser)]) + "\n" + TAIL


def main(words: list[str]) -> int:
    name = words[0] if words else "netrev"
    if len(words) > 1 or name not in ("netrev", *OTHERS):
        print(f"man.py netrev | {' | '.join(OTHERS)}", file=sys.stderr)
        return 2
    sys.stdout.write(page(COMMANDS.read_text()) if name == "netrev" else other_page(name))
    return 0


if __name__ == "__main__":
    sys.exit(main(sys.argv[1:]))
