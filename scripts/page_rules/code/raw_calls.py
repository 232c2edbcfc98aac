"""Checks that the calls that reach a stream, a caller or a log are made only in the places that docs/proof/TRUSTED.md
lists.

The laws are about logs. If a call bypassed the logs, for example because the reader was taken out of its source, no log
would have the call. A log could also have an entry without a call. So each such call in the program's sources is listed
here with the functions that make it. No contract checks some of these functions; TRUSTED lists them in its table of
code that is read by eye.
"""

import re
from collections import Counter
from collections.abc import Iterator

from page_rules import verdict
from page_rules.sources import lines_by_function, without_comments
from page_rules.tree import Finding, Tree

PAGE = "docs/proof/TRUSTED.md"
LOOPBACK = "crates/netrev/src/loopback.rt"

# for each call on a raw stream, on its wrapper, or on a log: the functions that make it, and how many times each makes
# it
CALLS: dict[str, dict[str, int]] = {
    ".read(": {"LoggedReader::read": 1, "Source::read": 1, "answer_by": 1, "read_away": 1},
    ".write(": {"LoggedWriter::write": 1, "write_some": 1},
    ".into_inner(": {
        "Buffered::into_inner": 1,
        "Sink::into_inner": 1,
        "Source::into_inner": 1,
        "LoggedCallers::let_go": 2,
        "Page::take": 1,
    },
    "read_away(": {"LoggedCallers::let_go": 1},
    "end_replies(": {"LoggedCallers::let_go": 1},
    "connections.next(": {"LoggedCallers::next": 1},
    "ports.open(": {"LoggedPorts::open": 1, "open_ports": 1},
    ".give_up(": {"write_some": 1, "Source::read": 1, "Source::give_up": 1, "answer_by": 1, "serve_one": 1},
    ".calls.and(": {
        "LoggedReader::read": 1,
        "LoggedReader::give_up": 1,
        "LoggedWriter::write": 1,
        "LoggedWriter::give_up": 1,
    },
    ".moments.and(": {"LoggedReader::read": 1},
    ".conversations.and(": {"LoggedCallers::let_go": 1},
    ".arrived(": {"LoggedCallers::next": 3, "LoggedCallers::give_up": 1, "Callers::note": 1},
    ".fronts.opened(": {"LoggedPorts::open": 1},
    ".fronts.ended(": {"LoggedPorts::end": 1},
    ".log.opened(": {"Loopback::open": 1},
    ".accept(": {"Callers::accept": 1, "Callers::next": 1},
    "rt.stdin(": {"run_program": 1},
    "rt.stdout(": {"run_program": 1, "main": 1},
    "rt.stderr(": {"main": 1},
    ".forever(": {},
}

# a contract checks the log entries of these functions; people must check the other functions above by reading them
HELD = {
    "Buffered::into_inner",
    "LoggedCallers::give_up",
    "LoggedPorts::end",
    "LoggedPorts::open",
    "LoggedReader::give_up",
    "LoggedWriter::give_up",
    "Page::take",
    "Sink::into_inner",
    "Source::give_up",
    "Source::into_inner",
    "Source::read",
    "answer_by",
    "open_ports",
    "read_away",
    "serve_one",
    "write_some",
}
# a function that makes none of these calls but is read by eye too, because it joins functions that do
JOINS = {"LoggedCallers::serve_next"}
# files whose whole code is read by eye
FILES = {LOOPBACK, "crates/netrev/src/main.rt"}

HEADING = "## Code read by eye"
ROW = re.compile(r"^\| `([\w:./]+)`", re.MULTILINE)


def _count(call: str, line: str) -> int:
    """How often a line calls a method or a function with this name."""
    before = "" if call.startswith(".") else r"(?<!\w)"
    return 0 if re.search(rf"\bfn {re.escape(call)}", line) else len(re.findall(before + re.escape(call), line))


def _made(tree: Tree) -> dict[str, Counter[tuple[str, str]]]:
    """For each file, the functions that make each call, and how often."""
    calls_by_name: dict[str, Counter[tuple[str, str]]] = {call: Counter() for call in CALLS}
    for crate in verdict.below(tree, verdict.PROGRAM):
        for path in tree.matching(f"crates/{crate}/src/*.rt"):
            for function, line in lines_by_function(without_comments(tree.text(path))):
                for call, functions in calls_by_name.items():
                    if count := _count(call, line):
                        functions[path, function] += count
    return calls_by_name


def _by_eye(tree: Tree, calls_by_name: dict[str, Counter[tuple[str, str]]]) -> Iterator[Finding]:
    """Code that must be reviewed by hand but is missing from TRUSTED's table, and rows of the table that need no
    review."""
    text = tree.text(PAGE)
    if HEADING not in text:
        return
    rows = set(ROW.findall(text.partition(HEADING)[2].partition("\n## ")[0]))
    wanted = {
        path if path in FILES else function
        for functions in calls_by_name.values()
        for path, function in functions
        if function not in HELD
    }
    wanted = (wanted | (JOINS if wanted else set())) - {"crates/netrev/src/main.rt"}
    for name in sorted(wanted - rows):
        yield Finding(
            PAGE,
            1,
            f"{name} reaches a stream, a caller or a log, and is missing from the table of code that is read by eye",
        )
    for name in sorted(rows - wanted):
        yield Finding(PAGE, 1, f"{name} is in the table of code that is read by eye, but makes no such call")


def raw_calls(tree: Tree) -> Iterator[Finding]:
    """Calls that bypass the logs, calls that a function makes more or less often than listed, and differences from
    TRUSTED's table."""
    calls_by_name = _made(tree)
    for call, functions in calls_by_name.items():
        wanted = CALLS[call]
        counted: Counter[str] = Counter()
        for (path, function), count in functions.items():
            counted[function] += count
            if count > wanted.get(function, 0):
                yield Finding(
                    path,
                    1,
                    f"{call} stands {count} times in {function or 'no function'}, and {wanted.get(function, 0)} are known ({PAGE})",
                )
        if tree.matching("crates/nr_text/src/logged.rt"):
            for function, count in wanted.items():
                if counted[function] < count:
                    yield Finding(PAGE, 1, f"{call} stands {counted[function]} times in {function}, and not {count}")
    yield from _by_eye(tree, calls_by_name)
