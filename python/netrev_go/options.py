"""The command line of `netrev-go`."""

from __future__ import annotations

import argparse
from collections.abc import Callable
from typing import NoReturn

from netrev.messages import recorder as messages
from netrev.system.version import VERSION

from .go_command.running import MOST_POINTS
from .go_command.toolchain import RecorderError
from .log.sockets import FEW_BYTES, MOST_MEGABYTES, MOST_SOCKETS
from .log.times import seconds
from .usage import SUMMARY, USAGES

LEAST_POINTS, GREATEST_POINTS = 2**14, 2**24
GREATEST_MEGABYTES, MOST_PROCESSORS, MOST_SECONDS, MOST_RUNS, GREATEST_SEED = (
    2**20,
    2**10,
    10**9,
    10**6,
    10**8,
)
SUSPECTS, POSSIBLE = "suspects", "possible"
COMMANDS = tuple(USAGES)
OF_TESTS = "all runs until_failure seconds explore json github junit html delays".split()
HELP_WORDS = ("-h", "-help", "--help")
OptionGroup = Callable[[argparse._ArgumentGroup], object]


def failing_words(text: str) -> list[str]:
    words = text.split(",")
    if not set(words) <= {SUSPECTS, POSSIBLE}:
        raise argparse.ArgumentTypeError(messages.FAIL_ON.format(suspects=SUSPECTS, possible=POSSIBLE))
    return words


def add_files(group: argparse._ArgumentGroup) -> None:
    """Adds the options for output files."""
    group.add_argument(
        "-o", metavar="NAME", help="write NAME.jsonl and NAME.where; for tests, write below the folder NAME"
    )
    group.add_argument("--words", action="store_true", help="write Go's lock words to NAME.words too")


def add_logs(group: argparse._ArgumentGroup) -> None:
    """Adds the option for keeping logs, which are removed otherwise."""
    group.add_argument("--keep", action="store_true", help="keep the logs, and print their folder")


def add_status(group: argparse._ArgumentGroup) -> None:
    """Adds the options for the exit status."""
    group.add_argument(
        "--fail-on", metavar="WHAT", type=failing_words,
        help="exit with 3 instead of 0 if there are `suspects`, or `possible` findings of --explore",
    )  # fmt: skip
    group.add_argument(
        "--strict", action="store_true", help="exit with 5 instead of 0 if something couldn't be recorded"
    )


def add_run(group: argparse._ArgumentGroup) -> None:
    """Adds the options for how a program runs, and what it records."""
    group.add_argument("-n", metavar="SECONDS", type=float, help="send SIGQUIT to a program that runs longer than this")
    group.add_argument("--procs", metavar="N", type=int, help="set GOMAXPROCS")
    group.add_argument(
        "--points", metavar="N", type=int, default=MOST_POINTS,
        help=f"keep the newest N points in the log, 64 bytes each ({MOST_POINTS:,} by default)",
    )  # fmt: skip
    group.add_argument("--no-lines", action="store_true", help="don't record source lines")
    group.add_argument(
        "--no-orders", action="store_true", help="don't record channels, nor which goroutine wakes which"
    )


def add_recording(group: argparse._ArgumentGroup) -> None:
    """Adds the options for the contents of a recording."""
    group.add_argument(
        "--sockets", metavar="N", type=int, default=MOST_SOCKETS,
        help="keep at most N sockets: those still open first, then the newest",
    )  # fmt: skip
    group.add_argument(
        "--all-bytes", action="store_true", help=f"count all bytes of a read or a write, not only the first {FEW_BYTES}"
    )
    group.add_argument(
        "--megabytes", metavar="N", type=int, default=MOST_MEGABYTES,
        help="write at most N MB of text for the bytes of reads and writes",
    )  # fmt: skip


def add_convert(group: argparse._ArgumentGroup) -> None:
    """Adds the options that only `convert` has."""
    group.add_argument("--pid", metavar="PID", type=int, help="convert the log of this process")


def add_watch(group: argparse._ActionsContainer) -> None:
    """Adds the options that only `watch` has."""
    group.add_argument(
        "--stuck", metavar="TIME", type=seconds, default=5.0,
        help="make a recording when a call has waited so long, as 5s, 500ms or 2m (5s by default)",
    )  # fmt: skip
    group.add_argument("--writes", action="store_true", help="ignore calls that read: idle goroutines wait in them")


def add_tests(group: argparse._ArgumentGroup) -> None:
    """Adds the options that only `test` has."""
    group.add_argument("--all", action="store_true", help="keep a recording of each test, not only of failing tests")
    group.add_argument("--runs", metavar="N", type=int, help="run the tests N times")
    group.add_argument("--until-failure", action="store_true", help="run the tests again until one fails")
    group.add_argument("--seconds", metavar="S", type=float, help="run the tests again for S seconds")
    group.add_argument(
        "--delays", metavar="SEED", type=int, help="delay goroutines briefly, at random points chosen by the seed"
    )
    group.add_argument(
        "--explore", metavar="S", type=float,
        help="if all tests pass, explore other schedules of their recordings for S seconds",
    )  # fmt: skip
    group.add_argument("--json", metavar="FILE", help="write a line of JSON for each test; - means standard output")
    group.add_argument("--junit", metavar="FILE", help="write JUnit XML; - means standard output")
    group.add_argument("--github", action="store_true", help="print a GitHub annotation for each failing test")
    group.add_argument("--html", action="store_true", help="write a page with the timeline beside each recording")


GROUPS: dict[str, tuple[str, OptionGroup]] = {
    "files": ("files", add_files),
    "logs": ("logs", add_logs),
    "status": ("exit status", add_status),
    "run": ("the run", add_run),
    "recording": ("the recording", add_recording),
    "convert": ("only for `convert`", add_convert),
    "watch": ("only for `watch`", add_watch),
    "test": ("only for `test`", add_tests),
}


class Parser(argparse.ArgumentParser):
    """Parses netrev-go's command line; usage errors point to the help."""

    def error(self, message: str) -> NoReturn:
        what = messages.NO_COMMAND if message.startswith("the following arguments are required") else message
        self.exit(2, messages.USAGE_ERROR.format(what=what))


def parser() -> argparse.ArgumentParser:
    arguments = Parser(
        prog="netrev-go", usage=argparse.SUPPRESS, description=SUMMARY, add_help=False,
        formatter_class=argparse.RawDescriptionHelpFormatter,
    )  # fmt: skip
    about = arguments.add_argument_group("about netrev-go")
    about.add_argument("-h", "--help", action="help", help="print this help")
    about.add_argument("--version", action="version", version=f"netrev-go {VERSION}", help="print the version")
    for title, add in GROUPS.values():
        add(arguments.add_argument_group(title))
    arguments.add_argument("command", choices=COMMANDS, metavar="COMMAND", help=argparse.SUPPRESS)
    arguments.add_argument("words_of_go", nargs=argparse.REMAINDER, metavar="WORDS", help=argparse.SUPPRESS)
    return arguments


def of_a_process(options: argparse.Namespace) -> None:
    """Parses the words of a command that takes a process: its number, and the command's own options."""
    arguments = Parser(usage=argparse.SUPPRESS, add_help=False)
    arguments.add_argument("pid", metavar="PID", type=int)
    if options.command == "watch":
        add_watch(arguments)
    arguments.parse_args(options.words_of_go, options)


def help_of(command: str) -> str:
    """The help of a command: an example, and its options."""
    usage = USAGES[command]
    heads = [usage.does, usage.example, *([f"Options, which come before `{command}`:"] if usage.options else [])]
    arguments = argparse.ArgumentParser(
        usage=usage.call, description="\n\n".join(heads), epilog=usage.more, add_help=False,
        formatter_class=argparse.RawDescriptionHelpFormatter,
    )  # fmt: skip
    for name in usage.options:
        title, add = GROUPS[name]
        add(arguments.add_argument_group(title))
    return arguments.format_help().rstrip("\n")


def asks_for_help(options: argparse.Namespace) -> bool:
    """Whether the user asks for a command's own help: `netrev-go run --help`."""
    return options.words_of_go[:1] != [] and options.words_of_go[0] in HELP_WORDS


LIMITS = (
    ("points", LEAST_POINTS, GREATEST_POINTS),
    ("sockets", 1, MOST_SOCKETS),
    ("megabytes", 1, GREATEST_MEGABYTES),
    ("procs", 1, MOST_PROCESSORS),
    ("n", 0, MOST_SECONDS),
    ("runs", 1, MOST_RUNS),
    ("seconds", 0, MOST_SECONDS),
    ("explore", 0, MOST_SECONDS),
    ("delays", 1, GREATEST_SEED),
)


def check(options: argparse.Namespace) -> None:
    """Raises RecorderError if an option has an unusable value."""
    for name, least, most in LIMITS:
        given = getattr(options, name)
        if given is not None and not least <= given <= most:
            option = f"{'-' if len(name) == 1 else '--'}{name}"
            raise RecorderError(messages.OUT_OF_RANGE.format(option=option, least=least, most=most))
    if options.command == "test":
        if options.github and any(word in ("-json", "--json", "-json=true") for word in options.words_of_go):
            raise RecorderError(messages.TWO_ON_STANDARD_OUTPUT)
        return
    for name in OF_TESTS:
        if getattr(options, name) not in (None, False):
            raise RecorderError(messages.ONLY_FOR_TESTS.format(option=f"--{name.replace('_', '-')}"))
