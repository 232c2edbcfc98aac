"""The command line of nrdb."""

import argparse
from collections.abc import Sequence
from typing import Any, NoReturn

from netrev.system.command_lines import file_word
from netrev.system.program_path import BUILT, netrev_program
from netrev.system.provenance import program_lines
from netrev.system.version import VERSION
from netrev.text.plain import plain
from netrev.text.vocabulary import number_of

DESCRIPTION = """\
Debug a recorded run of a Go program's goroutines, sockets and deadlines, forwards and backwards. nrdb runs netrev, the proved
debugger, and shows its answers; lines that nrdb adds are unproved and begin with `|`."""
EXAMPLE = """\
example: what went wrong in a test that netrev-go recorded, and what led to it
  nrdb recordings/toy.TestRed.jsonl -ex 'info suspects'

At the prompt, `help` lists the commands."""


class InOrder(argparse.Action):
    """Keeps -x and -ex in the order in which they were given."""

    def __call__(self, _parser: Any, space: argparse.Namespace, value: Any, _option: str | None = None) -> None:
        space.lines = [*(space.lines or []), (self.const, value)]


class Words(argparse.ArgumentParser):
    """Parses the command line, and reports errors."""

    def error(self, message: str) -> NoReturn:
        super().error(plain(message))


class Version(argparse.Action):
    """Prints nrdb's version and the path of the netrev that it would run, and exits."""

    def __call__(self, parser: argparse.ArgumentParser, space: argparse.Namespace, *_: object) -> NoReturn:
        print("\n".join([f"nrdb {VERSION}", *program_lines(space.netrev)]))
        parser.exit()


def parser() -> Words:
    """The options of nrdb."""
    options = Words(
        prog="nrdb", description=DESCRIPTION, epilog=EXAMPLE, formatter_class=argparse.RawDescriptionHelpFormatter
    )
    options.add_argument("--version", nargs=0, action=Version, help="print the versions of nrdb and netrev, and exit")
    options.add_argument("file", nargs="?", metavar="FILE", help="the recording")
    options.add_argument(
        "-x", dest="lines", action=InOrder, const="source", metavar="FILE", help="run the commands in FILE"
    )
    options.add_argument("-ex", dest="lines", action=InOrder, const="line", metavar="COMMAND", help="run COMMAND")
    options.add_argument("--batch", "-batch", action="store_true", help="exit after -x and -ex instead of prompting")
    options.add_argument("--json", action="store_true", help="print a line of JSON for each event")
    options.add_argument(
        "--suspects",
        action="store_true",
        help="print the suspects after -x and -ex, and exit; the status is 4 if there are any",
    )
    options.add_argument(
        "--timeline",
        metavar="OUT.html [FROM TO]",
        help="write the timeline after -x and -ex, and exit; FROM TO limits the values to these positions",
    )
    options.add_argument("--trace", metavar="OUT.json", help="write all steps for Perfetto after -x and -ex, and exit")
    options.add_argument(
        "--reduce", metavar="OUT.jsonl", help="write the smallest recording that still has the first suspect, and exit"
    )
    options.add_argument(
        "--explore",
        action="store_true",
        help="run schedules near the recorded one after -x and -ex, print those that end with a suspect, and exit; the status is 4 if "
        "there are any",
    )
    options.add_argument("--join", metavar="HOST:PORT", help="join a session that `netrev serve` shares")
    options.add_argument(
        "--dap", action="store_true", help="serve an editor over standard input and output (Debug Adapter Protocol)"
    )
    options.add_argument(
        "--dap-port",
        metavar="PORT",
        type=int,
        help="serve editors on a port of 127.0.0.1, one after the other; a launch needs the token that is printed",
    )
    options.add_argument(
        "--web",
        metavar="PORT",
        type=int,
        help="serve a page for browsers on a port of 127.0.0.1 instead of prompting",
    )
    options.add_argument("--netrev", default=netrev_program() or str(BUILT), metavar="PROGRAM", help="netrev's program")
    return options


def parsed(words: Sequence[str]) -> argparse.Namespace:
    """The parsed command line. Two numbers after the file of --timeline are the beginning and the end of the part to
    show."""
    at = words.index("--timeline") + 2 if "--timeline" in words else len(words)
    part = [number for word in words[at : at + 2] if (number := number_of(word)) is not None]
    if len(part) < 2:
        part = []
    wanted = parser().parse_args([*words[:at], *words[at + len(part) :]])
    wanted.part = part
    wanted.file = wanted.file and file_word(wanted.file)
    return wanted
