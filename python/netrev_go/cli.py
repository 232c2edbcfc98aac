"""The command `netrev-go`."""

from __future__ import annotations

import argparse
import gc
import pathlib
import shlex
import subprocess
import sys

from netrev.messages import recorder as messages
from netrev.system.command_lines import command

from .doctor import doctor
from .go_command.outputs import base_name, look, numbered
from .go_command.process_logs import ProcessLog, log_of_process
from .go_command.run_folders import claim, own_folder
from .go_command.running import GoRunner, limits_of, logs_folder, relative_to_folder, shell_status
from .go_command.status import ExitStatus
from .go_command.terminal import complain, say
from .go_command.toolchain import Go, RecorderError, find_go
from .go_test import record_tests
from .options import POSSIBLE, SUSPECTS, asks_for_help, check, help_of, of_a_process, parser
from .recordings import RecordingMaker, ReportPrinter, unwritten
from .recovery import offer, recover
from .release_check import ready
from .snapshots import snapshot, watch
from .steps.conversion import RecordingOptions, convert, more_endings

KNOWN: list[object] = []  # data of the last converted log; kept until exit, because freeing it is slow


def flags(go: Go, words: list[str]) -> list[str]:
    """The flags that make Go's command record. They disable inlining into the named packages, so that source lines are
    exact."""
    if any(word.lstrip("-").startswith("overlay") for word in words if word.startswith("-")) or "-overlay" in go.flags:
        raise RecorderError(messages.OVERLAY_IS_TAKEN)
    own = any(word.lstrip("-").startswith("gcflags") for word in words if word.startswith("-"))
    return ["-overlay", str(ready(go)), *([] if own else ["-gcflags=-l"])]


def record(options: argparse.Namespace, go: Go) -> int:
    """Runs Go's command, and makes recordings of the programs that ran. Returns Go's own status, unless an option asks
    for another."""
    words = options.words_of_go
    once = ["-count=1"] if options.command == "test" else []
    command = [go.program, options.command, *relative_to_folder(words, [*flags(go, words), *once])]
    if options.command == "test":
        results = record_tests(options, go, command, wish_of(options))
        bad = (
            results.suspected
            and SUSPECTS in (options.fail_on or ())
            or results.possible
            and POSSIBLE in (options.fail_on or ())
        )
        return status_of(results.status, bad, options.strict and not results.all_recorded)
    base, is_typed = base_name(options.o), options.o is not None
    look(base, is_typed)
    folder = claim(logs_folder(options.points))
    making = RecordingMaker(folder, base, go, wish_of(options), is_typed=is_typed)
    try:
        status = shell_status(GoRunner(command, folder, limits_of(options)).wait(making.so_far))
        making.all(status != 0)
        bad = making.suspected and SUSPECTS in (options.fail_on or ())
        return status_of(status, bad, options.strict and (making.trouble or not making.all_taken))
    finally:
        making.leave(options.keep)


def status_of(status: int, is_suspected: bool, is_unrecorded: bool) -> int:
    """The exit status: Go's own, unless that is 0."""
    if status:
        return status
    return ExitStatus.SUSPECTED if is_suspected else ExitStatus.UNRECORDED if is_unrecorded else ExitStatus.DONE


def wish_of(options: argparse.Namespace) -> RecordingOptions:
    return RecordingOptions(options.sockets, options.megabytes, options.words, options.all_bytes)


def go_if_any() -> Go | None:
    """The installed Go; without one a recording has no source lines."""
    try:
        return find_go()
    except RecorderError:
        return None


def convert_log(options: argparse.Namespace) -> int:
    """Makes recordings of logs. A log that can't be converted doesn't affect the others."""
    logs = [ProcessLog(pathlib.Path(word)) for word in options.words_of_go]
    written = len(logs)  # the place of the log that a process writes
    if options.pid is not None:
        logs.append(log_of_process(options.pid))
    if not logs:
        print(messages.NO_LOG_GIVEN, file=sys.stderr)
        return ExitStatus.USAGE
    base = base_name(options.o, (logs[0].path.name if len(logs) == 1 else "") or "recording")
    go = go_if_any()
    status: int = ExitStatus.DONE
    for index, log in enumerate(logs, 1):
        KNOWN.clear()
        wish, saying = wish_of(options), ReportPrinter(log.head(), stream=sys.stdout)
        name = numbered(base, index, options.o is not None, more_endings(wish))
        try:
            outcome = convert(log.path, name, go, wish, KNOWN, saying.hear, options.pid if index > written else None)
        except OSError as fault:
            complain(unwritten(name, fault))
            status = ExitStatus.TROUBLE
            continue
        saying.rest(outcome.lines)
        status = status or (ExitStatus.DONE if outcome.taken else ExitStatus.REFUSED)
    return status


def build(options: argparse.Namespace, go: Go) -> int:
    words = options.words_of_go
    run = subprocess.run([go.program, "build", *relative_to_folder(words, flags(go, words))], check=False)
    if run.returncode == 0:
        say([messages.BUILT.format(netrev_go=command("netrev-go"))])
    return shell_status(run.returncode)


def env(go: Go) -> int:
    path = str(ready(go))
    if any(c.isspace() for c in path):
        raise RecorderError(messages.SPACE_IN_PATH.format(path=path))
    print(f"export GOFLAGS={shlex.quote(f'{go.flags} -overlay={path} -count=1'.strip())}")
    print(f"export NETREV_LOG={shlex.quote(f'{own_folder()}/log')} NETREV_KEEP=all")
    return ExitStatus.DONE


def main(arguments: list[str] | None = None) -> int:
    options = parser().parse_args(arguments)
    gc.disable()  # a log has millions of small objects, and no cycles among them
    try:
        if asks_for_help(options):
            say([help_of(options.command)], sys.stdout)
            return ExitStatus.DONE
        check(options)
        if options.command == "recover":
            return recover(options, base_name(options.o, "recovered"), go_if_any(), wish_of(options))
        offer()
        if options.command == "convert":
            return convert_log(options)
        if options.command in ("snapshot", "watch"):
            of_a_process(options)
            of_now = snapshot if options.command == "snapshot" else watch
            return of_now(options, go_if_any(), wish_of(options), KNOWN)
        if options.command == "doctor":
            return doctor()
        go = find_go()
        if options.command == "build":
            return build(options, go)
        return env(go) if options.command == "env" else record(options, go)
    except RecorderError as trouble:
        complain(str(trouble))
        return ExitStatus.TROUBLE
    except MemoryError:
        KNOWN.clear()
        complain(messages.OUT_OF_MEMORY)
        return ExitStatus.REFUSED
    except KeyboardInterrupt:
        complain(messages.INTERRUPTED)
        return ExitStatus.INTERRUPTED
