"""The command line of nrdb. Its exit statuses are netrev's: 0 done, 1 the recording was refused, 2 usage error, 3 the
file, the program or the connection failed. nrdb adds 4 for findings of --suspects or --explore.
Modules that few sessions need are imported on first use, so that the prompt appears sooner."""

import argparse
import gc
import io
import os
import re
import shlex
import shutil
import sys
from collections.abc import Callable, Sequence
from contextlib import ExitStack, closing, nullcontext
from functools import partial

from netrev.connection.arriving_changes import ArrivingChanges
from netrev.connection.errors import MismatchedRecordingError, unexpected
from netrev.connection.netrev import Netrev, NetrevEndedError, NetrevProcess, Reply, ServedSession
from netrev.connection.output import JsonPrinter, Printer, TextPrinter, has_colours
from netrev.connection.scout import Scout, ScoutUnavailableError
from netrev.connection.shapes import POSITION, LineRefusedError, StrangeReplyError
from netrev.messages import session as messages
from netrev.recording.recording import NotARecordingError, Recording
from netrev.recording.suspect_list import SuspectList
from netrev.session.queries import answer_run, lines_together, runs_of
from netrev.session.refusals import explained, fault_of
from netrev.session.session import Session, UsageError
from netrev.system.command_lines import how_to_get_netrev, make_command
from netrev.system.interrupts import Interrupts, SearchInterruptedError, SessionAbandonedError

from .options import parsed, parser
from .prompt.answers import ANSWERS

DONE, REFUSED, USAGE, FAILED, SUSPECTS = range(5)
FAULT = re.compile(r"((line|step) \d+: )?fault \d+")  # the beginning of netrev's reply if it rejects a recording


def main(words: Sequence[str] | None = None) -> int:
    """Runs nrdb with these arguments, and returns the exit status."""
    gc.set_threshold(200_000)  # (a recording of a million steps makes millions of objects, few of them in cycles)
    wanted = parsed(sys.argv[1:] if words is None else words)
    if wanted.dap or wanted.dap_port is not None:
        from .dap import serve_port, serve_streams

        return serve_streams(wanted.netrev) if wanted.dap_port is None else serve_port(wanted.netrev, wanted.dap_port)
    if not wanted.file and not wanted.join:
        parser().error(messages.NO_RECORDING_GIVEN)
    for stream in (sys.stdin, sys.stdout):
        if isinstance(stream, io.TextIOWrapper):
            stream.reconfigure(errors="surrogateescape")  # bytes that aren't UTF-8 are passed on unchanged
    printer = JsonPrinter() if wanted.json else TextPrinter(is_coloured=has_colours())
    try:
        return run(wanted, printer)
    except OSError as error:  # Runs the requested session, reports how the session ended, and returns the exit status.
        sys.stdout = open(os.devnull, "w", encoding="utf-8")
        if not isinstance(error, BrokenPipeError):
            print(messages.STANDARD_OUTPUT.format(why=error.strerror), file=sys.stderr)
        return FAILED


def run(wanted: argparse.Namespace, printer: Printer) -> int:
    """Runs the requested session, reports how the session ended, and returns the exit status."""
    try:
        status = start(wanted, printer)
    except NetrevEndedError:
        printer.note(messages.NETREV_ENDED)
        status = FAILED
    except (ScoutUnavailableError, MismatchedRecordingError, NotARecordingError, StrangeReplyError) as wrong:
        printer.note(str(wrong))
        status = FAILED
    except (SessionAbandonedError, KeyboardInterrupt):
        printer.note(messages.NETREV_IS_SILENT)
        status = FAILED
    except BrokenPipeError:
        raise
    except OSError as error:
        printer.note(f"{error.filename or wanted.join or wanted.file}: {error.strerror or error}")
        if error.filename == wanted.netrev:
            printer.note(without_netrev(wanted.file))
        status = FAILED
    except Exception as error:
        printer.note(unexpected(error))
        status = FAILED
    printer.end(status)
    return status


def without_netrev(file: str | None) -> str:
    """The message that says what to do if the program netrev can't be started."""
    look = make_command(f"look FILE={shlex.quote(os.path.abspath(file))}") if file else None
    how = how_to_get_netrev("NETREV or --netrev")
    return messages.NETREV_UNPROVED.format(how=how, look=look) if look else messages.NETREV_IS_MISSING.format(how=how)


def start(wanted: argparse.Namespace, printer: Printer) -> int:
    """Opens the requested session, runs it to its end, and returns the exit status."""
    interrupts = Interrupts()
    with closing(opened(wanted, interrupts, printer)) as netrev:
        try:
            return begun(wanted, netrev, interrupts, printer)
        except BaseException:
            netrev.drop()
            raise


def begun(wanted: argparse.Namespace, netrev: Netrev, interrupts: Interrupts, printer: Printer) -> int:
    """Runs a session with this netrev to its end, and returns the exit status."""
    with ExitStack() as at_the_end:
        with interrupts.held(lambda: printer.note(messages.STILL_READING)) if has_prompt(wanted) else nullcontext():
            session = session_of(wanted, netrev, interrupts, printer)
            at_the_end.callback(drop_others, session)
            first = session.ask("info position")
        if not POSITION.fullmatch(first):
            return refused(wanted, netrev, first, printer)
        session.begin(first)
        if session.recording and session.recording.lines.fault:
            printer.note(session.recording.lines.why_unused(wanted.file))
        status = played(session, wanted)
    ended = known_status(netrev.close())
    status = status or (FAILED if session.errors else DONE)
    return status if wanted.web is not None else ended or status  # (the page may have started another netrev)


def known_status(status: int | None) -> int:
    """netrev's exit status; FAILED if it is none of netrev's."""
    return (status or DONE) if status in (None, DONE, REFUSED, USAGE, FAILED) else FAILED


def drop_others(session: Session) -> None:
    """Ends each netrev of a session, other than the one that answers its lines."""
    if session.scout and session.recorded:
        session.scout.drop()
        session.recorded.drop()
    if session.recording and session.recording.suspects:
        session.recording.suspects.drop()


def has_prompt(wanted: argparse.Namespace) -> bool:
    """Whether a user types at a terminal, where Ctrl-C may be meant for something other than the session."""
    ends = wanted.batch or wanted.suspects or wanted.explore or wanted.web is not None
    return sys.stdin.isatty() and not ends and all(getattr(wanted, name) is None for name in WRITERS)


def is_of_all(wanted: argparse.Namespace) -> bool:
    """Whether the output covers all steps, regardless of the position."""
    return bool(wanted.suspects or wanted.trace or wanted.timeline)


def session_of(wanted: argparse.Namespace, netrev: Netrev, interrupts: Interrupts, printer: Printer) -> Session:
    """The requested session, which hasn't begun yet."""
    recording = Recording.read(wanted.file) if wanted.file else None
    if wanted.join and wanted.file and (fault := fault_of(wanted.netrev, wanted.file)):
        raise NotARecordingError(messages.NOT_A_RECORDING.format(path=wanted.file, fault=fault))
    lent = netrev if is_of_all(wanted) and not wanted.lines and not wanted.join else None
    scout = Scout(lambda: NetrevProcess(wanted.netrev, wanted.file, interrupts), lent) if wanted.file else None
    # (in a batch, the output mustn't depend on how fast netrev runs)
    tell = printer.note if has_prompt(wanted) else lambda _: None
    recorded = ArrivingChanges(wanted.netrev, wanted.file, interrupts, tell) if wanted.file else None
    session = Session(netrev, recording, scout, printer, interrupts, ANSWERS, recorded=recorded)
    if recording and recorded and shutil.which(wanted.netrev):
        recording.changes = recorded
        recording.suspects = SuspectList(wanted.netrev, wanted.file, interrupts)
        if wanted.lines or is_of_all(wanted):
            recorded.prepare()  # (while the other netrev reads the recording)
    session.program, session.path = wanted.netrev, wanted.file or ""
    return session


def refused(wanted: argparse.Namespace, netrev: Netrev, first: str, printer: Printer) -> int:
    """Reports that netrev's first reply is a fault, explains a fault in a recording, and returns the exit status."""
    if not (first.startswith("fault ") if wanted.join else FAULT.match(first)):
        raise StrangeReplyError("info position", first)
    printer.reply("", Reply(first), "")
    for line in explained(wanted.netrev, wanted.file, first) if wanted.file else ():
        printer.note(line)
    return known_status(netrev.close()) or REFUSED


def opened(wanted: argparse.Namespace, interrupts: Interrupts, printer: Printer) -> Netrev:
    """A netrev of this session alone, or a connection to a shared session."""
    if wanted.join:
        return ServedSession(address(wanted.join), interrupts, lambda: printer.note(messages.NO_REPLY_YET))
    return NetrevProcess(wanted.netrev, wanted.file, interrupts)


def played(session: Session, wanted: argparse.Namespace) -> int:
    """Runs the lines of -x and -ex. Then prints the suspects, writes the timeline, or reads lines from the terminal or
    another input. Returns the exit status."""
    for sort, text in wanted.lines or ():
        if sort == "line":
            session.printer.echo(text)
        if not (session.run if sort == "line" else session.play)(text):
            return DONE
    if wanted.suspects:
        return unless_stopped(session, lambda: suspected(session))
    if wanted.explore:
        return unless_stopped(session, lambda: schedules_tried(session))
    for name, write in WRITERS.items():
        if (file := getattr(wanted, name)) is not None:
            return unless_stopped(session, partial(write_file, session, file, write, wanted.part))
    if wanted.web is not None:
        from .web import serve_page

        return serve_page(session, wanted.web, lambda printer: opened(wanted, session.interrupts, printer))
    if not wanted.batch:
        typed(session)
    return DONE


def unless_stopped(session: Session, work: Callable[[], int]) -> int:
    """The exit status of a task; FAILED if Ctrl-C interrupted the task or the task isn't possible."""
    try:
        with session.interrupts.held():
            return work()
    except (SearchInterruptedError, ScoutUnavailableError, UsageError, LineRefusedError) as stopped:
        session.printer.note(str(stopped) or messages.INTERRUPTED)
        return FAILED


def suspected(session: Session) -> int:
    """Prints the suspects, and returns the exit status."""
    from netrev.findings.suspects.table import suspects_table

    table = suspects_table(session.looks(), session.text())
    session.printer.table(table)
    return SUSPECTS if table.rows else DONE


def schedules_tried(session: Session) -> int:
    """Explores, and returns the exit status."""
    from netrev.explore import explored

    result = explored(session)
    session.printer.note(result.text)
    return SUSPECTS if result.found else DONE


def write_file(session: Session, path: str, write: Callable[..., str], part: Sequence[int]) -> int:
    """Writes a file, reports it, and returns the exit status. A timeline may show only a part of the recording."""
    session.printer.note(write(session, path, *part))
    return DONE


def timeline(session: Session, path: str, *part: int) -> str:
    from netrev.timeline import write_timeline

    return write_timeline(session, path, *part)


def trace(session: Session, path: str) -> str:
    from netrev.timeline import write_trace

    return write_trace(session, path)


def reduced(session: Session, path: str) -> str:
    from netrev.reduce import reduced_file

    return reduced_file(session, [path])


WRITERS: dict[str, Callable[..., str]] = {"timeline": timeline, "trace": trace, "reduce": reduced}


def typed(session: Session) -> None:
    """Reads lines from the terminal, or from another input."""
    if sys.stdin.isatty():
        if session.recorded:
            session.recorded.prepare()
        from .prompt.terminal import Terminal

        Terminal(session).run()
        return
    for lines in lines_together(sys.stdin):
        for run in runs_of(session, lines):
            if not run_typed(session, run):
                return


def run_typed(session: Session, run: Sequence[str]) -> bool:
    """Runs the lines of an input that isn't a terminal, and echoes each line first. Returns False if the session has
    ended."""
    if len(run) > 1:
        return session.guarded(lambda _: answer_run(session, run), "")
    session.printer.echo(run[0])
    return session.run(run[0])


def address(text: str) -> tuple[str, int]:
    """The host and the port of an address."""
    host, _, port = text.rpartition(":")
    if not (port.isascii() and port.isdigit() and len(port) < 6 and int(port) < 2**16):
        parser().error(messages.NOT_AN_ADDRESS.format(text=text))
    return host.strip("[]") or "127.0.0.1", int(port)
