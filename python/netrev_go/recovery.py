"""`netrev-go recover`: makes recordings of runs whose netrev-go was killed. Other commands print a line that suggests
this command."""

from __future__ import annotations

import argparse
import pathlib
import shlex

from netrev.messages import recorder as messages
from netrev.system.command_lines import command
from netrev.text.plain import plain
from netrev.text.plurals import counted

from .go_command.outputs import look
from .go_command.run_folders import KEPT, LeftRun, left_runs, outermost, take_over
from .go_command.running import logs_in
from .go_command.status import ExitStatus
from .go_command.terminal import complain, say
from .go_command.toolchain import Go
from .recordings import RecordingMaker, words_for
from .steps.conversion import RecordingOptions

LONGEST_COMMAND = 60


def named(run: LeftRun) -> str:
    """A short description of a run."""
    words = plain(run.command)
    return f"`{words if len(words) <= LONGEST_COMMAND else words[:LONGEST_COMMAND] + '..'}` of {run.when()}"


def name_kept() -> None:
    """Prints one line if logs are kept, with the commands that convert and delete them."""
    if runs := left_runs(KEPT):
        last = named(runs[-1])
        what = last if len(runs) == 1 else messages.SEVERAL_RUNS.format(count=len(runs), last=last)
        logs = " ".join(words_for(run.folder, logs_in(run.folder)) for run in runs)
        folders = shlex.join(str(outermost(run.folder)) for run in runs)
        words = {"runs": what, "netrev_go": command("netrev-go"), "logs": logs, "folders": folders}
        complain(messages.LOGS_ARE_KEPT.format(**words))


def offer() -> None:
    """Prints one line if logs are left of a run that was interrupted, and one if logs are kept."""
    name_kept()
    runs = left_runs()
    if not runs:
        return
    last, is_one = named(runs[-1]), len(runs) == 1
    what = messages.ONE_WAS.format(last=last) if is_one else messages.SEVERAL_WERE.format(count=len(runs), last=last)
    discard = messages.DISCARD.format(folder=shlex.quote(str(outermost(runs[-1].folder)))) if is_one else ""
    complain(messages.RUNS_WERE_INTERRUPTED.format(runs=what, netrev_go=command("netrev-go")) + discard)


def recover(options: argparse.Namespace, base: pathlib.Path, go: Go | None, recording_options: RecordingOptions) -> int:
    """Makes recordings of all interrupted runs, and removes the logs whose recordings netrev accepts."""
    look(base, options.o is not None, "")
    name_kept()
    runs = [run for run in left_runs() if take_over(run)]
    if not runs:
        say([messages.NONE_INTERRUPTED])
    status, count = ExitStatus.DONE, 0
    for run in runs:
        say([f"{named(run)}:"])
        making = RecordingMaker(run.folder, base, go, recording_options, count, options.o is not None)
        try:
            making.all(True)
        finally:
            making.leave(options.keep)
        count = making.count
        if making.trouble:
            status = ExitStatus.TROUBLE
        elif not making.all_taken:
            status = status or ExitStatus.REFUSED
    if len(runs) > 1:
        say([messages.RECOVERED.format(recordings=counted(count, "recording"), runs=len(runs))])
    return status
