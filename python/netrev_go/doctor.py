"""`netrev-go doctor`: reports which requirements are met, and whether the installed Go can be recorded."""

from __future__ import annotations

import tempfile

from netrev.messages import recorder as messages
from netrev.system.command_lines import how_to_get_netrev
from netrev.system.program_path import netrev_program

from .go_command.calls_of_go import unknown_calls
from .go_command.line_reader import build_line_reader
from .go_command.running import MOST_POINTS, logs_folder
from .go_command.toolchain import WITHOUT, Go, RecorderError, cache, find_go, fit, overlay, tried
from .release_check import trial


def doctor() -> int:
    """Prints a line for each requirement; the status is 1 if a requirement isn't met."""
    try:
        go = find_go()
        words = {"version": go.version, "system": go.system, "folder": go.root, "tried": tried(go.version)}
        print(messages.DOCTOR_GO.format(**words))
        fits = rules_fit(go)
    except RecorderError as trouble:
        print(messages.DOCTOR_NO_GO.format(why=trouble))
        return 1
    room, writable = has_room(), can_write()
    netrev = netrev_program()
    print(messages.CHECKED_BY.format(netrev=netrev or messages.CHECKED_BY_NOTHING.format(how=how_to_get_netrev())))
    return 0 if fits and room and writable and tries_well(go) else 1


def rules_fit(go: Go) -> bool:
    """Prints how each rule fits, and which of Go's calls no rule covers."""
    fits, rules = fit(go)
    for rule in rules:
        print(f"  {rule}")
    without = [rule for rule in rules if rule.startswith(WITHOUT)]
    if not fits:
        print(messages.RULES_UNFIT.format(how=messages.HOW_TO_INSTALL))
    elif without:
        print(messages.RULES_LEFT_OUT.format(count=len(without)))
    else:
        print(messages.RULES_FIT)
    if unknown := unknown_calls(go):
        print(messages.CALLS_UNKNOWN.format(calls=", ".join(unknown)))
    return fits


def has_room() -> bool:
    """Whether the logs have room."""
    try:
        folder = logs_folder(MOST_POINTS)
    except RecorderError as trouble:
        print(messages.ROOM_MISSING.format(why=trouble))
        return False
    print(messages.ROOM.format(folder=folder.parent))
    folder.rmdir()
    return True


def can_write() -> bool:
    """Whether overlays can be stored."""
    try:
        cache().mkdir(parents=True, exist_ok=True)
        with tempfile.TemporaryFile(dir=cache()):
            pass
    except OSError as fault:
        why = messages.CACHE_UNUSABLE.format(folder=cache(), why=fault.strerror)
        print(messages.CACHE_MISSING.format(why=why))
        return False
    print(messages.CACHE.format(folder=cache()))
    return True


def reads_lines(go: Go) -> str:
    """The message that names the program that reads source lines; builds the program if it is missing."""
    try:
        return messages.LINES_READ_BY.format(program=build_line_reader(go))
    except RecorderError as trouble:
        return messages.LINES_NOT_READ.format(why=trouble)


def tries_well(go: Go) -> bool:
    """Whether the changed files compile, and a trial program is recorded correctly."""
    try:
        overlay(go)
    except RecorderError as trouble:
        print(messages.NOT_COMPILED.format(why=trouble))
        return False
    print(messages.COMPILED)
    print(messages.LINES.format(how=reads_lines(go)))
    result = trial(go)
    print((messages.TRIAL_GOOD if result.good else messages.TRIAL_BAD).format(how=result.said))
    return result.good
