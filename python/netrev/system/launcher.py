"""The command `netrev` of a pip installation. pip doesn't install the proved program, so this command runs a program
that it finds, or says how to get one."""

import os
import sys

from .program_path import netrev_program

MISSING = (
    "the proved program `netrev` is missing: install the Debian package or archive, or name the program with NETREV"
)
FAILED = 3


def main() -> int:
    """Replaces this process with netrev. If netrev is missing or can't be started, returns an exit status."""
    program = netrev_program()
    if program is None:
        print(MISSING, file=sys.stderr)
        return FAILED
    try:
        os.execv(program, [program, *sys.argv[1:]])
    except OSError as fault:
        print(f"the program {program!r} can't be started: {fault.strerror}", file=sys.stderr)
        return FAILED
