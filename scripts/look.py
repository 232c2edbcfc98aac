#!/usr/bin/env python3
"""Opens nrdb's prompt on a recording, with a netrev that is compiled but not proved:  scripts/look.py FILE [SCRIPT]

With SCRIPT, netrev runs the commands in that file instead, as in `netrev run FILE < SCRIPT`.
"""

import os
import signal
import subprocess
import sys
from pathlib import Path

from unproved import ROOT, UnprovedError, unproved_netrev

BANNER = "Nothing of this netrev is proved: it was compiled without its proofs. `make run` proves it."
USAGE = "usage: scripts/look.py FILE [SCRIPT]"


def say(text: str) -> None:
    print(text, file=sys.stderr, flush=True)


def prompt(recording: Path) -> int:
    """Replaces this process with nrdb."""
    program = unproved_netrev(say)
    say(f"{BANNER} Ctrl-D ends the session.\n")
    os.execv(ROOT / "nrdb", [str(ROOT / "nrdb"), str(recording), "--netrev", str(program)])


def run(recording: Path, script: Path) -> int:
    """Runs the commands and returns netrev's status."""
    with open(script, "rb") as commands:
        status = subprocess.run([unproved_netrev(say), "run", recording], stdin=commands, check=False).returncode
    say(BANNER)
    return status


def main() -> int:
    if len(sys.argv) not in (2, 3):
        say(USAGE)
        return 2
    files = [Path(word).absolute() for word in sys.argv[1:]]
    for number in (signal.SIGTERM, signal.SIGHUP):  # end the compiler too
        signal.signal(number, lambda received, _: sys.exit(128 + received))
    try:
        for path in files:
            with open(path, "rb"):
                pass
        return prompt(*files) if len(files) == 1 else run(*files)
    except UnprovedError as error:
        say(f"look: {error}")
    except OSError as error:
        say(f"look: {error.filename}: {error.strerror}")
    except KeyboardInterrupt:
        return 130
    return 1


if __name__ == "__main__":
    sys.exit(main())
