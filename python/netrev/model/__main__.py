"""Runs the model instead of netrev:  python3 python netrev.model run|check|upgrade|changes|suspects FILE

It prints what netrev would print, unless the model can't decide that. It is unproved, and slow for long recordings.
Tests of nrdb that don't need a built netrev use it.
"""

import sys
from pathlib import Path

from netrev.machine.observer import Observer
from netrev.text.parser import FaultError

from .program import printed, replay
from .session import ModelSession, recording_of


def run(recording: bytes) -> int:
    """Answers the lines of standard input as they come."""
    try:
        replayed = replay(recording, Observer(), keeps_answers=False)
    except FaultError as fault:
        print(fault)
        return 1
    session = ModelSession(recording_of(replayed.text.steps, replayed.worlds), Observer())
    for line in sys.stdin.buffer:
        for reply in session.answer(line.removesuffix(b"\n")) or ():
            print(reply)
        sys.stdout.flush()
        if session.has_ended:
            break
    return 0


def main(words: list[str]) -> int:
    """Runs the requested subcommand and returns the exit status."""
    if len(words) != 2 or words[0] not in ("run", "check", "upgrade", "changes", "suspects"):
        print(__doc__, file=sys.stderr)
        return 2
    program, path = words
    try:
        recording = Path(path).read_bytes()
    except OSError:
        return 3
    if program == "run":
        return run(recording)
    ended = printed(program, recording, b"", Observer())
    if ended is None:
        print("the model can't decide about this recording", file=sys.stderr)
        return 3
    sys.stdout.buffer.write(ended.output)
    return ended.status


if __name__ == "__main__":
    sys.exit(main(sys.argv[1:]))
