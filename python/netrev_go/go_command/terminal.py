"""What netrev-go prints."""

from __future__ import annotations

import os
import sys
from typing import TextIO

from netrev.text.plain import plain


def say(lines: list[str], stream: TextIO | None = None) -> None:
    """Prints these lines to standard error, because standard output belongs to Go and the program, or to another
    stream. If printing fails, later lines are dropped and everything else continues."""
    to = stream or sys.stderr
    try:
        print("\n".join(lines), file=to, flush=True)
    except OSError:
        nowhere = open(os.devnull, "w", encoding="utf-8")
        if to is sys.stdout:
            sys.stdout = nowhere
        else:
            sys.stderr = nowhere


def complain(text: str) -> None:
    """Prints an error."""
    say(["netrev-go: " + "\n".join(plain(line) for line in text.split("\n"))])
