"""The state of a release before programs are recorded with it: whether the rules fit, whether Go compiles the changed
files, and the result of doctor's trial."""

from __future__ import annotations

import json
import pathlib
import re
from dataclasses import asdict, dataclass

from netrev_go.go_command.toolchain import Go, RecorderError, fit, overlay
from netrev_go.release_check import trial

KEPT = "standing.json"
FITS = "fits "  # the beginning of a line for a rule that fits


@dataclass(frozen=True)
class Readiness:
    """The state of a release as text."""

    version: str
    rules: int = 0
    fitting: int = 0
    is_compiled: bool = False
    trial: str = ""
    is_good: bool = False

    def cells(self) -> list[str]:
        """The cells of a table's row."""
        steps = ", ".join(re.findall(r"(\d+) steps", self.trial)) if self.is_good else "no"
        return [f"{self.fitting} of {self.rules}", "yes" if self.is_compiled else "no", steps or "?"]

    def keep(self, out: pathlib.Path) -> None:
        (out / KEPT).write_text(json.dumps(asdict(self)) + "\n")


def read_standing(out: pathlib.Path) -> Readiness | None:
    """The stored state of a release, if any."""
    try:
        return Readiness(**json.loads((out / KEPT).read_text()))
    except (OSError, ValueError, TypeError):
        return None


def standing_of(go: Go) -> Readiness:
    """Fits the rules, compiles the changed files, and records doctor's program."""
    _, lines = fit(go)
    fitting = sum(line.startswith(FITS) for line in lines)
    try:
        overlay(go)
    except RecorderError as trouble:
        return Readiness(go.version, len(lines), fitting, False, str(trouble))
    outcome = trial(go)
    return Readiness(go.version, len(lines), fitting, True, outcome.said, outcome.good)
