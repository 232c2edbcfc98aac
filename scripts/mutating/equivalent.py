"""Mutants that change nothing that a user sees, each with the reason."""

from __future__ import annotations

from pathlib import Path

KEPT = Path(__file__).with_name("equivalent.txt")


def read(path: Path = KEPT) -> dict[str, str]:
    """The reasons by mutant. A mutant's line is followed by its reason, indented."""
    reasons: dict[str, str] = {}
    mutant = ""
    for line in path.read_text(encoding="utf-8").splitlines():
        if not line.strip() or line.startswith("#"):
            continue
        if line.startswith("    "):
            reasons[mutant] = line.strip()
        else:
            mutant = line
    return reasons
