#!/usr/bin/env python3
"""The release notes of a version, from CHANGELOG.md:  scripts/notes.py VERSION CHANGELOG

They are the sections of that version and of the unreleased changes; older versions are left out."""

import re
import sys
from pathlib import Path

UNRELEASED = "Unreleased"
# a second-level heading that names a version, such as "## 1.0.0", "## [1.0.0] - 2026-11-29" or "## Unreleased"
HEADING = re.compile(r"^## \[?(Unreleased|\d[\w.+-]*)\]?.*\n", re.MULTILINE)


class NotesError(Exception):
    """Raised if there are no notes; the message is the reason."""


def sections(changelog: str) -> dict[str, str]:
    """The text below each heading that names a version."""
    headings = list(HEADING.finditer(changelog))
    ends = [heading.start() for heading in headings[1:]] + [len(changelog)]
    return {heading[1]: changelog[heading.end() : end].strip() for heading, end in zip(headings, ends)}


def release_notes(version: str, changelog: str) -> str:
    """The notes of a version."""
    texts = sections(changelog)
    if version not in texts:
        raise NotesError(f"CHANGELOG.md has no section {version}")
    parts = [texts[name] for name in (UNRELEASED, version) if texts.get(name)]
    return "\n\n".join([f"# netrev {version}", *parts]) + "\n"


def main() -> int:
    if len(sys.argv) != 3:
        print("usage: scripts/notes.py VERSION CHANGELOG", file=sys.stderr)
        return 2
    try:
        print(release_notes(sys.argv[1], Path(sys.argv[2]).read_text(encoding="utf-8")), end="")
    except (NotesError, OSError) as error:
        print(f"notes.py: {error}", file=sys.stderr)
        return 1
    return 0


if __name__ == "__main__":
    sys.exit(main())
