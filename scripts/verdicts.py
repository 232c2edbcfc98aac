#!/usr/bin/env python3
"""Stores the verdicts in a log of `rt ci`:  scripts/verdicts.py [LOG]

Each verdict in the log (out/gate.log) goes into out/verdicts.json, with a checksum of its crate's files. Stored verdicts on crates that the
log doesn't mention stay. scripts/pages.py compares docs/proof/TRUSTED.md and crates.txt with them.
"""

import argparse
import json
import sys
from pathlib import Path

from page_rules import verdict
from page_rules.tree import Tree

ROOT = Path(__file__).resolve().parent.parent


def main(given_words: list[str] | None = None) -> int:
    """Stores the verdicts in a log. These arguments, or those of the command line, name the log."""
    given = argparse.ArgumentParser(description=__doc__, formatter_class=argparse.RawDescriptionHelpFormatter)
    given.add_argument("--root", type=Path, default=ROOT, help=argparse.SUPPRESS)
    given.add_argument("log", nargs="?", type=Path, metavar="LOG", help="the log (out/gate.log)")
    options = given.parse_args(given_words)
    tree = Tree(options.root)
    log = options.log or options.root / "out/gate.log"
    try:
        found = verdict.verdicts_in(log.read_text(encoding="utf-8", errors="replace"))
    except OSError as error:
        given.error(f"{log}: {error.strerror}")
    file = options.root / verdict.KEPT
    records = json.loads(file.read_text(encoding="utf-8")) if file.exists() else {}
    now = verdict.sums(tree) if found else {}
    records |= {name: {"line": line, "sum": now[name]} for name, line in found.items() if name in now}
    file.parent.mkdir(exist_ok=True)
    file.write_text(json.dumps(records, indent=1) + "\n", encoding="utf-8")
    print(f"verdicts: {len(found)} in {log}, {len(records)} are kept")
    return 0


if __name__ == "__main__":
    sys.exit(main())
