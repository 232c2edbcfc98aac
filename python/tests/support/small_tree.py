"""A small tree with a page of each kind, on which the scripts that read pages are run."""

import contextlib
import importlib.util
import io
import sys
from pathlib import Path
from types import ModuleType

import pytest

SCRIPTS = Path(__file__).resolve().parents[3] / "scripts"


def loaded(name: str, file: Path) -> ModuleType:
    """A module of scripts/, which isn't on Python's path."""
    spec = importlib.util.spec_from_file_location(name, file)
    assert spec is not None and spec.loader is not None
    module = importlib.util.module_from_spec(spec)
    sys.modules[name] = module
    spec.loader.exec_module(module)
    return module


loaded("page_rules", SCRIPTS / "page_rules" / "__init__.py")
PAGES = loaded("pages", SCRIPTS / "pages.py")
READING = sys.modules["page_rules.reading_list"]
VERDICT = sys.modules["page_rules.verdict"]
BELIEFS = loaded("beliefs", SCRIPTS / "beliefs.py")
VERDICTS = loaded("verdicts", SCRIPTS / "verdicts.py")

THEOREM = """\
# The theorem

`crates/counting/src/lib.rt`:

```rust
pub fn count(of: &[u8]) -> usize
    ensures sum { result ≡ total of.now }
```

## Reading list

| Law | Definitions | Lines | At most | Of comment besides | Files | Types of Rust |
|---|--:|--:|--:|--:|--:|--:|
| counting | 4 | 7 | 7 | 2 | 2 | 1 |
| all of these | 4 | 7 |  | 2 | 2 | 1 |

| Crate | Its files in `specs/` | Lines to read |
|---|---|--:|
| `adding` | `Sum` | 5 |
| `counting` | `Count` | 4 |
"""
# the law of the small tree
LAW = READING.Law("counting", ("counting/Count:IsCount",), 7)
TRUSTED = """\
# Taken as given

The law is 4 definitions in 7 lines.

    logic=proved axioms=3
    main=Threads sum=d0e1
"""
# what `rt ci` prints: the verdicts on a crate, on its tests, and on the program
LOG = """\
== adding
crate adding: modules loaded=1 checked=2
logic=proved functions=2 sum=d0e1
rt: adding proved
== counting
logic=proved tests=4 functions=9 axioms=7 sum=d0e1
logic=proved functions=1 axioms=3 main=Threads sum=d0e1
rt: counting proved
"""
GLOSSARY = """\
# Glossary

A sum has a meaning: [a word](#words).

## Words

| Here | Means |
|---|---|
| sum | total |
"""
SHARED_NAMES = "# CRATE ..: NAME ..\ncounting adding: total\n"
PROMISES = """\
# Promises

## counting

| Proved | By |
|---|---|
| The count is the total | `count`: `sum`, against `total` |
| And so it is of none | the same |
"""
ARCHITECTURE = """\
# Architecture

```mermaid
flowchart TD
    counting --> adding
```

## How to add a kind of step

`nr_rev/src/kind.rt` gets a row, and so does `counting/src/table.rt`.

## Where things are

`crates/adding`, `counting`.
"""
LIBRARY = """\
//! Counts.

ghost use Rattle.counting.specs.Total.{total};

/// How many there are in all.
pub fn count(of: &[u8]) -> usize
    ensures sum { result ≡ total of.now }
{
    of.len()
}
"""
SUM = """\
-- Sums.
use Rattle.adding.specs.declared.kind.Kind.{Kind}

-- ---- what is added

-- what the items come to
abbrev pub total : List Kind → ℕ
total items = foldr ◌add◌ items

infixl 10 ◌add◌
abbrev pub ◌add◌ : ℕ → ℕ → ℕ
"""
COUNT = """\
-- how many there are
use Rattle.adding.specs.Sum.{total as sum}

-- all are counted: a comment names no total
pub record IsCount (of : List ℕ) : Type 0 where
  pub is : sum of ≡ one

abbrev one : ℕ
"""
KINDS = "".join(f'    (Kind::Kind{letter}, "kind{letter.lower()}"),\n' for letter in "ABCDEFGHIJKLMNOPQRSTUVWXYZ")
TABLE = "".join(f"Step::Kind{letter} => {at},\n" for at, letter in enumerate("ABCDEFGHIJKLMNOPQRSTUVWXYZ"))
EXAMPLES = """\
-- examples/one.script
abbrev pub one_commands : List ℕ
one_commands =
    codes "stepi\\n"

-- the run of examples/one.jsonl
abbrev pub one : Recording
one = record {
  limits = record { goroutines = 2; sockets = 1; descriptors = 1; buffer = 8 };
  steps =
    Spawn ∷ SysRead 1 0 4 ∷ [];
}
"""
CONTRIBUTING = """\
# Contributing

## Python

| Folder | Contains |
|---|---|
| `words` | words |
| `nrdb` | counts |
| `nrdb/cli.py`, `nrdb/__main__.py` | the command line |
"""
TREE = {
    "README.md": "# Read me\n\nIt counts ([how](docs/internals/GLOSSARY.md)), in `crates/counting/src/lib.rt`.\n\n    rattle-kit-1 logic d0e1\n",
    "docs/proof/THEOREM.md": THEOREM,
    "docs/proof/TRUSTED.md": TRUSTED,
    "docs/internals/GLOSSARY.md": GLOSSARY,
    "scripts/page_rules/shared_names.txt": SHARED_NAMES,
    "docs/proof/PROMISES.md": PROMISES,
    "docs/internals/ARCHITECTURE.md": ARCHITECTURE,
    "crates.txt": "adding:\ncounting: adding arrayvec\n",
    "crates/adding/src/lib.rt": "//! Adds.\n",
    "crates/adding/specs/Lib.antt": f"{READING.BELIEVED}\npub mod Sum\n-- inner: what only definitions use\npub mod Inside\n",
    "crates/adding/specs/Sum.antt": SUM,
    "crates/adding/specs/Inside.antt": "-- one more\nabbrev pub next : ℕ → ℕ\nnext n = n + 1\n",
    "crates/counting/src/lib.rt": LIBRARY,
    "crates/counting/src/table.rt": TABLE,
    "crates/counting/specs/Lib.antt": f"{READING.BELIEVED}\npub mod Count\n-- what callers need\npub mod Total\n",
    "crates/counting/specs/Total.antt": "-- what all come to\nabbrev pub total : ℕ\n",
    "crates/counting/specs/Count.antt": COUNT,
    "crates/nr_rev/src/kind.rt": KINDS,
    "crates/nr_programs/specs/Examples.antt": EXAMPLES,
    "examples/one.script": "stepi\n",
    "examples/one.jsonl": '{"netrev":1,"gor":2,"sock":1,"desc":1,"buf":8}\n["spawn"]\n["sysread",1,0,4]\n',
    "CONTRIBUTING.md": CONTRIBUTING,
    "python/words/plain.py": '"""Words."""\n',
    "python/nrdb/__main__.py": '"""Begins."""\n\nfrom . import counting\n',
    "python/nrdb/cli.py": '"""Says how."""\n\nimport words.plain\n',
    "python/nrdb/counting.py": '"""Counts."""\n\nfrom words import plain\n',
}


class SmallTree:
    """The small tree in a folder of its own. The tree has one law, and its program is named `counting`."""

    def __init__(self, folder: Path, monkeypatch: pytest.MonkeyPatch) -> None:
        self.top = folder
        monkeypatch.setattr(READING, "LAWS", (LAW,))
        monkeypatch.setattr(READING, "HUNTS", ())
        monkeypatch.setattr(VERDICT, "PROGRAM", "counting")
        for path, text in TREE.items():
            self.write(path, text)

    def write(self, path: str, text: str) -> None:
        file = self.top / path
        file.parent.mkdir(parents=True, exist_ok=True)
        file.write_text(text, encoding="utf-8")

    def run_over(self, *words: str) -> tuple[int, str]:
        """Runs the script on the small tree; returns its status and output."""
        with contextlib.redirect_stdout(io.StringIO()) as printed, contextlib.redirect_stderr(printed):
            try:
                status = PAGES.main(["--root", str(self.top), *words])
            except SystemExit as ended:
                status = int(ended.code or 0)
        return status, printed.getvalue()

    def beliefs(self, *words: str) -> str:
        """The output of scripts/beliefs.py for the small tree."""
        with contextlib.redirect_stdout(io.StringIO()) as printed, contextlib.redirect_stderr(printed):
            with contextlib.suppress(SystemExit):
                BELIEFS.main(["--root", str(self.top), *words])
        return printed.getvalue()

    def keep(self, log: str) -> None:
        """Stores the verdicts of a log."""
        self.write("out/gate.log", log)
        with contextlib.redirect_stdout(io.StringIO()):
            assert VERDICTS.main(["--root", str(self.top)]) == 0
