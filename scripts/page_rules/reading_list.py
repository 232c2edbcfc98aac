"""Checks the reading list of docs/proof/THEOREM.md: the definitions that its laws rest on, by crate and file, and their
lines.

A file comes after the files that it depends on, and a crate after the crates that it imports. Only the lines of
definitions are counted, and not imports. Comments count for a file, but not for a law. Some premises of a law are
proved by another contract. A definition that occurs only in such a premise counts, but not the definitions beneath it,
because the law only says what follows from the premise.

The definitions that the laws rest on are in separate files, and each crate lists these files under one heading.
"""

import re
from collections.abc import Iterable, Iterator
from dataclasses import dataclass
from itertools import zip_longest

from page_rules.law_definitions import Beliefs, Place
from page_rules.markdown import prose
from page_rules.tree import Finding, Tree

PAGE = "docs/proof/THEOREM.md"
HEADING = "## Reading list"
PAGES = (PAGE, "docs/proof/TRUSTED.md")  # places that have the numbers in their text
# the heading in a crate's specs/Lib.antt for the files with definitions that the laws use
BELIEVED = "-- files with the definitions that the laws in THEOREM.md use"
LISTED = re.compile(r"pub mod (\w+)")
IN_WORDS = re.compile(r"([\d,]+) definitions in ([\d,]+) lines")


@dataclass(frozen=True)
class Law:
    """A law, by the definitions that its contract cites: CRATE/FILE:NAME. If the law needs more than `most_lines`
    lines, that number has to be changed."""

    says: str
    cites: tuple[str, ...]
    most_lines: int = 0
    handed: tuple[str, ...] = ()


LAWS = (
    Law("what `run` writes", ("nr_programs/Transcript:RunsTranscript",), 1900),
    Law("what `changes` writes", ("nr_programs/Changes:Changes",), 1500),
    Law(
        "a shared session",
        ("nr_programs/Serving:ServesAll", "nr_programs/Shared:AreAnswered", "nr_serving/Session:IsTheirs"),
        2200,
        handed=("nr_serving/Session:BeginsFresh", "nr_serving/Session:IsHistory"),
    ),
    Law(
        "undoing a step",
        (
            "nr_rev/Reversible:Refuses",
            "nr_machine/Fits:IsWorld",
            "nr_machine/Step:StepTo",
            "nr_machine/Made:parts_reason",
            "nr_machine/Made:TakesMemory",
        ),
        1300,
    ),
)

HUNTS = (  # their files also contain definitions of the proofs
    Law("what `suspects` writes", ("nr_programs/Suspects:ShowsSuspects",), 1700),
    Law(
        "the laws of the hunts",
        (
            "nr_suspects/DeadlineFindings:IsFinding",
            "nr_suspects/Deadlines:IsInTime",
            "nr_suspects/LostWakeUps:HasLost",
            "nr_suspects/LostWakeUps:IsTaking",
            "nr_suspects/Sleepers:SleepsOn",
            "nr_suspects/Sleepers:HasNothing",
            "nr_suspects/Peers:peer_of",
            "nr_suspects/HeldReferences:IsHeld",
            "nr_suspects/HeldReferences:IsListed",
            "nr_suspects/References:references_at",
            "nr_suspects/References:given",
            "nr_suspects/References:taken",
            "nr_suspects/LockedSides:is_locked",
            "nr_rev/Step:owing",
            "nr_protocol/Deadlines:WillPass",
            "nr_protocol/Sleep:IsOfLinux",
            "nr_programs/Suspects:ShowsSuspects",
        ),
        2000,
    ),
)


@dataclass(frozen=True)
class Count:
    """How many definitions some laws rest on, and how many lines and files these have."""

    definitions: int
    lines: int  # lines that aren't comments
    comments: int  # lines that are comments
    files: int
    types: int  # the number of Rust types that the definitions name

    def row(self, says: str, most_lines: int) -> str:
        """A row of the page's table."""
        numbers = [f"{number:,}" for number in (self.definitions, self.lines, self.comments, self.files, self.types)]
        numbers.insert(2, f"{most_lines:,}" if most_lines else "")
        return f"| {says} | {' | '.join(numbers)} |"


def placed(text: str) -> Place:
    """The place of a definition in the form CRATE/FILE:NAME."""
    file, _, name = text.partition(":")
    crate, _, module = file.partition("/")
    return Place(crate, module, name)


class ReadingList:
    """The definitions that some laws rest on, in a tree."""

    def __init__(self, tree: Tree, laws: tuple[Law, ...]) -> None:
        self.tree = tree
        self.laws = laws
        self.beliefs = Beliefs(tree)
        self.missing = [cited for law in laws for cited in law.cites + law.handed if not self._is_there(cited)]
        self.of_laws = [self._below(law) for law in laws]
        self.all: set[Place] = set().union(*self.of_laws)

    def _is_there(self, cited: str) -> bool:
        return self.beliefs.definition(placed(cited)) is not None

    def _below(self, law: Law) -> set[Place]:
        return self.beliefs.below(set(map(placed, law.cites)), set(map(placed, law.handed)))

    def defined(self, places: Iterable[Place]) -> list[Place]:
        """The places that belong to definitions, not to Rust types."""
        return [place for place in places if self.beliefs.definition(place)]

    def lines(self, places: Iterable[Place]) -> int:
        found = map(self.beliefs.definition, places)
        return sum(len(definition.lines) for definition in found if definition)

    def count(self, places: set[Place]) -> Count:
        """The amount of text to read at these places."""
        here = self.defined(places)
        comments = sum(definition.comments for definition in map(self.beliefs.definition, here) if definition)
        types = {(place.crate, *f"{place.module}.{place.name}".split(".")[1:3]) for place in places if _is_type(place)}
        return Count(len(here), self.lines(here) - comments, comments, len({place.path for place in here}), len(types))

    def _behind(self, path: str, by_file: dict[str, set[Place]], ordered: list[str]) -> None:
        """Appends a file to the list, after the files of its crate that it depends on."""
        if path in ordered:
            return
        named = set().union(*map(self.beliefs.named, sorted(by_file[path])))
        for other in sorted({place.path for place in named} & set(by_file) - {path}):
            self._behind(other, by_file, ordered)
        ordered.append(path)

    def files(self, crate: str) -> list[tuple[str, list[Place]]]:
        """The files of a crate in reading order, each with the definitions that the laws rest on."""
        by_file: dict[str, set[Place]] = {}
        for place in self.defined(self.all):
            if place.crate == crate:
                by_file.setdefault(place.path, set()).add(place)
        ordered: list[str] = []
        for path in sorted(by_file):
            self._behind(path, by_file, ordered)
        return [(path, sorted(by_file[path])) for path in ordered]

    def strays(self) -> Iterator[tuple[str, str]]:
        """The file and name of each definition that no law uses although laws use other definitions of its file."""
        by_file: dict[str, list[Place]] = {}
        for place in self.defined(self.all):
            by_file.setdefault(place.path, []).append(place)
        for path, places in sorted(by_file.items()):
            others = set(self.beliefs.module(places[0]).definitions) - {place.name for place in places}
            yield from ((path, name) for name in sorted(others))

    def misplaced(self) -> Iterator[tuple[str, str]]:
        """Files that a crate lists under the heading although no law rests on them, and files that it should list.
        Yields the path of the list and the name of the file."""
        for crate in self.tree.crates:
            wanted = {_file(path) for path, _ in self.files(crate)}
            path = f"crates/{crate}/specs/Lib.antt"
            text = self.tree.text(path) if self.tree.has(path) else ""
            _, _, behind = text.partition(f"{BELIEVED}\n")
            listed = set(LISTED.findall(behind.partition("\n--")[0]))
            yield from ((path, name) for name in sorted(wanted ^ listed))

    def rows(self) -> Iterator[str]:
        """The two tables, as on the page."""
        yield "| Law | Definitions | Lines | At most | Of comment besides | Files | Types of Rust |"
        yield "|---|--:|--:|--:|--:|--:|--:|"
        yield from (self.count(places).row(law.says, law.most_lines) for law, places in zip(self.laws, self.of_laws))
        yield self.count(self.all).row("all of these", 0)
        yield ""
        yield "| Crate | Its files in `specs/` | Lines to read |"
        yield "|---|---|--:|"
        for crate in self.tree.crates:
            if files := self.files(crate):
                names = ", ".join(f"`{_file(path)}`" for path, _ in files)
                lines = self.lines(place for _, places in files for place in places)
                yield f"| `{crate}` | {names} | {lines:,} |"


def _is_type(place: Place) -> bool:
    return place.module.startswith("declared.")


def _file(path: str) -> str:
    """The name of a file in the page."""
    return path.rpartition("/")[2].removesuffix(".antt")


def reading_list(tree: Tree) -> Iterator[Finding]:
    """Differences between the page's tables and what the laws rest on, and laws that rest on too much."""
    if not tree.has(PAGE):
        return
    found, hunts = ReadingList(tree, LAWS), ReadingList(tree, HUNTS)
    for cited in found.missing + hunts.missing:
        yield Finding(PAGE, 1, f"no definition {cited} exists, but the laws rest on it")
    for path, name in found.strays():
        yield Finding(path, 1, f"no law rests on {name}, but laws rest on other definitions of this file")
    for path, name in found.misplaced():
        yield Finding(
            path, 1, f"{name}: only the files that the laws rest on belong under {BELIEVED!r}, and all of them"
        )
    for law, places in (*zip(LAWS, found.of_laws), *zip(HUNTS, hunts.of_laws)):
        if (lines := found.count(places).lines) > law.most_lines:
            yield Finding(
                PAGE,
                1,
                f"{law.says} rests on {lines:,} lines of definitions, but at most {law.most_lines:,} are allowed",
            )
    yield from _differences(tree.text(PAGE), [row for row in tables(tree) if row])
    counts = map(found.count, (*found.of_laws, found.all, *hunts.of_laws, hunts.all, found.all | hunts.all))
    yield from _in_words(tree, {(f"{count.definitions:,}", f"{count.lines:,}") for count in counts})


def tables(tree: Tree) -> list[str]:
    """The rows of the page's tables: those for LAWS and, after an empty row, those for HUNTS."""
    rows = list(ReadingList(tree, LAWS).rows())
    return [*rows, "", *ReadingList(tree, HUNTS).rows()] if HUNTS else rows


def _in_words(tree: Tree, counted: set[tuple[str, str]]) -> Iterator[Finding]:
    """Sentences that give wrong numbers of definitions and lines."""
    for page in filter(tree.has, PAGES):
        for block in prose(tree.text(page)):
            for numbers in IN_WORDS.findall(block.text):
                if numbers not in counted:
                    yield Finding(page, block.line, f"no law rests on {' definitions in '.join(numbers)} lines")


def _differences(page: str, wanted: list[str]) -> Iterator[Finding]:
    """The first row of the page's tables that differs from the computed row, is missing, or shouldn't be there."""
    _, heading, rest = page.partition(f"{HEADING}\n")
    at = page.count("\n", 0, len(page) - len(rest)) + 1
    section = rest.split("\n## ")[0].split("\n") if heading else []
    here = [line for line in section if line.startswith("|")]
    for is_there, row in zip_longest(here, wanted, fillvalue="no row"):
        if is_there != row:
            yield Finding(
                PAGE, at, f"scripts/beliefs.py prints {row[:80]!r}, and {HEADING[3:]!r} has {is_there[:80]!r}"
            )
            return
