"""The contents of a crate's sources as `rt fmt` lays them out: functions with the labels of their clauses, and
definitions."""

import re
from collections.abc import Iterator
from dataclasses import dataclass, field
from pathlib import PurePosixPath

from page_rules.tree import Tree

OWNER = re.compile(
    r"(?:ghost )?(?:impl(?:<[^{]*?>)? (?:(?P<trait>[\w:]+)(?:<.*?>)? for )?(?:&?(?:'\w+ )?)(?P<type>\w+)|pub trait (?P<owner>\w+))"
)
FUNCTION = re.compile(r"(?P<indent>\s*)(?P<public>pub )?(?:pub\([^)]*\) )?(?:ghost )?fn (?P<name>\w+)")
CLAUSE = re.compile(r"\b(?:ensures|requires) (?:(?P<label>\w+) )?\{")
# a name that a source gives to a type, a constant, a member of a trait, a variant or a field
NAMED = re.compile(
    r"\b(?:struct|enum|trait|const|type|mod|ghost|use) (\w+)|^\s+(?:pub(?:\([^)]*\))? )?(\w+)(?:,$|:|\(|\s\{)",
    re.MULTILINE,
)
DEFINED = re.compile(r"^(?:\s*(?:abbrev|unfoldable) pub |\s*pub (?:record|data) |pub (?=\S+ :))(\S+)", re.MULTILINE)
MEMBER = re.compile(r"^\s+(?:pub )?([\w-]+) :", re.MULTILINE)


@dataclass(frozen=True)
class Function:
    """A function of a source: its owner, and its contract."""

    name: str
    owner: str  # the type or trait that it belongs to; empty if none
    trait: str  # the trait that its `impl` implements; empty if none
    module: str
    is_public: bool
    contract: str

    @property
    def labels(self) -> set[str]:
        return {label for label in CLAUSE.findall(self.contract) if label}


@dataclass
class Crate:
    """The contents of a crate: its functions, the names in its sources, and its definitions with their members."""

    functions: list[Function] = field(default_factory=list)
    names: set[str] = field(default_factory=set)
    definitions: set[str] = field(default_factory=set)
    members: set[str] = field(default_factory=set)
    text: str = ""

    def called(self, name: str, owner: str = "") -> list[Function]:
        """The functions with this name, and with this owner or module if one is given."""
        return [
            function
            for function in self.functions
            if function.name == name and owner in ("", function.owner, function.trait, function.module)
        ]


def without_comments(text: str) -> str:
    """A source in which comments are replaced by empty lines."""
    return "\n".join("" if line.lstrip().startswith(("//", "--")) else line for line in text.split("\n"))


def _contract(lines: list[str], at: int, indent: str) -> str:
    """A function's signature and clauses: the lines up to its body, or to its end if it has none."""
    kept: list[str] = []
    for line in lines[at:]:
        if line == indent + "{" or (kept and FUNCTION.match(line)):
            break
        kept.append(line)
        ends = line.endswith(";") or (line.endswith("{") and not any(map(CLAUSE.search, kept)))
        if ends or line == indent + "}":
            break
    return "\n".join(kept)


def functions_of(path: str, text: str) -> Iterator[Function]:
    """The functions of a source without comments."""
    lines = text.split("\n")
    owner = trait = ""
    in_trait = False
    for at, line in enumerate(lines):
        if line == "}":
            owner = trait = ""
        elif begins := OWNER.match(line):
            owner, trait = begins["type"] or begins["owner"], begins["trait"] or ""
            in_trait = begins["owner"] is not None
        if found := FUNCTION.match(line):
            is_public = bool(found["public"]) or bool(trait) or (bool(owner) and in_trait)
            contract = _contract(lines, at, found["indent"])
            yield Function(found["name"], owner, trait, PurePosixPath(path).stem, is_public, contract)


def lines_by_function(text: str) -> Iterator[tuple[str, str]]:
    """Each line of a source without comments, with its function: `Type::name`, `name`, or empty."""
    owner = function = ""
    for line in text.split("\n"):
        if line == "}":
            owner = function = ""
        elif begins := OWNER.match(line):
            owner = begins["type"] or begins["owner"]
        if found := FUNCTION.match(line):
            function = f"{owner}::{found['name']}" if owner else found["name"]
        yield function, line


def crate_of(tree: Tree, name: str) -> Crate:
    """Reads the contents of a crate."""
    crate = Crate()
    for path in tree.matching(f"crates/{name}/src/*.rt"):
        text = without_comments(tree.text(path))
        crate.functions += functions_of(path, text)
        crate.names.update(*NAMED.findall(text), {PurePosixPath(path).stem})
        crate.text += text
    for path in tree.matching(f"crates/{name}/specs/*.antt"):
        text = without_comments(tree.text(path))
        crate.definitions.update(DEFINED.findall(text), {PurePosixPath(path).stem})
        crate.members.update(MEMBER.findall(text))
    return crate


def crates_of(tree: Tree) -> dict[str, Crate]:
    """All crates that crates.txt names."""
    return {name: crate_of(tree, name) for name in tree.crates}
