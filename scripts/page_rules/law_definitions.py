"""Finds the definitions in the crates' specs/ that a law rests on: the definitions that it names, the definitions that
these name, and so on.

It reads words, not types. Each word in a definition that its file imports or defines counts as the name of a
definition. So the rule may count too many definitions, but it doesn't miss one. Definitions of the toolchain's
libraries aren't followed.
"""

import re
from collections.abc import Iterator
from dataclasses import dataclass, field

from page_rules.tree import Tree

# the first line of a definition: not indented, or in a `module _` with parameters
HEAD = re.compile(
    r"(?:  )?(?:(?:abbrev|unfoldable|opaque) (?:pub )?(?:abbrev )?|(?:pub )?(?:record|data) )([^\s(]\S*)(?=\s|$)(?! \{)"
)
PLAIN = re.compile(r"pub (\S+) :")
PLAIN_IN_MODULE = re.compile(r"  pub (\S+) :")
IN_MODULE = re.compile(r"^module _ ", re.MULTILINE)
CONSTRUCTOR = re.compile(r"  (?:pub )?(\S+) :")
USE = re.compile(r"use Rattle\.([\w.]+?)(?:\.\{(.*)\}| as (\w+))?$")
COMMENT = re.compile(r"^\s*--|\s--\s.*$")
TEXT = re.compile(r'"[^"]*"')
TOKEN = re.compile(r"[A-Za-z_][\w'-]*(?:\.[\w'-]+)*|[^\s\w(){}\[\];,.\"λ]+")
NO_CODE = ("--", "infix", "module ")


@dataclass(frozen=True, order=True)
class Place:
    """The place of a definition: its crate, its file below specs/, and its name."""

    crate: str
    module: str
    name: str

    @property
    def path(self) -> str:
        return f"crates/{self.crate}/specs/{self.module.replace('.', '/')}.antt"


@dataclass
class Definition:
    """The lines of a definition, including its comment."""

    lines: list[str] = field(default_factory=list)

    @property
    def comments(self) -> int:
        """The number of lines in its comment."""
        return sum(line.lstrip().startswith("--") for line in self.lines)

    @property
    def words(self) -> set[str]:
        """All words and symbols of the definition, except those in comments and strings."""
        code = " ".join(
            TEXT.sub("", COMMENT.sub("", line)) for line in self.lines if not line.lstrip().startswith("--")
        )
        return set(TOKEN.findall(code)) | ({">>=", ">>"} if re.search(r"\bdo\b", code) else set())


@dataclass
class Module:
    """The definitions in a file of specs/, and the origins of the other names in it."""

    definitions: dict[str, Definition] = field(default_factory=dict)
    owners: dict[str, str] = field(default_factory=dict)  # for a constructor, the type that it makes
    imports: dict[str, tuple[str, str]] = field(default_factory=dict)  # the other file, and the name there
    aliases: dict[str, str] = field(default_factory=dict)

    def add_import(self, line: str) -> None:
        """Stores the names that a line imports."""
        found = USE.fullmatch(line)
        if found is None:
            return
        path, names, alias = found.groups()
        if names is None:
            self.aliases[alias or path.split(".")[-1]] = path
        else:
            renamed = [name.strip().split(" as ") for name in names.split(",")]
            self.imports.update((name[-1], (path, name[0])) for name in renamed)


def _name_of(line: str, in_module: bool) -> str:
    """The name of the definition that begins in this line; empty if none does."""
    found = HEAD.match(line) or PLAIN.match(line) or (PLAIN_IN_MODULE.match(line) if in_module else None)
    return found.group(1) if found else ""


def _pieces(block: list[str], in_module: bool) -> Iterator[tuple[str, list[str]]]:
    """A block's definitions, each with its lines. A block that continues an earlier block begins with that block's
    first word."""
    name, kept = "", []  # type: str, list[str]
    for line in block:
        found = "" if name and CONSTRUCTOR.match(line) else _name_of(line, in_module)
        if found and name:
            yield name, kept
            kept = []
        name = found or name
        kept.append(line)
    code = next((line for line in kept if not line.startswith(NO_CODE)), "")
    yield name or next(iter(TOKEN.findall(code)), ""), kept


def module_of(text: str) -> Module:
    """Reads the definitions of a file."""
    module, last = Module(), ""
    in_module = IN_MODULE.search(text) is not None
    code = [line for line in text.split("\n") if not line.startswith("use ")]
    for line in text.split("\n"):
        module.add_import(line)
    blocks = re.split(r"\n\s*\n", "\n".join(code))
    for name, lines in (piece for block in blocks for piece in _pieces(block.strip("\n").split("\n"), in_module)):
        begins = any(_name_of(line, in_module) == name for line in lines)
        if name == "" or not (begins or last):
            continue
        last = name if begins or name in module.definitions else last
        module.definitions.setdefault(last, Definition()).lines += [
            line for line in lines if not line.startswith("module ")
        ]
        if any(re.match(r"\s*(?:pub )?data ", line) for line in lines):
            module.owners.update((line.group(1), name) for line in map(CONSTRUCTOR.match, lines) if line)
    return module


class Beliefs:
    """The definitions of a tree's crates, and the definitions that some definitions rest on."""

    def __init__(self, tree: Tree) -> None:
        self.tree = tree
        self._modules: dict[str, Module] = {}

    def module(self, place: Place) -> Module:
        """The file of a definition; an empty file if the tree has no such file."""
        if place.path not in self._modules:
            text = self.tree.text(place.path) if self.tree.has(place.path) else ""
            self._modules[place.path] = module_of(text)
        return self._modules[place.path]

    def definition(self, place: Place) -> Definition | None:
        return self.module(place).definitions.get(place.name)

    def _elsewhere(self, path: str, name: str) -> Iterator[Place]:
        """The places of a name from another file. A type that a source declares has the module `declared`."""
        crate, _, module = path.partition(".specs.")
        if crate in self.tree.crates and module:
            yield Place(crate, module, name)

    def _named_by(self, place: Place, word: str) -> Iterator[Place]:
        """The definitions to which a word may refer. The word occurs in the definition at this place."""
        module = self.module(place)
        owner, dot, members = word.partition(".")
        member = members.partition(".")[0]
        if dot and owner in module.aliases:
            yield from self._elsewhere(module.aliases[owner], member)
        for name in (owner, f"◌{owner}◌", f"◌{owner}", f"{owner}◌"):
            if name in module.definitions:
                yield Place(place.crate, place.module, name)
            elif name in module.owners:
                yield Place(place.crate, place.module, module.owners[name])
            elif name in module.imports:
                yield from self._elsewhere(*module.imports[name])

    def named(self, place: Place) -> set[Place]:
        """What a definition names: definitions, and types that sources declare."""
        found = self.definition(place)
        words = found.words if found else set()
        return {definition for word in words for definition in self._named_by(place, word)} - {place}

    def below(self, seeds: set[Place], closed: set[Place]) -> set[Place]:
        """All that these definitions rest on, including themselves. A closed definition counts, but the definitions
        that it names don't."""
        seen: set[Place] = set()
        left = set(seeds)
        while left:
            place = left.pop()
            owner = self.module(place).owners.get(place.name)
            place = Place(place.crate, place.module, owner) if owner else place
            if place not in seen:
                seen.add(place)
                left |= set() if place in closed else self.named(place)
        return seen
