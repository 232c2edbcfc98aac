"""The definitions of the crates: which modules of specs/ a caller needs, and which names two crates share.

`specs/Lib.antt` of a crate names its modules under two headings: one for the modules that callers need, and one for
internal modules. A caller needs a module if another crate imports it, or if a contract of the crate's public functions
and types cites it.
"""

import re
from collections import defaultdict
from collections.abc import Iterator
from pathlib import PurePosixPath

from page_rules.sources import DEFINED, FUNCTION, OWNER, functions_of, without_comments
from page_rules.tree import Finding, Tree, has_word

SHARED = "scripts/page_rules/shared_names.txt"
FOR_CALLERS, INSIDE = ("what callers need", "more for callers"), "inner"

IMPORT = re.compile(r"use Rattle\.(\w+)\.specs\.([A-Z]\w*)(?:\.\{([^}]*)\}| as (\w+))")
EXPORT = re.compile(r"^pub (mod|use) ([^;]+);", re.MULTILINE)
MEMBER = re.compile(r"^    ghost (\w+) = (.*(?:\n        .*)*)", re.MULTILINE)
# members that no caller reads: laws, which are the same as in their trait, and private members of a type
NOT_READ = re.compile(
    r".*_is_unique|.*_unique|.*_are|refused_has_no_step|memory_is_.*|means_well_formed|allowance_is_within|invariant"
)


def _exports(tree: Tree, crate: str) -> tuple[set[str], set[str]]:
    """The public modules of a crate, and the names that it exports. A program exports names only to its `main`."""
    if not tree.has(f"crates/{crate}/src/lib.rt"):
        return {PurePosixPath(path).stem for path in tree.matching(f"crates/{crate}/src/*.rt")}, set()
    found = EXPORT.findall(tree.text(f"crates/{crate}/src/lib.rt"))
    modules = {what for kind, what in found if kind == "mod"}
    return modules, {name for kind, what in found if kind == "use" for name in re.findall(r"\w+", what)}


def _public_contracts(tree: Tree, crate: str, path: str) -> str:
    """The contracts that a caller sees: the contracts of public functions, and of the views of public types."""
    modules, names = _exports(tree, crate)
    text = without_comments(tree.text(path))
    is_public = PurePosixPath(path).stem in {*modules, "lib"}
    seen = []
    for function in functions_of(path, text):
        if function.is_public and (is_public or (function.owner or function.name) in names):
            seen.append(function.contract)
    for block in re.split(r"^(?=impl|pub trait)", text, flags=re.MULTILINE)[1:]:
        owner = OWNER.match(block)
        if owner and (is_public or (owner["type"] or owner["owner"]) in names):
            seen += [value for name, value in MEMBER.findall(block) if not NOT_READ.fullmatch(name)]
            seen += re.findall(r"^    ghost \w+: .*(?:\n        .*)*", block, re.MULTILINE)
    return "\n".join(seen)


def needed(tree: Tree) -> dict[str, set[str]]:
    """The modules that callers need, by crate."""
    found: dict[str, set[str]] = defaultdict(set)
    for path in tree.matching("crates/*.rt", "crates/*.antt"):
        own = path.split("/")[1]
        imports = [
            imported for imported in IMPORT.findall(tree.text(path)) if imported[0] != own or path.endswith(".rt")
        ]
        contracts = ""
        for crate, module, names, alias in imports:
            if crate != own:
                found[crate].add(module)
                continue
            contracts = contracts or _public_contracts(tree, own, path) + " "
            if any(has_word(name).search(contracts) for name in [*map(str.strip, names.split(",")), alias] if name):
                found[crate].add(module)
    return found


def groups(tree: Tree) -> Iterator[Finding]:
    """Modules that are under the wrong heading of a crate's `specs/Lib.antt`."""
    wanted = needed(tree)
    for crate in tree.crates:
        path = f"crates/{crate}/specs/Lib.antt"
        heading = ""
        for number, line in tree.lines(path) if tree.has(path) else ():
            heading = line.removeprefix("-- ") if line.startswith("-- ") else heading
            module = line.removeprefix("pub mod ")
            if module == line:
                continue
            if heading.startswith(INSIDE) and module in wanted[crate]:
                yield Finding(path, number, f"callers need {module}")
            elif heading.startswith(FOR_CALLERS) and module not in wanted[crate]:
                yield Finding(path, number, f"no other crate imports {module}, and no public contract cites it")


def defined(tree: Tree) -> dict[str, dict[str, tuple[str, int]]]:
    """For each name: the file and the line of its definition, by crate."""
    found: dict[str, dict[str, tuple[str, int]]] = defaultdict(dict)
    for path in tree.matching("crates/*/specs/*.antt"):
        for number, line in enumerate(without_comments(tree.text(path)).split("\n"), 1):
            for name in DEFINED.findall(line):
                found[name].setdefault(path.split("/")[1], (path, number))
    return found


def listed_as_shared(tree: Tree) -> Iterator[tuple[int, str, set[str]]]:
    """The rows of the shared-names list, one per name: the line, the name and its crates."""
    for number, line in tree.lines(SHARED) if tree.has(SHARED) else ():
        crates, colon, names = line.partition(":")
        if colon and not line.startswith("#"):
            yield from ((number, name, set(crates.split())) for name in names.split())


def shared_names(tree: Tree) -> Iterator[Finding]:
    """Names that several crates define, unless the list of shared names has exactly these crates for the name."""
    listed: dict[str, tuple[int, set[str]]] = {}
    for row, name, crates in listed_as_shared(tree):
        listed[name] = row, crates | listed.get(name, (0, set()))[1]
    found = defined(tree)
    for name, places in found.items():
        left_out = set(places) - listed.get(name, (0, set()))[1]
        if len(places) > 1 and left_out:
            path, number = next(places[crate] for crate in places if crate in left_out)
            yield Finding(
                path, number, f"{name} is defined in {', '.join(sorted(places))}, and {SHARED} doesn't list it so"
            )
    for name, (row, crates) in listed.items():
        for crate in sorted(crates - set(found[name])):
            yield Finding(SHARED, row, f"{crate} doesn't define {name}")
