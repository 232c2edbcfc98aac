"""The mutants of a Python module: each changes one place of its text. The kinds are everyday mistakes: a wrong
comparison, a dropped case, swapped sides, an off-by-one error, a forgotten step."""

from __future__ import annotations

import ast
from collections.abc import Iterator
from dataclasses import dataclass
from pathlib import Path

COMPARISON, CASE, SIDES, OFF_BY_ONE, FORGOTTEN = KINDS = (
    "comparison",
    "dropped case",
    "swapped sides",
    "off by one",
    "forgotten",
)
TOO_LONG, NOT_PUT_IN = "too long", "not put in"  # results of trying a mutant
COMPARED = {
    ast.Lt: ("<", "<="), ast.LtE: ("<=", "<"), ast.Gt: (">", ">="), ast.GtE: (">=", ">"), ast.Eq: ("==", "!="),
    ast.NotEq: ("!=", "=="), ast.Is: ("is", "is not"), ast.IsNot: ("is not", "is"), ast.In: ("in", "not in"),
    ast.NotIn: ("not in", "in"),
}  # fmt: skip
SWAPPED = {
    "READING": "WRITING", "WRITING": "READING", "min": "max", "max": "min", "popleft": "pop", "appendleft": "append",
    "any": "all", "all": "any", "startswith": "endswith", "endswith": "startswith", "partition": "rpartition",
    "rpartition": "partition", "bisect_left": "bisect_right", "bisect_right": "bisect_left",
}  # fmt: skip
SWAPPED_TEXTS = {"r": "w", "w": "r", "yes": "no", "no": "yes", "done": "stale", "stale": "done"}
CALLS_FORGOTTEN = {
    "append",
    "add",
    "extend",
    "update",
    "clear",
    "pop",
    "popleft",
    "remove",
    "discard",
    "sort",
    "insert",
}


@dataclass(frozen=True)
class Mutant:
    """A change to a file, which replaces the text between two places."""

    file: str  # relative to the repository's folder
    line: int
    function: str  # qualified name; empty for the module
    code: str  # the innermost function's qualified name
    is_inside: bool  # a function, rather than a module's or class's body
    kind: str
    begin: int
    end: int
    old: str
    new: str
    source: str  # the line as it was

    def name(self) -> str:
        """A name that stays the same when the lines above it change."""
        return f"{self.file}|{self.function}|{' '.join(self.source.split())}|{_brief(self.old)} -> {_brief(self.new)}"

    def applied(self, text: str) -> str:
        assert text[self.begin : self.end] == self.old
        return text[: self.begin] + self.new + text[self.end :]


def _brief(text: str) -> str:
    return " ".join(text.split())[:80]


class Finder(ast.NodeVisitor):
    """Finds the mutants of a module."""

    def __init__(self, file: str, text: str) -> None:
        self.file, self.text = file, text
        self.lines = [f"{line}\n" for line in text.split("\n")]
        self.starts = [0]
        for line in self.lines:
            self.starts.append(self.starts[-1] + len(line))
        self.names: list[str] = []
        self.functions = 0  # around the place
        self.is_method_of_set_up = False
        self.found: list[Mutant] = []

    def place(self, line: int, column: int) -> int:
        """The offset in the text for a line and a column; columns count bytes."""
        return self.starts[line - 1] + len(self.lines[line - 1].encode()[:column].decode())

    def span(self, node: ast.AST) -> tuple[int, int]:
        assert isinstance(node, (ast.expr, ast.stmt)) and node.end_lineno and node.end_col_offset is not None
        return self.place(node.lineno, node.col_offset), self.place(node.end_lineno, node.end_col_offset)

    def put(self, kind: str, begin: int, end: int, new: str) -> None:
        line = self.text.count("\n", 0, begin) + 1
        old = self.text[begin:end]
        new += "\n" * (old.count("\n") - new.count("\n"))  # the text below stays on its line
        function = ".".join(self.names).split(".<locals>")[0]
        code = ".".join(self.names).removesuffix(".<locals>")
        source = self.lines[line - 1].strip()
        self.found.append(
            Mutant(self.file, line, function, code, self.functions > 0, kind, begin, end, old, new, source)
        )

    def of_node(self, kind: str, node: ast.AST, new: str) -> None:
        self.put(kind, *self.span(node), new)

    def source(self, node: ast.AST) -> str:
        begin, end = self.span(node)
        return self.text[begin:end]

    # not mutated: types, assertions, and constants of the form `if TYPE_CHECKING`
    def visit_AnnAssign(self, node: ast.AnnAssign) -> None:
        if node.value:
            self.visit(node.value)

    def visit_Assert(self, node: ast.Assert) -> None:
        pass

    def visit_arg(self, node: ast.arg) -> None:
        pass

    def visit_JoinedStr(self, node: ast.JoinedStr) -> None:
        pass  # (before Python 3.12 its parts have no positions)

    def visit_Raise(self, node: ast.Raise) -> None:
        pass  # (the text of an error comes from a table, and isn't tested)

    def visit_ClassDef(self, node: ast.ClassDef) -> None:
        self.names.append(node.name)
        for statement in node.body:
            self.visit(statement)
        self.names.pop()

    def visit_FunctionDef(self, node: ast.FunctionDef) -> None:
        self.function(node)

    def function(self, node: ast.FunctionDef | ast.AsyncFunctionDef) -> None:
        for default in (*node.args.defaults, *(default for default in node.args.kw_defaults if default)):
            self.visit(default)
        self.names += [node.name, "<locals>"]
        before, self.is_method_of_set_up = self.is_method_of_set_up, node.name == "__init__"
        self.functions += 1
        self.body(node.body)
        self.functions -= 1
        self.is_method_of_set_up = before
        del self.names[-2:]

    def visit_AsyncFunctionDef(self, node: ast.AsyncFunctionDef) -> None:
        self.function(node)

    def body(self, statements: list[ast.stmt]) -> None:
        for statement in statements:
            self.visit(statement)

    def visit_Compare(self, node: ast.Compare) -> None:
        left = node.left
        for operator, right in zip(node.ops, node.comparators):
            old, new = COMPARED[type(operator)]
            begin, end = self.span(left)[1], self.span(right)[0]
            between = self.text[begin:end]
            at = between.find(old)
            if at >= 0 and between.strip(" ()\n") == old:
                self.put(COMPARISON, begin + at, begin + at + len(old), new)
                ordered = {"<": ">=", "<=": ">", ">": "<=", ">=": "<"}
                if old in ordered:
                    self.put(COMPARISON, begin + at, begin + at + len(old), ordered[old])
            left = right
        self.generic_visit(node)

    def visit_BoolOp(self, node: ast.BoolOp) -> None:
        always = "True" if isinstance(node.op, ast.And) else "False"
        for value in node.values:
            self.of_node(CASE, value, always)
        for before, after in zip(node.values, node.values[1:]):
            begin, end = self.span(before)[1], self.span(after)[0]
            old, new = ("and", "or") if always == "True" else ("or", "and")
            at = self.text[begin:end].find(old)
            if at >= 0:
                self.put(COMPARISON, begin + at, begin + at + len(old), new)
        self.generic_visit(node)

    def visit_UnaryOp(self, node: ast.UnaryOp) -> None:
        if isinstance(node.op, ast.Not):
            self.of_node(COMPARISON, node, f"({self.source(node.operand)})")
        self.generic_visit(node)

    def visit_If(self, node: ast.If) -> None:
        self.of_node(CASE, node.test, "False")
        if not node.orelse:
            self.of_node(CASE, node.test, "True")
        elif not isinstance(node.orelse[0], ast.If):
            self.of_node(CASE, node.test, "True")
        self.generic_visit(node)

    def visit_IfExp(self, node: ast.IfExp) -> None:
        self.of_node(CASE, node, f"({self.source(node.body)})")
        self.of_node(CASE, node, f"({self.source(node.orelse)})")
        self.generic_visit(node)

    def visit_comprehension(self, node: ast.comprehension) -> None:
        for condition in node.ifs:
            self.of_node(CASE, condition, "True")
        self.generic_visit(node)

    def visit_While(self, node: ast.While) -> None:
        begin = self.span(node)[0]
        if not node.orelse and not any(isinstance(child, (ast.Break, ast.Continue)) for child in ast.walk(node)):
            self.put(CASE, begin, begin + len("while"), "if")
        self.generic_visit(node)

    def visit_Set(self, node: ast.Set) -> None:
        self.elements(node.elts)
        self.generic_visit(node)

    def elements(self, elements: list[ast.expr]) -> None:
        """Drops each of a set's elements in turn."""
        for element in elements:
            if len(elements) > 1:
                self.of_node(CASE, element, self.source(elements[0] if element is not elements[0] else elements[1]))

    def visit_Name(self, node: ast.Name) -> None:
        if isinstance(node.ctx, ast.Load) and node.id in SWAPPED:
            self.of_node(SIDES, node, SWAPPED[node.id])

    def visit_Attribute(self, node: ast.Attribute) -> None:
        if node.attr in SWAPPED and isinstance(node.ctx, ast.Load):
            end = self.span(node)[1]
            self.put(SIDES, end - len(node.attr), end, SWAPPED[node.attr])
        self.generic_visit(node)

    def visit_Call(self, node: ast.Call) -> None:
        if len(node.args) == 2 and not any(isinstance(argument, ast.Starred) for argument in node.args):
            first, second = self.span(node.args[0]), self.span(node.args[1])
            texts = self.source(node.args[0]), self.source(node.args[1])
            plain = all(isinstance(argument, (ast.Name, ast.Attribute)) for argument in node.args)
            if plain and texts[0] != texts[1] and not self.is_kept_order(node):
                between = self.text[first[1] : second[0]]
                self.put(SIDES, first[0], second[1], texts[1] + between + texts[0])
        self.generic_visit(node)

    def is_kept_order(self, node: ast.Call) -> bool:
        """Whether to leave out swapped arguments, because their order doesn't matter or is checked by types."""
        return isinstance(node.func, ast.Name) and node.func.id in (
            "isinstance", "issubclass", "min", "max", "map", "filter", "field", "getattr", "hasattr", "suppress", "TypeVar",
        )  # fmt: skip

    def visit_Constant(self, node: ast.Constant) -> None:
        if isinstance(node.value, bool):
            return
        if isinstance(node.value, int):
            self.of_node(OFF_BY_ONE, node, str(node.value + 1))
            if node.value > 0:
                self.of_node(OFF_BY_ONE, node, str(node.value - 1))
        elif isinstance(node.value, str) and node.value in SWAPPED_TEXTS and self.functions:
            text = self.source(node)
            if text in (f'"{node.value}"', f"'{node.value}'"):
                self.of_node(SIDES, node, f'"{SWAPPED_TEXTS[node.value]}"')

    def visit_Subscript(self, node: ast.Subscript) -> None:
        index = self.source(node.slice)
        if index in ("0", "-1"):
            self.of_node(SIDES, node.slice, "-1" if index == "0" else "0")
        self.generic_visit(node)

    def visit_BinOp(self, node: ast.BinOp) -> None:
        swapped = {ast.Add: ("+", "-"), ast.Sub: ("-", "+"), ast.BitOr: ("|", "&"), ast.BitAnd: ("&", "|")}
        if type(node.op) in swapped and not self.is_text(node.left) and not self.is_text(node.right):
            old, new = swapped[type(node.op)]
            begin, end = self.span(node.left)[1], self.span(node.right)[0]
            at = self.text[begin:end].find(old)
            if at >= 0 and (self.functions or isinstance(node.op, (ast.Add, ast.Sub))):
                self.put(OFF_BY_ONE if old in "+-" else SIDES, begin + at, begin + at + 1, new)
        self.generic_visit(node)

    def is_text(self, node: ast.expr) -> bool:
        return isinstance(node, (ast.JoinedStr, ast.List, ast.Tuple, ast.ListComp)) or (
            isinstance(node, ast.Constant) and isinstance(node.value, (str, bytes))
        )

    def visit_Assign(self, node: ast.Assign) -> None:
        self.forgotten(node, node.targets[0])
        for target in node.targets:
            self.visit(target)
        self.visit(node.value)

    def visit_AugAssign(self, node: ast.AugAssign) -> None:
        self.of_node(FORGOTTEN, node, "pass")
        if isinstance(node.op, (ast.Add, ast.Sub)):
            begin, end = self.span(node.target)[1], self.span(node.value)[0]
            old, new = ("+=", "-=") if isinstance(node.op, ast.Add) else ("-=", "+=")
            at = self.text[begin:end].find(old)
            if not self.is_text(node.value):
                self.put(OFF_BY_ONE, begin + at, begin + at + 2, new)
        self.generic_visit(node)

    def forgotten(self, node: ast.stmt, target: ast.expr) -> None:
        """Drops an assignment that gives a variable a new value."""
        if self.functions and not self.is_method_of_set_up and isinstance(target, (ast.Attribute, ast.Subscript)):
            self.of_node(FORGOTTEN, node, "pass")

    def visit_Expr(self, node: ast.Expr) -> None:
        if isinstance(node.value, ast.Constant):
            return  # a docstring
        if self.functions and isinstance(node.value, ast.Call):
            self.of_node(FORGOTTEN, node, "pass")
        self.generic_visit(node)

    def visit_Delete(self, node: ast.Delete) -> None:
        self.of_node(FORGOTTEN, node, "pass")

    def visit_Continue(self, node: ast.Continue) -> None:
        self.of_node(FORGOTTEN, node, "pass")

    def visit_Break(self, node: ast.Break) -> None:
        self.of_node(FORGOTTEN, node, "pass")

    def visit_Return(self, node: ast.Return) -> None:
        if node.value is None:
            self.of_node(FORGOTTEN, node, "pass")
        self.generic_visit(node)


def mutants_of(root: Path, path: Path) -> Iterator[Mutant]:
    """The mutants of a module."""
    text = path.read_text(encoding="utf-8")
    finder = Finder(str(path.relative_to(root)), text)
    finder.visit(ast.parse(text))
    known = set()
    for mutant in finder.found:
        key = mutant.begin, mutant.end, mutant.new
        if key not in known and mutant.old != mutant.new:
            known.add(key)
            yield mutant


def can_compile(mutant: Mutant, text: str) -> bool:
    """Whether Python compiles the mutant of this text."""
    try:
        compile(mutant.applied(text), mutant.file, "exec", dont_inherit=True)
    except SyntaxError:
        return False
    return True
