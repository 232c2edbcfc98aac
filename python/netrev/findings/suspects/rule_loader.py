"""Loads the rules from their folders. A module's docstring is `Name: definition`, and its `rule` returns the
suspects."""

from collections.abc import Callable, Iterator
from importlib import import_module
from pkgutil import iter_modules
from types import ModuleType
from typing import NamedTuple

from . import rules, rules_of_calls
from .run import Run
from .suspect import Suspect


class Rule(NamedTuple):
    """A rule: its name, its definition, and the function that finds its suspects."""

    name: str
    definition: str
    find: Callable[[Run], Iterator[Suspect]]

    def suspects(self, run: Run) -> Iterator[Suspect]:
        """The suspects that the rule finds in a run."""
        for suspect in self.find(run):
            suspect.rule = self.name
            yield suspect


def rules_of(folder: ModuleType) -> tuple[Rule, ...]:
    """The rules in a folder."""
    names = sorted(module.name for module in iter_modules(folder.__path__))
    return tuple(_rule_of(import_module(f"{folder.__name__}.{name}")) for name in names)


def _rule_of(module: ModuleType) -> Rule:
    name, _, definition = " ".join((module.__doc__ or "").split()).partition(": ")
    return Rule(name[:1].lower() + name[1:], definition, module.rule)


RULES, RULES_OF_CALLS = rules_of(rules), rules_of(rules_of_calls)
LOST_WAKE_UP, TAKEN_BACK, LEFT_BEHIND = "lost wake-up", "deadline taken back too soon", "deadline left behind"
WRITE_AFTER_SHUT = "write after CloseWrite"
