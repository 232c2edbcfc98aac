"""The suspects of a recording by all rules, worst first. Of several suspects with the same subject, only one is
listed."""

from collections.abc import Iterable
from typing import NamedTuple

from netrev.recording.notes import Timeout
from netrev.recording.recording import Recording
from netrev.run.index import run_of
from netrev.run.notes import Notes

from .rule_loader import RULES, RULES_OF_CALLS, Rule
from .run import Run
from .suspect import Suspect


class Ranked(NamedTuple):
    """The suspects of a recording, worst first, and the calls that ended with a timeout."""

    suspects: list[Suspect]
    timeouts: list[Timeout]


def suspects_of(recording: Recording) -> Ranked:
    """The suspects that the rules about cells find. These are all rules except the rules about calls."""
    prepare(recording)
    return by_cells(Run(Notes(recording)))


def all_suspects_of(recording: Recording) -> Ranked:
    """The suspects that all rules find. Suspects from the rules about calls come last."""
    prepare(recording)
    run = Run(run_of(recording).notes)
    ranked = by_cells(run)
    return Ranked([*ranked.suspects, *worst_of_each(found(RULES_OF_CALLS, run))], ranked.timeouts)


def prepare(recording: Recording) -> None:
    """Starts `netrev suspects` if the rules use its list."""
    if recording.suspects:
        recording.suspects.prepare()


def by_cells(run: Run) -> Ranked:
    return Ranked(worst_of_each(found(RULES, run)), run.notes.timeouts)


def found(rules: Iterable[Rule], run: Run) -> list[Suspect]:
    """The suspects that rules find in a run."""
    return [suspect for rule in rules for suspect in rule.suspects(run)]


def worst_of_each(suspects: list[Suspect]) -> list[Suspect]:
    """The worst suspect of each subject, with the number of the subject's other suspects; worst first."""
    kept: dict[tuple[object, ...], list[Suspect]] = {}
    for suspect in sorted(suspects, key=lambda candidate: (-candidate.weight, candidate.step)):
        kept.setdefault(suspect.subject, []).append(suspect)
    for first, *others in kept.values():
        if others:
            first.says.append(f"{len(others)} more like it")
    return [alike[0] for alike in kept.values()]
