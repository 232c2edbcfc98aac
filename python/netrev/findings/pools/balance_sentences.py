"""Sentences about functions that take values from a channel and give them back: calls that kept a value, and calls that
gave a value back too often."""

from netrev.findings.evidence.siblings import lines_words
from netrev.recording.recording import Recording
from netrev.text.plurals import counted

from .balances import Balance
from .leaking_paths import paths_that_keep

MOST_BALANCES = 3  # the most sentences


def kept_sentence(recording: Recording, balances: list[Balance]) -> list[str]:
    """Sentences about the goroutines whose calls took values and didn't give them back. The sentences also name the
    lines at which these goroutines differ from others that the same `go` statement started."""
    kept = [balance for balance in balances if balance.missing > 0]
    if not kept:
        return []
    says = f"Calls that are over have kept what they took: {balances_words(kept)}."
    goids = [
        balance.name.number if balance.name.is_goid else recording.lines.goid_of(balance.name.number)
        for balance in kept
    ]
    statements = {goid: known.made for goid, known in recording.lines.goroutines.items()}
    givers = {balance.name for balance in balances if balance.missing == 0} - {balance.name for balance in kept}
    others = [
        goid for name in givers
        if statements.get(goid := name.number if name.is_goid else recording.lines.goid_of(name.number))
    ]  # fmt: skip
    others = [goid for goid in others if statements[goid] in map(statements.get, goids)]
    lines = lines_words(recording, goids, others)
    many = counted(len(others), "other")
    differ = [f"Of the goroutines of one go statement{lines.removeprefix(';')}; {many} kept nothing."] if lines else []
    return [says, *differ, *paths_that_keep(recording, balances)]


def excess_sentence(balances: list[Balance]) -> list[str]:
    """A sentence about the goroutines whose calls gave back more than they took; none if no call did."""
    found = [balance for balance in balances if balance.missing < 0]
    return [f"Calls gave back more than they took: {balances_words(found)}."] if found else []


def balances_words(balances: list[Balance]) -> str:
    """The sentences about balances, worst first."""
    return "; ".join(
        balance.says for balance in sorted(balances, key=lambda balance: -abs(balance.missing))[:MOST_BALANCES]
    )
