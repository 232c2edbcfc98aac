"""The scout, which queries positions with its own netrev or with the session's."""

import gc
from pathlib import Path

from netrev.connection.scout import Scout
from netrev.system.garbage_collection import take_all_as_kept
from netrev.system.interrupts import Interrupts
from tests.support.model_sessions import Modelled, recording_at

MODEL = recording_at(Path(__file__).resolve().parents[3] / "examples/leaked-reference.jsonl")


def test_a_netrev_that_was_lent_looks_first_and_is_given_back() -> None:
    opened: list[Modelled] = []

    def opens() -> Modelled:
        opened.append(Modelled(MODEL, Interrupts(), lambda _: None))
        return opened[-1]

    lent = opens()
    scout, own = Scout(opens, lent), Scout(opens)
    assert scout.values(7, ["lock 0"]) == own.values(7, ["lock 0"])
    assert len(opened) == 2  # (`own` had to start the second netrev)
    scout.drop()
    own.drop()
    assert [netrev.has_ended for netrev in opened] == [False, True]
    assert (
        scout.values(7, ["gor 0"]) and len(opened) == 3
    )  # (`scout` had returned the first netrev, `lent`, and had to start a third)
    scout.drop()
    assert [netrev.has_ended for netrev in opened] == [False, True, True]


def test_what_is_kept_counts_as_old() -> None:
    lists: list[list[int]] = [[] for _ in range(1000)]
    take_all_as_kept()
    assert gc.get_count()[0] < len(lists) and gc.get_freeze_count() == 0
