"""scripts/verdicts.py and its rule: a verdict is valid for the files that it was made for, and is compared with the
page."""


from tests.support.small_tree import LOG, SmallTree


def test_a_verdict_that_differs_from_the_page_is_found(tree: SmallTree) -> None:
    tree.keep(LOG.replace("axioms=3", "axioms=4"))
    assert "the verdict on counting differs in axioms=4" in tree.run_over("verdict")[1]


def test_a_verdict_that_may_wait_is_found(tree: SmallTree) -> None:
    tree.keep(LOG.replace("functions=2", "functions=2 may-wait=1"))
    assert "of adding 1 functions may wait, and crates.txt has 0" in tree.run_over("verdict")[1]


def test_a_kept_verdict_counts_where_a_later_log_has_none(tree: SmallTree) -> None:
    tree.keep(LOG.replace("axioms=3", "axioms=4"))
    tree.keep("rt: counting is kept: an earlier run on this machine proved the same files\n")
    assert tree.run_over("verdict")[0] == 1


def test_a_check_that_went_on_from_another_is_no_verdict(tree: SmallTree) -> None:
    tree.keep(LOG.replace("axioms=3 main=Threads", "axioms=4 incremental=trusted"))
    assert tree.run_over("verdict")[0] == 0


def test_a_verdict_on_other_files_counts_for_nothing(tree: SmallTree) -> None:
    tree.keep(LOG.replace("axioms=3", "axioms=4"))
    tree.write("crates/adding/src/lib.rt", "//! Adds more.\n")
    status, printed = tree.run_over("verdict")
    assert (status, printed.split(",")[0]) == (0, "note: no verdict on these files of counting is kept here")
