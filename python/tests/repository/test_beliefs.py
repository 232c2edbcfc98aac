"""scripts/beliefs.py: the definitions that a law of the small tree rests on, their order, and the definitions that
aren't followed."""

import pytest

from tests.support.small_tree import COUNT, READING, THEOREM, SmallTree


def test_beliefs_print_what_the_page_has(tree: SmallTree) -> None:
    assert tree.beliefs() in THEOREM


def test_tables_that_are_old_are_written_anew(tree: SmallTree) -> None:
    tree.write(
        "docs/proof/THEOREM.md",
        THEOREM.replace("`Sum` | 5", "`Sum` | 4").replace("| counting | 4", "| counting | 5"),
    )
    tree.beliefs("--write")
    assert (tree.top / "docs/proof/THEOREM.md").read_text(encoding="utf-8") == THEOREM


def test_a_page_without_tables_is_left_as_it_is(tree: SmallTree) -> None:
    bare = THEOREM.partition("| Law")[0]
    tree.write("docs/proof/THEOREM.md", bare)
    tree.beliefs("--write")
    assert (tree.top / "docs/proof/THEOREM.md").read_text(encoding="utf-8") == bare


def test_beliefs_of_a_definition_are_those_below_it(tree: SmallTree) -> None:
    assert "| `total` | 2 | 4 |  | 1 | 1 | 1 |\n" in tree.beliefs("adding/Sum:total")
    assert "there is no definition adding/Sum:mean" in tree.beliefs("adding/Sum:mean")


def test_beliefs_have_names_in_reading_order(tree: SmallTree) -> None:
    assert tree.beliefs("--names").splitlines() == [
        "crates/adding/specs/Sum.antt: total ◌add◌",
        "crates/counting/specs/Count.antt: IsCount one",
    ]


def test_a_file_stands_behind_those_that_it_rests_on(tree: SmallTree) -> None:
    tree.write("crates/counting/specs/Zero.antt", "abbrev pub nothing : ℕ\n")
    uses = "use Rattle.counting.specs.Zero\n" + COUNT.replace("sum of", "Zero.nothing")
    tree.write("crates/counting/specs/Count.antt", uses)
    files = [line.split(":")[0].rpartition("/")[2] for line in tree.beliefs("--names").splitlines()]
    assert files == ["Zero.antt", "Count.antt"]


def test_a_constructor_is_its_type_and_a_module_with_parameters_has_definitions(tree: SmallTree) -> None:
    tree.write(
        "crates/counting/specs/Zero.antt",
        "pub data Size : Type 0 where\n  small : Size\n  large : Size\n\n"
        "module _ {Item : Type 0} where\n  -- no item\n  abbrev pub none : List Item\n  none = []\n",
    )
    uses = "use Rattle.counting.specs.Zero.{small, none}\n" + COUNT.replace("sum of", "none of small")
    tree.write("crates/counting/specs/Count.antt", uses)
    names = tree.beliefs("--names").splitlines()
    assert names[0] == "crates/counting/specs/Zero.antt: Size none"
    assert "| `counting` | `Zero`, `Count` | 10 |" in tree.beliefs()


def test_a_definition_that_goes_on_behind_an_empty_line_is_one(tree: SmallTree) -> None:
    tree.write("crates/adding/specs/Sum.antt", "abbrev pub total : ℕ\ntotal = 0\n\ntotal = other\n\nabbrev other : ℕ\n")
    assert "| `total` | 2 | 4 |  | 0 | 1 | 0 |\n" in tree.beliefs("adding/Sum:total")


def test_what_a_law_is_handed_counts_and_is_not_opened(monkeypatch: pytest.MonkeyPatch, tree: SmallTree) -> None:
    law = READING.Law("counting", ("counting/Count:IsCount",), 9, ("adding/Sum:total",))
    monkeypatch.setattr(READING, "LAWS", (law,))
    assert "| counting | 3 | 5 | 9 | 2 | 2 | 0 |" in tree.beliefs()
