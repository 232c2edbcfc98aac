"""scripts/pages.py: each rule finds the mistake planted for it in a small tree, and finds nothing without that
mistake."""

import pytest

from tests.support.small_tree import LOG, PAGES, TREE, SmallTree

# a mistake: the rule that finds it, the file, the old text, the new text, and the message
PLANTED: list[tuple[str, str, str, str, str]] = [
    ("markers", "docs/proof/THEOREM.md", "result ≡ total", "\n<<<<<<< HEAD\n", "<<<<<<< HEAD marks a conflict"),
    (
        "quotes",
        "docs/proof/THEOREM.md",
        "result ≡ total",
        "result ≢ total",
        "this is not in crates/counting/src/lib.rt",
    ),
    ("quotes", "docs/proof/THEOREM.md", "`crates/counting/src/lib.rt`:\n", "", "no line above it"),
    ("texts", "examples/one.script", "stepi", "continue", "one_commands has other bytes than examples/one.script"),
    ("runs", "examples/one.jsonl", "0,4]", "0,5]", "one isn't the run of examples/one.jsonl"),
    ("runs", "examples/one.jsonl", '"buf":8', '"buf":9', "one isn't the run"),
    ("beliefs", "crates/counting/specs/Count.antt", "one : ℕ", "one : ℕ\none = 1", "counting rests on 8 lines"),
    ("beliefs", "crates/counting/specs/Count.antt", "IsCount", "IsCounted", "no definition counting/Count:IsCount"),
    ("beliefs", "crates/counting/specs/Count.antt", "Sum.{total as", "Inside.{next as", "prints '| counting | 3 | 5 |"),
    (
        "beliefs",
        "crates/counting/specs/Count.antt",
        "one : ℕ",
        "one : ℕ\n\nabbrev two : ℕ",
        "no law rests on two, but laws rest",
    ),
    (
        "beliefs",
        "crates/adding/specs/Lib.antt",
        "pub mod Sum\n",
        "",
        "Sum: only the files that the laws rest on belong",
    ),
    (
        "beliefs",
        "crates/counting/specs/Lib.antt",
        "-- what callers need\n",
        "",
        "Total: only the files that the laws rest on",
    ),
    ("beliefs", "docs/proof/THEOREM.md", "`Sum` | 5", "`Sum` | 4", "has '| `adding` | `Sum` | 4 |'"),
    ("beliefs", "docs/proof/THEOREM.md", "| `counting` | `Count` | 4 |\n", "", "has 'no row'"),
    (
        "beliefs",
        "docs/proof/TRUSTED.md",
        "4 definitions",
        "5 definitions",
        "no law rests on 5 definitions in 7 lines",
    ),
    (
        "verdict",
        "docs/proof/TRUSTED.md",
        "    logic=proved",
        "    logic=refused",
        "the page has 0 lines of a verdict",
    ),
    ("verdict", "docs/proof/TRUSTED.md", "sum=d0e1", "sum=d0e2", "README.md names d0e1"),
    ("verdict", "docs/proof/TRUSTED.md", "main=Threads", "main=Threads+Wait", "the verdict has leave to wait"),
    ("verdict", "docs/proof/TRUSTED.md", "axioms=3", "axioms=3 may-wait=1", "the verdict has leave to wait"),
    ("verdict", "crates.txt", "adding:\n", "adding may_wait=1:\n", "1 functions of adding that may wait, and not 0"),
    (
        "raw-calls",
        "crates/counting/src/lib.rt",
        "of.len()",
        "of.read()",
        ".read( stands 1 times in count, and 0 are known",
    ),
    (
        "raw-calls",
        "crates/counting/src/lib.rt",
        "of.len()",
        "rt.forever()",
        ".forever( stands 1 times in count, and 0 are known",
    ),
    ("promises", "docs/proof/PROMISES.md", "`sum`", "`whole`", "there is no clause whole"),
    ("promises", "docs/proof/PROMISES.md", "`count`:", "`counted`:", "there is no counted"),
    ("promises", "docs/proof/PROMISES.md", "`total` |", "`totals` |", "there is no totals"),
    ("promises", "docs/proof/PROMISES.md", "the same", "the same: `none`", "there is no clause none"),
    ("names", "README.md", "It counts", "`count_all` counts", "nothing here has the name count_all"),
    ("in-files", "README.md", "in `crates", "`total_of` in `crates", "src/lib.rt doesn't have total_of"),
    ("links", "README.md", "docs/internals/GLOSSARY.md", "docs/WORDS.md", "leads nowhere"),
    ("links", "docs/internals/GLOSSARY.md", "#words", "#sums", "has no such heading"),
    ("paths", "README.md", "src/lib.rt", "src/main.rt", "there is no crates/counting/src/main.rt"),
    ("shared-names", "scripts/page_rules/shared_names.txt", " adding:", ":", "total is defined in adding, counting"),
    ("shared-names", "scripts/page_rules/shared_names.txt", " total", " total sum", "counting doesn't define sum"),
    ("tables", "docs/internals/ARCHITECTURE.md", ", and so does `counting/src/table.rt`", "", "names 26 kinds"),
    ("diagram", "crates.txt", "counting: adding", "counting:", "the diagram isn't what"),
    ("diagram", "docs/internals/ARCHITECTURE.md", "`crates/adding`, ", "", "leaves adding out"),
    ("imports", "python/words/plain.py", '"""\n', '"""\n\nimport nrdb.counting\n', "nrdb is below words"),
    (
        "imports",
        "python/nrdb/counting.py",
        "from words import plain",
        "from .cli import main",
        "nrdb/cli.py is below nrdb",
    ),
    ("imports", "CONTRIBUTING.md", "| `words` | words |\n", "", "has no row for it"),
    (
        "imports",
        "CONTRIBUTING.md",
        "| `words` |",
        "| `words/sums` | sums |\n| `words` |",
        "words/sums contains no module",
    ),
    ("imports", "CONTRIBUTING.md", "Python", "C", "no table under"),
    ("docstrings", "python/nrdb/counting.py", "Counts.", "The same of two.", "leans on the comment before it"),
    ("modules", "crates/counting/specs/Lib.antt", "need\n", "need\npub mod Spare\n", "imports Spare"),
    ("modules", "crates/adding/specs/Lib.antt", "definitions use\n", "use\npub mod Sum\n", "callers need Sum"),
    ("modules", "crates/counting/src/lib.rt", "pub fn count", "fn count", "no public contract cites it"),
    ("comments", "crates/counting/src/lib.rt", "How many there are in all.", "So are those.", "leans on the comment"),
    ("comments", "crates/adding/specs/Inside.antt", "one more", "the same", "leans on the comment"),
    ("forgotten", "crates/counting/src/lib.rt", "    of.len()", "    mem::forget(of)", "mem::forget leaks memory"),
    ("forgotten", "crates/counting/src/lib.rt", "    of.len()", "    Box::leak(of)", "Box::leak leaks memory"),
    ("refused", "crates/counting/src/lib.rt", "    of.len()", "    Err(AllocError)", "AllocError: nothing here says"),
    (
        "refused",
        "crates/counting/src/lib.rt",
        "    of.len()",
        "    let made = std::alloc::AllocError;",
        "AllocError: nothing here says",
    ),
    (
        "refused",
        "crates/counting/src/lib.rt",
        "    of.len()",
        "    type Other = AllocError;",
        "AllocError: nothing here",
    ),
    (
        "refused",
        "crates/counting/src/lib.rt",
        "    of.len()",
        "use std::alloc::AllocError as Other;",
        "AllocError: nothing here says",
    ),
    (
        "refused",
        "crates/counting/src/lib.rt",
        "    of.len()",
        "    Full => Err(Fault::Memory(AllocError.into())),",
        "AllocError: nothing here says",
    ),
    (
        "refused",
        "crates/counting/src/lib.rt",
        "    of.len()",
        '    w.send(b"fault 108 memory\\n")',
        "fault 108 memory is allowed only in crates/nr_recording",
    ),
    (
        "lines",
        "crates/adding/specs/Sum.antt",
        "foldr ◌add◌ items",
        "foldr ◌add◌ (" + 44 * "0 + ",
        "a line of 203 columns",
    ),
]


def test_finds_nothing_where_there_is_no_mistake(tree: SmallTree) -> None:
    tree.keep(LOG)
    assert tree.run_over() == (0, "pages: 7 pages, 22 rules, 0 findings\n")


@pytest.mark.parametrize("rule, path, old, new, says", PLANTED)
def test_each_mistake_is_found_by_its_rule(
    tree: SmallTree, rule: str, path: str, old: str, new: str, says: str
) -> None:
    assert TREE[path].count(old) == 1, "the mistake has one place"
    tree.write(path, TREE[path].replace(old, new))
    status, printed = tree.run_over(rule)
    tree.write(path, TREE[path])
    assert status == 1, printed
    assert says in printed


def test_each_rule_has_a_mistake() -> None:
    assert {rule for rule, *_ in PLANTED} == set(PAGES.RULES)


def test_each_rule_is_named_where_it_is_said_what_they_are() -> None:
    assert [rule for rule in PAGES.RULES if rule not in str(PAGES.__doc__)] == []


def test_a_page_that_is_gone_is_missed(tree: SmallTree) -> None:
    (tree.top / "docs/proof/THEOREM.md").unlink()
    status, printed = tree.run_over()
    assert (status, printed.split("\n")[0]) == (1, "there is no docs/proof/THEOREM.md")


def test_a_folder_has_at_most_fifteen_modules(tree: SmallTree) -> None:
    for count in range(4, 16):
        tree.write(f"python/nrdb/view_{count}.py", '"""A view."""\n')
    assert tree.run_over("imports")[0] == 0
    tree.write("python/nrdb/view_16.py", '"""A view."""\n')
    assert "16 modules in its folder, 15 at most" in tree.run_over("imports")[1]


def test_a_folder_in_another_may_have_a_row_of_its_own(tree: SmallTree) -> None:
    row = "| `nrdb` | counts |\n"
    tree.write("python/nrdb/views/text.py", '"""Text."""\n\nfrom nrdb.counting import counted\n')
    for rows, status in ((f"{row}| `nrdb/views` | views |\n", 0), (f"| `nrdb/views` | views |\n{row}", 1)):
        tree.write("CONTRIBUTING.md", TREE["CONTRIBUTING.md"].replace(row, rows))
        assert tree.run_over("imports")[0] == status


def test_an_unknown_rule_is_refused(tree: SmallTree) -> None:
    assert "there is no rule sums" in tree.run_over("sums")[1]
