"""scripts/surface.py: it reads a source as laid out by `rt fmt`, and reports calls that aren't as listed in the table.
"""

import shutil
import subprocess
import sys
from pathlib import Path

import pytest

SCRIPT = Path(__file__).resolve().parents[3] / "scripts" / "surface.py"

SOURCE = """\
//! A counter. pub fn in_a_comment()

pub trait Counts {
    /// How many there are.
    fn count(&self) -> usize
        ensures { result ≡ length self.now };
}

impl<'f, T: Drop> Counter<'f, T>
where
    T: Clone,
{
    /// A counter.
    #[inline]
    pub fn new(
        alloc: Global,
        limit: usize,
    ) -> Result<Counter<'f, T>, Memory>
    where
        T: Drop,
        requires { limit < 2 ^ 32 }
    {
        todo(alloc, limit)
    }

    fn hidden(&self) {}

    pub(crate) fn inner(&self) {}
}

impl Counts for Counter<'_, u8> {
    fn count(&self) -> usize {
        0
    }
}

/// Counts all.
pub fn count_all<C: Counts>(of: &[C]) -> usize
    ensures { result ≡ total of.now }
{
    0
}
"""
TABLE = """\
# a comment
counting
    Counter::new(alloc: Global, limit: usize) -> Result<Counter<'f, T>, Memory>
    Counts::count(&self) -> usize
    count_all(of: &[C]) -> usize
"""


@pytest.fixture
def top(folder: Path) -> Path:
    (folder / "scripts").mkdir()
    (folder / "crates/counting/src").mkdir(parents=True)
    shutil.copy(SCRIPT, folder / "scripts")
    return folder


def run_over(top: Path, source: str, table: str, *words: str) -> subprocess.CompletedProcess[str]:
    """Runs the script over a tree of one crate."""
    (top / "crates/counting/src/lib.rt").write_text(source, encoding="utf-8")
    (top / "scripts/surface.txt").write_text(table, encoding="utf-8")
    command = [sys.executable, str(top / "scripts/surface.py"), *words]
    return subprocess.run(command, capture_output=True, text=True)


def test_lists_just_the_public_calls(top: Path) -> None:
    listed = run_over(top, SOURCE, TABLE, "--list", "counting")
    assert listed.stdout.split("\n")[1:-1] == TABLE.split("\n")[2:-1]


def test_takes_the_calls_that_are_there(top: Path) -> None:
    compared = run_over(top, SOURCE, TABLE)
    assert (compared.returncode, compared.stdout.split(",")[0]) == (0, "surface: 3 calls of 1 crates")


def test_an_argument_that_a_body_leaves_unused_is_the_same_call(top: Path) -> None:
    compared = run_over(top, SOURCE.replace("of: &[C]", "_of: &[C]"), TABLE)
    assert compared.returncode == 0, compared.stdout


@pytest.mark.parametrize(
    "old, new",
    [
        ("fn count(&self)", "fn counted(&self)"),
        ("pub fn count_all", "pub fn all"),
        ("limit: usize", "most: usize"),
        ("of: &[C]", "of: Vec<C>"),
        (") -> Result<Counter<'f, T>, Memory>", ") -> Counter<'f, T>"),
        ("pub fn new(", "pub(crate) fn new("),
    ],
)
def test_reports_another_name_argument_or_result(top: Path, old: str, new: str) -> None:
    compared = run_over(top, SOURCE.replace(old, new, 1), TABLE)
    assert compared.returncode == 1, compared.stdout
    assert "the source has:" in compared.stdout


def test_a_table_without_calls_is_refused(top: Path) -> None:
    assert run_over(top, SOURCE, "counting\n").returncode == 1
