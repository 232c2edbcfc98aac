"""The small tree for the tests of scripts."""

from pathlib import Path

import pytest

from tests.support.small_tree import SmallTree


@pytest.fixture
def tree(folder: Path, monkeypatch: pytest.MonkeyPatch) -> SmallTree:
    return SmallTree(folder, monkeypatch)
