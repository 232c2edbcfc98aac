"""A package that netrev-go tests."""

from contextlib import ExitStack
from pathlib import Path

import pytest

from .test_go_tests import Tested


@pytest.fixture
def package(folder: Path, monkeypatch: pytest.MonkeyPatch, cleanups: ExitStack) -> Tested:
    return Tested(folder, monkeypatch, cleanups)
