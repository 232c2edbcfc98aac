"""The page's server for a test."""

from contextlib import ExitStack

import pytest

from .test_web import Served


@pytest.fixture
def served(cleanups: ExitStack) -> Served:
    return Served(cleanups)
