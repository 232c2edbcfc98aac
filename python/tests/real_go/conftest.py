"""The fixture of the tests with a real Go."""

from contextlib import ExitStack
from pathlib import Path

import pytest

from .go_programs import Tool


@pytest.fixture
def tool(folder: Path, cleanups: ExitStack) -> Tool:
    """An empty folder for a program, and netrev-go called in it."""
    return Tool(folder, cleanups)
