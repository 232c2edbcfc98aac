"""A browser for the tests of pages."""

from collections.abc import Iterator

import pytest

from tests.program.nrdb.common.browser import CHROMIUM, NO_CHROMIUM
from tests.program.nrdb.common.devtools import Chromium


@pytest.fixture(scope="module")
def chromium() -> Iterator[Chromium]:
    if not CHROMIUM:
        pytest.skip(NO_CHROMIUM)
    with Chromium() as browser:
        yield browser
