"""The only test that `python3 -m unittest` finds here: it fails and says how to run the tests with pytest."""

import unittest


def load_tests(_loader: unittest.TestLoader, _tests: unittest.TestSuite, _pattern: str) -> unittest.TestSuite:
    raise SystemExit("unittest runs none of these tests; pytest does: sh scripts/pytest.sh [FILE ..]")
