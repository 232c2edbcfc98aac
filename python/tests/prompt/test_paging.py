"""The pager on a screen of a given size. It asks when the lines since its last question fill the screen, before the
first of them would scroll away."""

import io
import os

import pytest

from nrdb.prompt.pager import MORE, Paged

ROWS, COLUMNS = 6, 10


def paged(keys: list[str], lengths: list[int], rows: int = ROWS, is_on: bool = True) -> list[str]:
    """The output for lines of these lengths: the first letter of each line, and `?` for each question, which the next
    key answers."""
    out = io.StringIO()
    pager = Paged(out, lambda: keys.pop(0), lambda: is_on)
    with pytest.MonkeyPatch.context() as patch:
        patch.setattr(out, "fileno", lambda *_, **__: 1)
        patch.setattr(os, "get_terminal_size", lambda *_, **__: os.terminal_size((COLUMNS, rows)))
        for number, length in enumerate(lengths):
            pager.write(chr(ord("a") + number) * length + "\n")
    return [line[:1] for line in out.getvalue().replace(MORE, "?\n").splitlines()]


@pytest.mark.parametrize("length", [1, 9, 10, 11, 20, 21, 30])
def test_it_asks_when_the_screen_is_full(length: int) -> None:
    """A line counts as the number of rows that its letters fill."""
    rows, result = 0, list[str]()
    for number in range(9):
        if rows >= ROWS - 1:
            rows, result = 0, [*result, "?"]
        rows, result = rows + -(-length // COLUMNS), [*result, chr(ord("a") + number)]
    assert paged([""] * 9, [length] * 9) == result


def test_keys_leave_out_the_rest_or_go_on_without_stopping() -> None:
    assert paged(["q"], [1] * 9) == [*"abcde?"]
    assert paged(["", " Quit"], [1] * 14) == [*"abcde?fghij?"]
    assert paged(["c"], [1] * 14) == [*"abcde?fghijklmn"]


def test_a_small_screen_and_a_pager_that_is_off_never_ask() -> None:
    assert paged([], [1] * 9, rows=3) == paged([], [1] * 9, is_on=False) == [*"abcdefghi"]
    assert paged([""] * 3, [1] * 9, rows=4) == [*"abc?def?ghi"]
