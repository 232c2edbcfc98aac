"""A timeline's packed columns: unpacking gives the original numbers, up to the greatest number of each width."""

import struct
from base64 import b64decode

from netrev.timeline.calls import packed

KINDS = {1: "B", 2: "H", 4: "I", 8: "d"}


def read_back(column: object, count: int) -> list[int]:
    """The numbers of a column, as the page's script reads them."""
    if not isinstance(column, list):
        assert isinstance(column, int)
        return [column] * count
    wide, text = column
    return [int(number) for number in struct.unpack(f"<{count}{KINDS[wide]}", b64decode(text))]


def test_each_width_holds_its_greatest_number() -> None:
    for most, wide in ((255, 1), (256, 2), (65_535, 2), (65_536, 4), (2**32 - 1, 4), (2**32, 8), (2**53, 8)):
        column = [most, 0, 1, most - 1]
        column_text = packed(column)
        assert column_text[0] == wide
        assert read_back(column_text, len(column)) == column


def test_one_value_stands_once() -> None:
    assert packed([7, 7, 7]) == 7
    assert packed([0]) == 0
