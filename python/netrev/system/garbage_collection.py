"""Turns garbage collection off during a pass over as many as a million steps."""

import gc
from collections.abc import Iterator
from contextlib import contextmanager


@contextmanager
def without_collections() -> Iterator[None]:
    """Context in which Python doesn't search for cycles of objects. A long pass keeps nearly everything that it
    allocates, so repeated searches would find nothing and take as long as the pass."""
    was_on = gc.isenabled()
    gc.disable()
    try:
        yield
    finally:
        if was_on:
            gc.enable()


def take_all_as_kept() -> None:
    """Marks all existing objects as old, so that the next garbage collection skips the objects of a long pass."""
    gc.freeze()
    gc.unfreeze()
