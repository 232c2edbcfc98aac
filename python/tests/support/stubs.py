"""Stubs for objects and for functions that fail."""

from collections.abc import Callable
from types import SimpleNamespace
from typing import Any, NoReturn


def stub(**attributes: object) -> Any:
    """An object with these attributes alone."""
    return SimpleNamespace(**attributes)


def raising(error: BaseException | type[BaseException]) -> Callable[..., NoReturn]:
    """A function that raises this error, whatever it is called with."""

    def function(*_: object, **__: object) -> NoReturn:
        raise error

    return function
