"""A number with its noun."""


def counted(number: int, noun: str, plural: str | None = None) -> str:
    """A number with its noun, such as `1 reference` or `2 references`."""
    return f"{number} {noun if number == 1 else plural or noun + 's'}"
