"""nrdb as a program: `./nrdb FILE` (docs/reference/NRDB.md)."""

from netrev.system.immediate_exit import ended_by

from .cli import main


def program() -> None:
    ended_by(main)


if __name__ == "__main__":
    program()
