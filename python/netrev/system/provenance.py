"""The origin of netrev's program: its path, its SHA-256 and, if the package has it, the logic of its proofs."""

import hashlib
import os
from pathlib import Path

from netrev.text.plain import plain

from .command_lines import PACKAGES, how_to_get_netrev
from .program_path import BUILT, INSTALLED

PROVED = (
    PACKAGES / "proved.txt"
)  # in a package: the checksum of its program, and the output of `rt version` when it was proved
UNKNOWN = "not recorded for this program"


def program_lines(program: str | None) -> list[str]:
    """The facts about netrev's program."""
    if not program or not Path(program).is_file():
        return [f"netrev's program is missing: {how_to_get_netrev('NETREV or --netrev')}"]
    try:
        sum_of_it = hashlib.sha256(Path(program).read_bytes()).hexdigest()
    except OSError as fault:
        return [plain(f"netrev's program {program} can't be read: {fault.strerror}")]
    return [
        plain(f"program: {program} ({origin(program)})"),
        f"sha256:  {sum_of_it}",
        f"proofs:  {proofs_of(sum_of_it)}",
    ]


def origin(program: str) -> str:
    """The origin of a program."""
    if same_file(program, BUILT):
        return "built in this clone"
    if PACKAGES.parts[-2:] == ("lib", "netrev") and same_file(program, INSTALLED):
        return "installed with this nrdb"
    named = " by NETREV" if program == os.environ.get("NETREV") else ""
    return f"named{named}, not installed with this nrdb" if named else "not installed with this nrdb"


def same_file(program: str, other: Path) -> bool:
    return other.is_file() and os.path.samefile(program, other)


def proofs_of(sum_of_it: str) -> str:
    """The toolchain and the logic with which a program with this checksum was proved."""
    try:
        proved, logic = PROVED.read_text(encoding="utf-8").split("\n")[:2]
    except (OSError, ValueError):
        return UNKNOWN
    return plain(logic) if proved == sum_of_it else UNKNOWN
