"""Reduces a case that shows a difference, and stores it in a folder from which it can be run again."""

from pathlib import Path

from .cases import Case
from .counts import Met
from .runs import Difference, difference, first_difference

TRIES = 400
FILES = {"recording": "recording.jsonl", "script": "script"}


def with_part(case: Case, part: str, text: bytes) -> Case:
    """The case with another recording or script."""
    return case._replace(recording=text) if part == "recording" else case._replace(script=text)


def smaller(netrev: str, case: Case, folder: Path) -> Case:
    """Removes lines of the case's recording and script, as long as netrev and the model still differ. The last lines
    are removed first, because later lines depend on earlier lines. This ends when no line can be removed, or when the
    tries are used up."""
    left = TRIES
    for part in FILES:
        lines = getattr(case, part).split(b"\n")
        size, start, fewer_now = len(lines) // 2, len(lines), False
        while size and left:
            start, left = max(0, start - size), left - 1
            fewer = lines[:start] + lines[start + size :]
            shorter = with_part(case, part, b"\n".join(fewer))
            if difference(netrev, shorter, folder, Met()):
                case, lines, fewer_now = shorter, fewer, True
            if start == 0:
                size = size if size == 1 and fewer_now else size // 2
                start, fewer_now = len(lines), False
    return case


def keep(netrev: str, case: Case, differs: Difference, folder: Path) -> str:
    """Writes a case, netrev's output and the model's to a folder."""
    folder.mkdir(parents=True, exist_ok=True)
    small = smaller(netrev, case, folder)
    tells, want = difference(netrev, small, folder, Met()) or differs
    for part, name in FILES.items():
        (folder / name).write_bytes(getattr(small, part))
        (folder / f"whole-{name}").write_bytes(getattr(case, part))
    (folder / "told").write_bytes(tells.output)
    (folder / "wanted").write_bytes(want.output)
    (folder / "case").write_text(f"{case.seed}\n{case.sort}\n{case.program}\n", encoding="utf-8")
    return first_difference(tells, want)


def kept(folder: Path) -> Case:
    """The case that is stored in a folder."""
    seed, sort, program = (folder / "case").read_text(encoding="utf-8").splitlines()
    return Case(seed, sort, program, *((folder / name).read_bytes() for name in FILES.values()))
