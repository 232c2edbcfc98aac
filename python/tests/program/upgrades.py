"""Tests `netrev upgrade` with the built program. The name of each case begins with its kind:

    stored     upgraded recordings are compared with stored texts; one of them has an answer that isn't the machine's
    written    however a recording is written, its upgrade is compact, with keys in alphabetical order and hexadecimal
               digits in lower case
    refused    faults, usage errors and a missing file: the statuses equal those of `check`
    recording  the upgrade of each stored recording equals the text of the fuzzer's model (python/netrev/machine); `check`
               accepts it, a second upgrade has the same bytes, and `run` has the same replies for it
"""

import subprocess
from pathlib import Path

import pytest

from tests.support import examples

from .support.case_files import upgrade_of
from .support.sharing import NETREV, PATIENCE, ROOT, expect

WOKEN = ROOT / "scripts/recordings/woken-by-an-event.jsonl"
ANSWERS, OTHER, SHUT = (ROOT / f"examples/{name}.jsonl" for name in ("answers", "other-answer", "shut-write-side"))
DIFFERS = f"step {examples.REFUSED['other-answer']}: fault 109 answer\n".encode()

# a program and its file, the status, and the output, given as a text or as a file that contains it
STORED: tuple[tuple[str, Path, int, bytes | Path], ...] = (
    ("check", ANSWERS, 0, b"ok 12 steps\n"),
    ("upgrade", WOKEN, 0, ANSWERS),
    ("upgrade", ANSWERS, 0, ANSWERS),
    ("check", OTHER, 1, DIFFERS),
    ("upgrade", OTHER, 1, DIFFERS),
    ("run", OTHER, 1, DIFFERS),
    ("check", SHUT, 0, b"ok 5 steps\n"),
    ("upgrade", SHUT, 0, SHUT),
)

HEADER = b'{"buf":16,"desc":1,"gor":2,"netrev":%d,"sock":1}\n'
PLAIN = (
    HEADER % 2 + b'["sockopen",16,4,["number",0]]\n["arrive",0,"abcd","done"]\n["syswrite",0,0,"abcdef",["put",3]]\n'
)
SPELLED = b"""
 { "sock" : 1 , "gor":2, "desc":1,"buf":9,"buf":16 ,"netrev":%d}\t
[ "sockopen" , 16 , 4 %s ]\r
\t \r
["arrive",0,"AbCd"%s]
["\\u0073yswrite",0,0,"ABcdEF"%s]"""
# the form of the recording, its text, and the text of the upgrade
WRITTEN = (
    ("version 1 with blanks, an escape and upper case", SPELLED % (1, b"", b"", b""), PLAIN),
    (
        "version 2 with blanks, escapes and upper case",
        SPELLED % (2, b', [ "number", 0 ]', b',"\\u0064one"', b',["put",3]'),
        PLAIN,
    ),
    ("version 1 without steps", HEADER % 1, HEADER % 2),
    ("version 2 without steps, and without a line feed", (HEADER % 2).rstrip(), HEADER % 2),
    (
        "the least and the greatest numbers",
        HEADER % 1
        + b'["sockopen",1,16]\n["pollopen",0,0]\n["setdeadline",0,0,"rw",-9223372036854775808]\n'
        + b'["pollevent",0,18446744073709551615,"rw",1]\n["tick",9223372036854775807]\n',
        HEADER % 2
        + b'["sockopen",1,16,["number",0]]\n["pollopen",0,0,["number",0]]\n'
        + b'["setdeadline",0,0,"rw",-9223372036854775808,"done"]\n'
        + b'["pollevent",0,18446744073709551615,"rw",1,"stale"]\n["tick",9223372036854775807,"done"]\n',
    ),
)

USAGE = b"""usage: netrev run FILE
       netrev check FILE
       netrev upgrade FILE
       netrev changes FILE
       netrev suspects FILE
       netrev serve FILE --port P [--fronts N] [--workers W] [--journal H] [--connections C]
"""
# the arguments, the status, the output, and the text on standard error
REFUSED = (
    ("no file named", ["upgrade"], 2, b"", USAGE),
    ("two files", ["upgrade", ANSWERS, ANSWERS], 2, b"", USAGE),
    ("an option of serve", ["upgrade", ANSWERS, "--port"], 2, b"", USAGE),
    ("a capital", ["Upgrade", ANSWERS], 2, b"", USAGE),
    ("no such file", ["upgrade", "no such file"], 3, b"", b""),
    ("a folder", ["upgrade", "/"], 3, b"", b""),
    ("nothing in it", ["upgrade", "/dev/null"], 1, b"line 1: fault 101 header\n", b""),
)

RECORDINGS = sorted([*ROOT.glob("examples/**/*.jsonl"), *ROOT.glob("scripts/recordings/*.jsonl")])
LOOKS = b"".join(
    b"print %s\nstepi 3\n" % cell for cell in (b"lock 0", b"gor 0", b"rg 0", b"out 0", b"clock", b"info 0")
)


def ended(words, given=b""):
    """The status, the output and the errors of netrev with these arguments."""
    process = subprocess.run([NETREV, *words], input=given, capture_output=True, timeout=PATIENCE, check=False)
    return process.returncode, process.stdout, process.stderr


def played(words, status, output, errors=b""):
    """Runs netrev with these arguments, and checks the status, the output and the errors."""
    expect("status, output and errors", (status, output, errors), ended(words))


@pytest.mark.parametrize("path", [pytest.param(path, id=f"recording {path.relative_to(ROOT)}") for path in RECORDINGS])
def test_recording(folder, path):
    """The upgrade of a recording, and the upgrade of the result; a recording that is refused has the same fault in both
    programs."""
    right = upgrade_of(path.read_bytes())
    if right.startswith(b"step "):
        played(["upgrade", path], 1, right)
        return played(["check", path], 1, right)
    played(["upgrade", path], 0, right)
    again = folder / "again.jsonl"
    again.write_bytes(right)
    played(["check", again], 0, b"ok %d steps\n" % (right.count(b"\n") - 1))
    played(["upgrade", again], 0, right)
    expect("run over the upgrade", ended(["run", path], LOOKS), ended(["run", again], LOOKS))


@pytest.mark.parametrize(
    "word, path, status, right", [pytest.param(*row, id=f"stored: {row[0]} {row[1].stem}") for row in STORED]
)
def test_stored(word, path, status, right):
    played([word, path], status, right.read_bytes() if isinstance(right, Path) else right)


@pytest.mark.parametrize("text, right", [pytest.param(*row, id=f"written: {what}") for what, *row in WRITTEN])
def test_written(folder, text, right):
    (folder / "given.jsonl").write_bytes(text)
    played(["upgrade", folder / "given.jsonl"], 0, right)


@pytest.mark.parametrize(
    "words, status, output, errors", [pytest.param(*row, id=f"refused: {what}") for what, *row in REFUSED]
)
def test_refused(words, status, output, errors):
    played(words, status, output, errors)
