"""Bad recordings and bad command lines for the built program. The name of each case begins with its kind:

    reason     each reason for which a step doesn't apply, once with `netrev check`. Three reasons are left out, because no
               recording of 1,000,000 steps reaches them: 6 (a full field of a lock word), 18 (a number at its last value) and
               21 (a corrupted descriptor). The crates' own tests reach these three
    line       a faulty line after a header, and a faulty line after a step that doesn't apply
    header     first lines that aren't a header
    version    the differences between the two versions: recorded answers, `closewrite` and large buffers
    answer     malformed recorded answers, an answer that isn't the machine's, and which of two faults is reported
    beginning  every prefix of each short recording, byte by byte: netrev accepts a prefix that ends with a whole line, and
               refuses any other at its last line
    command    command lines that name nothing that exists
"""

import subprocess

import pytest

from .beginnings import BEGUN, DIFFERS, WALK, every_beginning, wanted_of
from .support.sharing import NETREV, PATIENCE, ROOT, expect

HEADER = '{"buf":16,"desc":1,"gor":2,"netrev":1,"sock":1}'
OPEN = '["sockopen",1,1]'
DESCRIPTOR = '["pollopen",0,0]'
WAIT = '["waitbegin",0,0,"r"]'
LATE = ['["setdeadline",0,0,"r",1]', '["tick",{}]', '["pop"]']

# the number of a reason, and steps of which the last is refused for that reason
REASONS = (
    (1, ['["exit",1]']),
    (2, [OPEN, '["blockarm",0]']),
    (3, ['["spawn"]', '["spawn"]']),
    (4, ['["incref",0,0]']),
    (5, ['["pollreset",0,0,"r"]']),
    (7, [OPEN, '["decref",0,0]']),
    (8, ['["spawn"]', OPEN, DESCRIPTOR, WAIT, '["waitbegin",1,0,"r"]']),
    (9, [OPEN, DESCRIPTOR, '["pollclose",0,0]']),
    (10, [OPEN, DESCRIPTOR, '["evict",0,0]', '["evict",0,0]']),
    (11, ['["spawn"]', OPEN, DESCRIPTOR, WAIT, '["pollreset",1,0,"r"]']),
    (12, ['["tick",5]', '["tick",4]']),
    (13, ['["pop"]']),
    (14, [OPEN, DESCRIPTOR] + [step.format(time) for time in (1, 2, 3) for step in LATE]),
    (15, ['["fire",0]']),
    (16, [OPEN, '["arrive",0,"6869"]']),
    (17, [OPEN, '["drain",0,1]']),
    (19, ['["sockopen",0,1]']),
    (20, [OPEN, '["peerclose",0]', '["peerclose",0]']),
)

# line 2 and its fault, or the number of steps that are read
LINES = (
    ('["spawn",1]', "104 arguments"),
    ('["tick",-1]', "104 arguments"),
    ('["exit",4294967296]', "104 arguments"),
    ('["exit",-1]', "104 arguments"),
    ('["exit",1.0]', "104 arguments"),
    ('["exit",0e0]', "104 arguments"),
    ('["exit",-0]', "104 arguments"),
    ('["exit",18446744073709551616]', "104 arguments"),
    ('["exit",["number",0]]', "104 arguments"),
    ('["spawn",1,2,3,4,5]', "104 arguments"),
    ('["spawn",1,2,3,4,5,6]', "104 arguments"),
    ('["spawn",true,null,{"a":[1]}]', "104 arguments"),
    ('["exit"]', "104 arguments"),
    ('["exit","0"]', "104 arguments"),
    ('["arrive",0,"6"]', "104 arguments"),
    ('["arrive",0,"6g"]', "104 arguments"),
    (f'["arrive",0,"{"0" * 131_074}"]', "104 arguments"),
    ('["rwlock",0,0,"rw"]', "104 arguments"),
    ('["setdeadline",0,0,"x",0]', "104 arguments"),
    ('["setdeadline",0,0,"wr",0]', "104 arguments"),
    ('["pollevent",0,18446744073709551616,"r",0]', "104 arguments"),
    ('["pollevent",0,1,"r",2]', "104 arguments"),
    ('["jump"]', "103 unknown step"),
    ('["Spawn"]', "103 unknown step"),
    ('["closewrite",0,0]', "103 unknown step"),
    ("{}", "103 unknown step"),
    ("[]", "103 unknown step"),
    ("[1]", "103 unknown step"),
    ('[["spawn",1]]', "103 unknown step"),
    ('["jump",1,2,3,4,5,6]', "103 unknown step"),
    ("[[]]", "103 unknown step"),
    ('["jump",[]]', "103 unknown step"),
    ("[" * 127 + "]" * 127, "103 unknown step"),
    ("null", "103 unknown step"),
    ('"spawn"', "103 unknown step"),
    ("[" * 128 + "]" * 128, "102 not JSON"),
    ('["\xff"]', "102 not JSON"),
    ('["spawn"] ["spawn"]', "102 not JSON"),
    ('["spawn"]]', "102 not JSON"),
    ('["spawn"', "102 not JSON"),
    ('["exit",00]', "102 not JSON"),
    ('["exit" 0]', "102 not JSON"),
    ('["exit",,0]', "102 not JSON"),
    ('["exit",0}', "102 not JSON"),
    ('["exit":0]', "102 not JSON"),
    ('["spawn",1,2,3,4,5,6,]', "102 not JSON"),
    ('["spawn",["number",1]', "102 not JSON"),
    ('["spawn",]', "102 not JSON"),
    ("['spawn']", "102 not JSON"),
    ("x", "102 not JSON"),
    (" " * 200_001, "105 limit"),
    (" " * 200_000, 0),
    ("\t \r", 0),
    (' [ "spawn" ] ', 1),
    ('["\\u0073pawn"]', 1),
    ('["tick", 1]', 1),
    ('["tick",  1]', 1),
    ('["tick",\t1]', 1),
    ('["tick" ,1]', 1),
    ('["tick",1 ]', 1),
    ('[ "tick",1]', 1),
    ('["tick",1]\r', 1),
    ('["tick",9223372036854775807]', 1),
    ('["tick",9223372036854775808]', "104 arguments"),
    ('["tick",1e0]', "104 arguments"),
    ('["tick",184467440737095516150]', "104 arguments"),
    ('["spawn\x7f"]', "103 unknown step"),
    ('["spaw\\n"]', "103 unknown step"),
    ('["exit",01]', "102 not JSON"),
    ('["tick",1.]', "102 not JSON"),
    ('["tick",1:2]', "102 not JSON"),
    ('["tick",1]x', "102 not JSON"),
    ('["tick",1"]', "102 not JSON"),
    ('["sp\tawn"]', "102 not JSON"),
    ('["spawn\\"]', "102 not JSON"),
    ('["spawn"1]', "102 not JSON"),
)

HEADERS = (
    ("", "101 header"),
    ("{}", "101 header"),
    ("[]", "101 header"),
    (HEADER.replace("16", "16.0"), "101 header"),
    (HEADER.replace("16", '"16"'), "101 header"),
    (HEADER.replace("16", "-1"), "101 header"),
    (HEADER.replace(',"sock":1', ""), "101 header"),
    (HEADER.replace("}", ',"more":1}'), "101 header"),
    (HEADER.replace('"netrev":1', '"netrev":0'), "101 header"),
    (HEADER.replace('"netrev":1', '"netrev":3'), "101 header"),
    (HEADER.replace('"netrev":1', '"netrev":"2"'), "101 header"),
    (HEADER.replace('"netrev":1', '"netrev":2.0'), "101 header"),
    (HEADER.replace("16", "0"), "105 limit"),
    (HEADER.replace("16", "65537"), "105 limit"),
    (HEADER.replace('"desc":1', '"desc":257'), "105 limit"),
    (HEADER.replace('"gor":2', '"gor":4097'), "105 limit"),
    (HEADER.replace('"gor":2', '"gor":0'), "105 limit"),
    (HEADER.replace("16", "4294967296"), "105 limit"),
    (HEADER.replace("buf", "buff"), "101 header"),
    (HEADER.replace('"gor":2', '"gor":0').replace('"sock":1', '"sock":-1'), "101 header"),
    (HEADER.replace('"sock":1', '"sock":257'), "105 limit"),
    (HEADER[:-1], "102 not JSON"),
    (HEADER.replace("16", "65536"), 0),
)

# the lines after a header, the number of the faulty line (blank lines count), and its fault
PLACES = (
    (["", " \t\r", '["jump"]'], 4, "103 unknown step"),
    (['["spawn"]', '["spawn"]]', "["], 3, "102 not JSON"),
)

# the lines of a recording, with the printed place and fault, or with the number of steps
SECOND = HEADER.replace('"netrev":1', '"netrev":2')
LARGE = SECOND.replace('"buf":16', '"buf":1048576')
VERSIONS = (
    ("version 2, and nothing else", [SECOND], "", 0),
    ("version 2: 1,048,576 bytes", [LARGE, '["sockopen",1048576,1048576,["number",0]]'], "", 1),
    ("version 2: 1,048,577 bytes", [LARGE.replace("1048576", "1048577")], "line 1", "105 limit"),
    ("version 2: no bytes", [LARGE.replace("1048576", "0")], "line 1", "105 limit"),
    ("version 1: 65,537 bytes", [HEADER.replace("16", "65537")], "line 1", "105 limit"),
    ("version 1: 1,048,576 bytes", [HEADER.replace("16", "1048576")], "line 1", "105 limit"),
    (
        "version 3, and limits out of range",
        [LARGE.replace(":2,", ":3,").replace("1048576", "0")],
        "line 1",
        "101 header",
    ),
    ("version 2: closewrite", [SECOND, '["sockopen",1,1,["number",0]]', '["closewrite",0,0,"done"]'], "", 2),
    (
        "version 2: closewrite twice",
        [SECOND, '["sockopen",1,1,["number",0]]', *['["closewrite",0,0,"done"]'] * 2],
        "",
        3,
    ),
    ("version 2: closewrite without an answer", [SECOND, '["closewrite",0,0]'], "line 2", "104 arguments"),
    ("version 2: closewrite, no such socket", [SECOND, '["closewrite",0,0,"done"]'], "step 1", "107 reason 4"),
    ("version 2: closewrite, gone", [SECOND, '["closewrite",1,0,"done"]'], "step 1", "107 reason 1"),
    ("version 1: closewrite with an answer", [HEADER, '["closewrite",0,0,"done"]'], "line 2", "103 unknown step"),
    ("version 2: an unknown kind", [SECOND, '["jump","done"]'], "line 2", "103 unknown step"),
    ("version 1: an answer", [HEADER, '["spawn",["number",1]]'], "line 2", "104 arguments"),
    ("version 1: an answer of a text", [HEADER, '["tick",1,"done"]'], "line 2", "104 arguments"),
    ("version 2: an answer left out", [SECOND, '["spawn"]'], "line 2", "104 arguments"),
    ("version 2: an argument left out", [SECOND, '["tick","done"]'], "line 2", "104 arguments"),
    ("version 2: two answers", [SECOND, '["tick",1,"done","done"]'], "line 2", "104 arguments"),
    ("version 2: the answer before the argument", [SECOND, '["tick","done",1]'], "line 2", "104 arguments"),
)
SPAWN, TICK, EXIT = '["spawn",["number",1]]', '["tick",1,"done"]', '["exit",9,"done"]'
ANSWERS = (
    ("the machine's", [SPAWN, TICK, '["incref",0,0,"yes"]'], "step 3", "107 reason 4"),
    ("of the same sort", ['["spawn",["number",2]]'], "step 1", "109 answer"),
    ("of another sort", ['["spawn",["got",1]]'], "step 1", "109 answer"),
    ("that the kind can't give", ['["spawn","eof"]'], "step 1", "109 answer"),
    ("that the kind can't give, with a number", ['["tick",1,["code",0]]'], "step 1", "109 answer"),
    ("with the greatest number", ['["spawn",["number",4294967295]]'], "step 1", "109 answer"),
    ("in another spelling", ['[ "spawn" , [ "n\\u0075mber" , 1 ] ]'], "", 1),
    ("of a step that doesn't apply", ['["exit",9,["got",7]]'], "step 1", "107 reason 1"),
    ("that differs, before a step that doesn't apply", [SPAWN, '["tick",1,"no"]', EXIT], "step 2", "109 answer"),
    ("that differs, behind a step that doesn't apply", [EXIT, '["tick",1,"no"]'], "step 1", "107 reason 1"),
    ("that differs, before another", ['["tick",1,"no"]', '["spawn",["number",2]]'], "step 1", "109 answer"),
    ("that differs, before a faulty line", ['["tick",1,"no"]', '["jump"]'], "line 3", "103 unknown step"),
)
NO_ANSWERS = (
    *('"Done"', '"gone"', '""', '"number"', '"got"', "null", "true", "0", "1", "{}", "[]", '["done"]', '["number"]'),
    *('["number",1,1]', '["number","1"]', '["number",1.0]', '["number",-1]', '["number",-0]', '["number",4294967296]'),
    *('["Number",1]', '["done",0]', '[1,"number"]', '[["number"],1]', '["number",[1]]', '{"number":1}', '"number 1"'),
)

UNKNOWN, BAD, LONG = "fault 201 unknown command", "fault 202 bad argument", "fault 203 line too long"
COMMANDS = (
    ("stepi" + " " * 251, "at 1"),
    ("stepi" + " " * 252, LONG),
    ("stepi" + " " * 250 + "\r", "at 1"),
    ("stepi" + " " * 251 + "\r", LONG),
    (" " * 257, LONG),
    (" " * 256 + "\r", LONG),
    ("stepi 4294967296", BAD),
    ("stepi 0", BAD),
    ("stepi 1 1", BAD),
    ("stepi -1", BAD),
    ("stepi 0004294967295", "at 12 end"),
    ("break @0", BAD),
    ("break @4294967296", BAD),
    ("break", BAD),
    ("break nothing", BAD),
    ("print rg", BAD),
    ("watch clock 1", BAD),
    ("watch rg 4294967296", BAD),
    ("dump rg 0", BAD),
    ("dump in", BAD),
    ("info", BAD),
    ("info marks", BAD),
    ("set exec-direction", BAD),
    ("set exec-direction backwards", BAD),
    ("continue 1", BAD),
    ("checkpoint 1", BAD),
    ("restart", BAD),
    ("delete checkpoint", BAD),
    ("resume 1", BAD),
    ("quit 1", BAD),
    ("delete 1", "fault 401 no such mark"),
    ("restart 1", "fault 403 no such checkpoint"),
    ("delete checkpoint 0", "fault 403 no such checkpoint"),
    ("resume", "nothing owed"),
    ("frob", UNKNOWN),
    ("Stepi", UNKNOWN),
    ("step", UNKNOWN),
)


def printed(words, text=b""):
    """netrev's status, and the last lines that it prints."""
    process = subprocess.run(
        [NETREV, *words], input=text, stdout=subprocess.PIPE, stderr=subprocess.PIPE, timeout=PATIENCE
    )
    expect("errors", b"", process.stderr)
    return process.returncode, process.stdout.decode()


def check(folder, text):
    """The output of `check` for a text."""
    path = folder / "recording.jsonl"
    path.write_bytes(text)
    return printed(["check", path])


def text_of(lines):
    return "".join(f"{line}\n" for line in lines).encode("latin-1")


def refused_steps():
    for reason, steps in REASONS:
        wanted = wanted_of(f"step {len(steps)}", f"107 reason {reason}")
        yield pytest.param([HEADER, *steps], wanted, id=f"reason {reason}")
        before = (0, f"ok {len(steps) - 1} steps\n")
        yield pytest.param([HEADER, *steps[:-1]], before, id=f"reason {reason}: without the last step")


def faulty_lines():
    for line, fault in LINES:
        name = line if len(line) < 40 else f"{line[:20]}.. of {len(line)} bytes"
        yield pytest.param([HEADER, line], wanted_of("line 2", fault), id=f"line {name!r}")
    for lines, number, fault in PLACES:
        yield pytest.param([HEADER, *lines], wanted_of(f"line {number}", fault), id=f"line {number} of {lines!r}")
    yield pytest.param(["", " "], wanted_of("line 3", "101 header"), id="line 3 where there is no header")
    late = [HEADER, '["exit",1]', OPEN, OPEN, '["jump"]']
    wanted = wanted_of("line 5", "103 unknown step")
    yield pytest.param(late, wanted, id="line 5 faulty, where step 1 doesn't apply")


def faulty_headers():
    for line, fault in HEADERS:
        yield pytest.param([line], wanted_of("line 2" if line == "" else "line 1", fault), id=f"header {line!r}")


def versions_and_answers():
    """The rows of version 2, and rows of version 1 that version 2 rejects."""
    rows = [(f"version: {name}", *row) for name, *row in VERSIONS]
    rows += [(f"answer {name}", [SECOND, *steps], *fault) for name, steps, *fault in ANSWERS]
    for text in NO_ANSWERS:
        rows.append((f"answer that is none: {text}", [SECOND, f'["spawn",{text}]'], "line 2", "104 arguments"))
    for name, lines, place, fault in rows:
        yield pytest.param(lines, wanted_of(place, fault), id=str(name))


def faulty_commands():
    for line, reply in COMMANDS:
        returned = " and a carriage return" if line.endswith("\r") else ""
        name = line if len(line) < 40 else f"{line.strip() or 'nothing'} and {line.count(' ')} spaces{returned}"
        yield pytest.param(line, reply, id=f"command {name!r}")


@pytest.mark.parametrize("lines, wanted", [*refused_steps(), *faulty_lines(), *faulty_headers()])
def test_check(folder, lines, wanted):
    expect("check", wanted, check(folder, text_of(lines)))


@pytest.mark.parametrize("lines, wanted", versions_and_answers())
def test_check_and_upgrade(folder, lines, wanted):
    """The output of `check` for a text, and the output of `upgrade` if it is a fault."""
    expect("check", wanted, check(folder, text_of(lines)))
    if wanted[0]:
        expect("upgrade", wanted, printed(["upgrade", folder / "recording.jsonl"]))


@pytest.mark.long
@pytest.mark.parametrize("name", [pytest.param(name, id=f"beginning of {name}") for name in BEGUN])
def test_every_beginning(folder, name):
    every_beginning(folder, (ROOT / name).read_bytes(), DIFFERS.get(name))


@pytest.mark.parametrize("line, reply", faulty_commands())
def test_run(line, reply):
    expect("run", (0, f"{reply}\n"), printed(["run", ROOT / WALK], f"{line}\n".encode()))
