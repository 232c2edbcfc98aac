"""Hints about a line or a step of a recording that netrev rejects."""

MAGIC = {  # formats by their first bytes
    b"\x1f\x8b": "this is gzip: gunzip it first",
    b"(\xb5/\xfd": "this is zstd: unzstd it first",
    b"\xff\xfe": "this is UTF-16: iconv -f utf-16 -t utf-8",
    b"\xfe\xff": "this is UTF-16: iconv -f utf-16 -t utf-8",
    b"\xef\xbb\xbf": "the file begins with a byte order mark: remove the first three bytes, tail -c +4",
    b"\xd4\xc3\xb2\xa1": "this is a packet capture (pcap); a recording is text, one line of JSON a step",
    b"PK": "this is a zip archive: unzip it first",
}
GO_NAMES = {  # names of Go functions that users write in place of a kind, each with a hint
    "netpollblock": "its steps are blockarm, blockcheck, parkcommit and blockswap",
    "netpollblockcommit": "did you mean parkcommit?",
    "netpollunblock": "it is part of pollevent, setdeadline, evict and fire",
    "pollwait": "waitbegin begins it, waitcheck ends it",
    "semacquire": "did you mean acquire?",
    "semrelease": "did you mean release?",
    "pollunblock": "did you mean evict?",
    "netpollready": "did you mean pollevent?",
    "increfandclose": "did you mean increfclose?",
    "pollsetdeadline": "did you mean setdeadline?",
    "read": "did you mean sysread?",
    "write": "did you mean syswrite?",
    "close": "its steps are increfclose, evict, decref and pollclose",
    "go": "did you mean spawn?",
    "goexit": "did you mean exit?",
}
REASONS = {  # what to check if a step can't happen, by the number of the reason
    1: "was it spawned, or did it exit before? Goroutines are numbered from 0, not by Go's own numbers",
    2: "a step before it is missing: the goroutine's status says what it still has to do",
    3: "the header's limit is too low: it must count every object that the run makes, or the descriptors open at once",
    4: "is its sockopen missing? Sockets are numbered from 0, not by the kernel's file descriptors",
    5: "is its pollopen missing, or was it freed before?",
    7: "a decref or rwunlock too many, or two steps in the wrong order",
    8: "the other goroutine's wait doesn't end: its blockswap or waitcheck is missing",
    9: "evict must come before pollclose",
    10: "evict occurs twice",
    11: "a wait on it doesn't end: a blockswap or waitcheck is missing",
    12: "a tick before it is missing, or comes too late",
    13: "a tick is missing: the clock hasn't reached the first timer",
    15: "is its pop missing? Places are numbered from 0",
    16: "more bytes arrive than the input can hold: give sockopen a larger rc, or add a missing sysread",
    17: "more bytes are drained than were written",
    19: "a capacity and n are from 1 to the header's buf, and there is at least one byte",
    20: "nothing can arrive after peerclose",
}

# The file and its lines.
EMPTY = "the file is empty"
NO_HEADER = "the header is missing"
LONG_LINE = "the line has {bytes} bytes; at most {most} are allowed"
MANY_STEPS = "a recording has at most {most} steps"
NUL = "the line contains NUL bytes, as in a file that is longer than what was written: tr -d '\\0' removes them"
NOT_UTF8 = "byte {number} of the line isn't UTF-8"
CARRIAGE_RETURNS = "lines end with only a carriage return: tr '\\r' '\\n' replaces them"
COMMENTS = "a recording has no comments"
ONE_LINE = "the header must be one line: {example}"
COMMA_AT_END = "remove the comma at the end: each line is a value of its own"
COMMA_AT_BRACKET = "remove the comma before the bracket"
QUOTES = "JSON needs double quotes"
BEFORE_BRACKET = "remove what is before the bracket: {text!r}"
LAST_LINE_IS_CUT = "the last line is incomplete: remove it"
JSON_ERROR = "the JSON is wrong at character {number}"
OTHER_JSON = "netrev doesn't accept this number or text: RECORDING.md has the rules"

# The header.
ONE_ARRAY = "the file is one array: give the header and each step a line of its own, without commas between"
NOT_A_HEADER = "the first line must be the header: {example}"
KEY_IS_MISSING = "key {key} is missing ({says})"
KEY_IS_UNKNOWN = "key {key} is unknown"
KEY_IS_WRONG = "{key} is {given}, but must be {limits}"
EITHER = "{least} or {greatest}"
WHOLE_NUMBER = "a whole number from {least} to {greatest}"
WHOLE_NUMBER_IN_VERSION = "a whole number from {least} to {greatest}; version {version} allows up to {newest}"

# A step.
SECOND_HEADER = "this is a second header: each recording needs a file of its own"
NOT_A_STEP = 'a step is an array that begins with its kind: ["spawn"], ["rwlock",0,0,"r"]'
NEWER_KIND = "{kind} needs version {since}, and this recording has an earlier one"
ANSWER_IS_MISSING = "{usage}: the recorded answer is missing: it comes last, and is {answers}"
ANSWER_IS_WRONG = "{usage}: {given} isn't a recorded answer: it comes last, and is {answers}"
ANSWER_IN_VERSION_1 = "{usage}: version 1 has no recorded answers: remove {given}, or use version 2"
ARGUMENTS = "{usage}: expected arguments: {expected}; given: {given}"
ARGUMENT_IS_WRONG = "{name} is {given}, but must be {form}"
ONLY_ANSWERS = "{kind} answers only {answers}"
