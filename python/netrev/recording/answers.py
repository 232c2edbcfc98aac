"""Recorded answers as text: the answers that a step of each kind can have, and their meanings. Hints explain why a
program's answer may differ from the machine's."""

import json
from typing import Any

from netrev.messages import texts as messages
from netrev.text.plurals import counted
from netrev.text.vocabulary import COUNTED_ANSWERS, KINDS

OF_A_CHECK = (
    "nothing prevented it",
    "the descriptor was closing",
    "the deadline had passed",
    "an error event had come",
)
_OF_LOCKS = {"yes": "it took the reference", "no": "the socket was closed"}
_OF_RELEASES = {
    "last": "it gave up the last reference of a closed socket",
    "notlast": "the socket isn't closed, or other references exist",
}
SAYS = {
    "sysread": {"got": "it read {bytes}", "eof": "the peer had closed", "again": "EAGAIN: nothing was there"},
    "syswrite": {
        "put": "it wrote {bytes}",
        "again": "EAGAIN: there was no room",
        "pipe": "EPIPE: the write side was closed",
    },
    "incref": _OF_LOCKS,
    "increfclose": _OF_LOCKS,
    "rwlock": {"yes": "it took the lock", "no": "the socket was closed", "wait": "another goroutine had the lock"},
    "decref": _OF_RELEASES,
    "rwunlock": _OF_RELEASES,
    "acquire": {"yes": "the semaphore's count was positive", "wait": "it joined the semaphore's queue"},
    "blockarm": {"wait": "the word was nil", "code": "the word was ready: the wait is over"},
    "parkcommit": {"yes": "it parked", "no": "it didn't park: something came first"},
    "blockswap": {"yes": "the word was ready", "no": "the word wasn't ready"},
    "pollevent": {"done": "the event was for this use of the descriptor", "stale": "the event was for an earlier use"},
    "fire": {"done": "the timer was current: the deadline has passed", "stale": "the timer was out of date"},
    "spawn": {"number": "the new goroutine's number"},
    "sockopen": {"number": "the new socket's number"},
    "pollopen": {"number": "the descriptor's number"},
}

_OF_WORDS = "a pollevent, setdeadline, fire or evict belongs on the other side of this step: history rg D, or wg D"
_OF_CHECKS = (
    "a setdeadline, fire, evict or pollevent is missing, or belongs on the other side of this step: history info D"
)
_OF_LOCK_WORDS = "a step of this socket is missing, or two are in the wrong order: history lock S"
MEANS = {
    "sysread": "bytes came at another time: an arrive or peerclose is missing, or belongs on the other side of this step",
    "syswrite": "the output had other room: a drain or closewrite belongs on the other side of this step, or wc isn't the kernel's",
    "acquire": "a release of this socket is missing, or belongs on the other side of this step: history rsem S, or wsem S",
    "pollevent": "the tag is miscounted, or a pollclose or pollopen belongs on the other side of this step: history fdseq D",
    "fire": "a setdeadline or evict between pop and fire is missing, or the place is another firing's",
    "spawn": "goroutines are numbered from 0 in the order of spawn, and 0 exists from the start",
    "sockopen": "sockets are numbered from 0 in the order of sockopen",
    "pollopen": "the descriptor that was freed last is used first: a pollclose is missing, or two are in the wrong order",
    **dict.fromkeys(("incref", "increfclose", "decref", "rwlock", "rwunlock"), _OF_LOCK_WORDS),
    **dict.fromkeys(("pollreset", "waitbegin", "blockcheck", "waitcheck"), _OF_CHECKS),
    **dict.fromkeys(("blockarm", "parkcommit", "blockswap"), _OF_WORDS),
}


def answer_text(answer: Any) -> str:
    """An answer in a few letters, such as `done` or `got 2`; anything else as JSON."""
    if isinstance(answer, str):
        return answer
    if isinstance(answer, list) and len(answer) == 2 and answer[0] in COUNTED_ANSWERS:
        return f"{answer[0]} {answer[1]}"
    return json.dumps(answer)


def name_of(answer: Any) -> str:
    """The name of an answer, without its number."""
    return answer if isinstance(answer, str) else answer[0]


def answer_words(kind: str, answer: Any) -> str:
    """The meaning of an answer; empty if the answer's name says everything."""
    name = name_of(answer)
    meaning = SAYS.get(kind, {}).get(name, "")
    if name in ("got", "put"):
        return meaning.format(bytes=counted(answer[1], "byte"))
    if name == "code" and not meaning and answer[1] < len(OF_A_CHECK):
        return f"the check: {OF_A_CHECK[answer[1]]}"
    return meaning


def spelled(kind: str) -> str:
    """The answers that a kind of step can have, as they appear in a recording."""
    names = [f'["{name}",N]' if name in COUNTED_ANSWERS else f'"{name}"' for name in KINDS[kind].answers]
    return names[0] if len(names) == 1 else f"{', '.join(names[:-1])} or {names[-1]}"


def meaning(kind: str, recorded: Any) -> str | None:
    """What a difference between the program's answer and the machine's answer means."""
    if name_of(recorded) not in KINDS[kind].answers:
        return messages.ONLY_ANSWERS.format(kind=kind, answers=spelled(kind))
    return MEANS.get(kind)
