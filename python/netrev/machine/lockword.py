"""The five operations on a lock word. Each returns the answer, the new word, and the number of releases that are owed
to each side.
"""

from .machine import Lock, StepRefusedError, at, put

FULL = 2**20 - 1
NOTHING: tuple[int, ...] = (0, 0)

Operated = tuple[str, Lock, tuple[int, ...]]


def more(number: int) -> int:
    """A field of 20 bits, increased by one."""
    if number == FULL:
        raise StepRefusedError(6)
    return number + 1


def given_up(lock: Lock) -> tuple[str, Lock]:
    """The answer when a reference is given up, and the word with one reference fewer."""
    lock = lock._replace(references=lock.references - 1)
    return ("last" if lock.closed and lock.references == 0 else "notlast"), lock


def incref(lock: Lock) -> Operated:
    if lock.closed:
        return "no", lock, NOTHING
    return "yes", lock._replace(references=more(lock.references)), NOTHING


def increfclose(lock: Lock) -> Operated:
    if lock.closed:
        return "no", lock, NOTHING
    closed = lock._replace(closed=True, references=more(lock.references), waiting=NOTHING)
    return "yes", closed, lock.waiting


def decref(lock: Lock) -> Operated:
    if lock.references == 0:
        raise StepRefusedError(7)
    answer, lock = given_up(lock)
    return answer, lock, NOTHING


def rwlock(lock: Lock, side: str) -> Operated:
    if lock.closed:
        return "no", lock, NOTHING
    place = at(side)
    if lock.taken[place]:
        waiting = put(lock.waiting, place, more(lock.waiting[place]))
        return "wait", lock._replace(waiting=waiting), NOTHING
    taken = put(lock.taken, place, True)
    return "yes", lock._replace(taken=taken, references=more(lock.references)), NOTHING


def rwunlock(lock: Lock, side: str) -> Operated:
    place = at(side)
    if not lock.taken[place] or lock.references == 0:
        raise StepRefusedError(7)
    answer, lock = given_up(lock._replace(taken=put(lock.taken, place, False)))
    if lock.waiting[place] == 0:
        return answer, lock, NOTHING
    waiting = put(lock.waiting, place, lock.waiting[place] - 1)
    return answer, lock._replace(waiting=waiting), put(NOTHING, place, 1)
