"""A reused descriptor number: facts about its first use are never reported for its next use."""


from netrev.run.index import run_of
from netrev.run.step_owners import NONE
from netrev.run.timers import timers_of
from tests.suspects.test_suspects import OPEN, USED_AGAIN, Steps, recording_of

LATE: Steps = [["setdeadline", 0, 0, "r", 3], ["tick", 9], ["pop"]]


def test_a_timer_that_is_run_late_is_of_the_socket_that_set_it() -> None:
    recording = recording_of(OPEN + LATE + USED_AGAIN + [["fire", 0]])
    timers = timers_of(recording)
    assert [(timer.socket, timer.descriptor, timer.is_stale) for timer in timers.values()] == [
        (0, 0, False),
        (0, 0, True),
    ]
    book = run_of(recording).owners
    assert (book.sockets[-1], book.descriptors[-1]) == (0, 0)


def test_an_event_that_comes_late_is_of_the_socket_of_its_tag() -> None:
    book = run_of(recording_of(OPEN + USED_AGAIN + [["pollevent", 0, tag, "rw", 0] for tag in (1, 2, 7)])).owners
    assert list(book.sockets)[-3:] == [0, 1, NONE]


def test_what_comes_to_a_closed_socket_is_of_no_descriptor() -> None:
    book = run_of(
        recording_of(OPEN + [["arrive", 0, "00"], *USED_AGAIN, ["arrive", 0, "00"], ["arrive", 1, "00"]])
    ).owners
    arrived = [at for at, s in enumerate(book.sockets) if at in (3, len(book.sockets) - 2, len(book.sockets) - 1)]
    assert [(book.sockets[at], book.descriptors[at]) for at in arrived] == [(0, 0), (0, NONE), (1, 0)]
