"""The timers that went off, by owner."""


from netrev.machine.deadlines import READING, WRITING, Deadlines


def gone_off(*descriptors: int) -> Deadlines:
    """Read deadlines of these descriptors, all of which have passed."""
    deadlines = Deadlines()
    for number in descriptors:
        deadlines.open(number)
        deadlines.set(number, "r", 5)
    for _ in descriptors:
        deadlines.pop()
    return deadlines


def test_a_firing_stands_where_it_came() -> None:
    deadlines = gone_off(3, 1, 2)
    assert [deadlines.place(number, READING, 1) for number in (3, 1, 2)] == [0, 1, 2]


def test_what_did_not_go_off_has_no_place() -> None:
    deadlines = gone_off(3, 1)
    others = ((2, READING, 1), (3, WRITING, 1), (3, READING, 2))
    assert [deadlines.place(*other) for other in others] == [None] * 3


def test_one_that_was_run_is_gone_and_those_behind_it_go_up() -> None:
    deadlines = gone_off(3, 1, 2)
    deadlines.fire(1)
    assert [deadlines.place(number, READING, 1) for number in (3, 1, 2)] == [0, None, 1]
