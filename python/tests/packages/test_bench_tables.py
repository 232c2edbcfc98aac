"""Tests the benchmark's tables: the contents of each row, and the geometric means."""

from collections.abc import Iterator

from dev.bench.tables import (
    BASELINE,
    BEFORE,
    NOW,
    Cases,
    Figures,
    Measurement,
    cases_table,
    figure_table,
    growth_table,
    mean_table,
    side_by_side,
    written,
)

TITLES = {"walk": "a walk, ms", "memory": "memory, MiB"}
# the time of each program for a step
OF = {BEFORE: 0.008, NOW: 0.004, BASELINE: 0.001}


def figures(steps: int, times: float, programs: tuple[str, ...]) -> Figures:
    """Figures that are multiples of each program's time for a step. All programs have the same memory."""
    return {program: {"walk": OF[program] * steps * times, "memory": 40.0} for program in programs}


def measured(*programs: str, sizes: tuple[int, ...] = (1_000, 10_000)) -> Measurement:
    """Figures for recordings of two shapes. The baseline's figures for the second shape are a quarter of those for the
    first; the other programs' figures are the same for both."""
    found = {}
    for steps in sizes:
        found["locks", steps] = figures(steps, 1, programs)
        found["mix", steps] = figures(steps, 1, programs)
        if BASELINE in programs:
            found["mix", steps][BASELINE]["walk"] /= 4
    return Measurement("times", TITLES, found)


def rows(table: str) -> Iterator[list[str]]:
    """The cells of a table, without the line below its head."""
    lines = table.splitlines()
    for line in [lines[0], *lines[2:]]:
        yield line.strip("| ").split(" | ")


def test_three_programs_side_by_side() -> None:
    table = figure_table(measured(BEFORE, NOW, BASELINE, sizes=(1_000,)), "walk")
    assert table == (
        "| a walk, ms | 1,000: before | now | baseline | now / baseline | now / before |\n"
        "|---|--:|--:|--:|--:|--:|\n"
        "| locks | 8.00 | 4.00 | 1.00 | 4.0 | 0.50 |\n"
        "| mix | 8.00 | 4.00 | 0.25 | 16.0 | 0.50 |\n"
    )


def test_a_figure_without_an_older_one() -> None:
    head, first, _ = rows(figure_table(measured(NOW, BASELINE, sizes=(1_000,)), "walk"))
    assert head == ["a walk, ms", "1,000: now", "baseline", "now / baseline"]
    assert first == ["locks", "4.00", "1.00", "4.0"]


def test_without_a_baseline() -> None:
    table = figure_table(measured(BEFORE, NOW, sizes=(1_000,)), "walk")
    assert "| locks | 8.00 | 4.00 |  |  | 0.50 |\n" in table


def test_sizes_and_what_grows() -> None:
    head, first, _ = rows(figure_table(measured(BEFORE, NOW, BASELINE), "walk"))
    assert head[6:] == [f"10,000: {BEFORE}", *head[2:6], "10 times the steps: before", "now", "baseline"]
    assert first[6:] == ["80.0", "40.0", "10.0", "4.0", "0.50", "10.0", "10.0", "10.0"]
    assert len(head) == len(first)


def test_digits() -> None:
    assert [written(figure) for figure in (0.1234, 1.234, 12.34, 123.4, 1234.5)] == [
        "0.12",
        "1.23",
        "12.3",
        "123",
        "1,234",
    ]


def cases(*programs: str) -> Cases:
    """The figures of the two shapes for recordings of one size."""
    return measured(*programs, sizes=(1_000,)).at(1_000)


def named(name: str, of: Cases) -> Cases:
    """These cases with only their figures for the walk, under the given name."""
    return {case: {item: {name: figures["walk"]} for item, figures in all_of.items()} for case, all_of in of.items()}


def test_each_sort_and_the_means() -> None:
    every = cases(BEFORE, NOW, BASELINE)
    sorts = {"instructions": named("walk", every), "time": every}
    assert list(rows(side_by_side("ratio", sorts, True))) == [
        ["ratio", "walk, instructions", "walk, time", "memory"],
        ["locks", "8.0 → 4.0", "8.0 → 4.0", "1.0 → 1.0"],
        ["mix", "32.0 → 16.0", "32.0 → 16.0", "1.0 → 1.0"],
        ["geometric mean", "16.0 → 8.0", "16.0 → 8.0", "1.0 → 1.0"],
    ]


def test_without_an_older_one_and_without_means() -> None:
    assert list(rows(side_by_side("ratio", {"time": cases(NOW, BASELINE)}, False)))[1:] == [
        ["locks", "4.0", "1.0"],
        ["mix", "16.0", "1.0"],
    ]


def test_before_now_and_the_baseline_in_a_cell() -> None:
    assert list(rows(cases_table("time", ["walk", "memory"], cases(BEFORE, NOW, BASELINE)))) == [
        ["time", "walk", "memory"],
        ["locks", "8.00 → 4.00 / 1.00", "40.0 → 40.0 / 40.0"],
        ["mix", "8.00 → 4.00 / 0.25", "40.0 → 40.0 / 40.0"],
    ]


def test_without_the_others() -> None:
    assert list(rows(cases_table("time", ["walk"], cases(NOW))))[1] == ["locks", "4.00"]


def test_a_figure_by_the_limits() -> None:
    own, large = cases(NOW, BASELINE), measured(NOW, BASELINE, sizes=(1_500,)).at(1_500)
    assert list(rows(growth_table("a walk, ms", "walk", {"own": own, "16": own, "239": large})))[:2] == [
        ["a walk, ms", "now: own", "16", "239", "239 / own", "baseline: own", "16", "239", "239 / own"],
        ["locks", "4.00", "4.00", "6.00", "1.50", "1.00", "1.00", "1.50", "1.50"],
    ]


def test_before_and_now() -> None:
    counts = measured(BEFORE, NOW, BASELINE, sizes=(1_000,))
    counts.sort, counts.titles = "instructions", {"walk": "a walk"}
    assert mean_table([counts, measured(BEFORE, NOW, BASELINE)]) == (
        "| geometric mean of the ratios to the baseline | instructions, 1,000 steps: before | now "
        "| times, 10,000 steps: before | now |\n"
        "|---|--:|--:|--:|--:|\n"
        "| walk | 16.0 | 8.0 | 16.0 | 8.0 |\n"
        "| memory |  |  | 1.0 | 1.0 |\n"
    )


def test_means_without_an_older_one() -> None:
    assert list(rows(mean_table([measured(NOW, BASELINE)]))) == [
        ["geometric mean of the ratios to the baseline", "times, 10,000 steps: now"],
        ["walk", "8.0"],
        ["memory", "1.0"],
    ]
