"""The tables of `dev.bench.run` as text: the older and the current netrev beside the baseline, their ratios, and the
means of the ratios."""

from collections.abc import Iterable, Iterator, Sequence
from dataclasses import dataclass
from math import log10
from statistics import geometric_mean

BEFORE, NOW, BASELINE = PROGRAMS = ("before", "now", "baseline")
NAMES = ("check", "walk", "continue", "reverse", "restarts", "memory")

Figures = dict[str, dict[str, float]]
Cases = dict[str, Figures]  # for each recording, by its name


@dataclass
class Measurement:
    """Figures of one kind, such as times, by shape and number of steps, and then by program and figure. Each figure has
    a table; `titles` are the tables' titles."""

    sort: str
    titles: dict[str, str]
    found: dict[tuple[str, int], Figures]

    @property
    def shapes(self) -> list[str]:
        return list(dict.fromkeys(shape for shape, _ in self.found))

    @property
    def sizes(self) -> list[int]:
        return list(dict.fromkeys(steps for _, steps in self.found))

    def at(self, steps: int) -> Cases:
        """The figures at one size, by shape."""
        return {shape: figures for (shape, size), figures in self.found.items() if size == steps}

    def has(self, program: str) -> bool:
        """Whether a program was measured."""
        return all(program in figures for figures in self.found.values())

    @property
    def netrevs(self) -> list[str]:
        """The measured versions of netrev, the older version first."""
        return [program for program in (BEFORE, NOW) if self.has(program)]

    def ratio(self, shape: str, steps: int, program: str, name: str) -> float:
        """A figure divided by the baseline's."""
        return quotient(self.found[shape, steps], name, program, BASELINE)

    def mean(self, steps: int, program: str, name: str) -> float:
        """The geometric mean of these ratios over the shapes."""
        return geometric_mean(self.ratio(shape, steps, program, name) for shape in self.shapes)


def quotient(figures: Figures, name: str, above: str, below: str) -> float:
    """The ratio of one program's figure to another program's figure."""
    return figures[above][name] / figures[below][name]


def written(figure: float) -> str:
    """A number with three digits, or all digits before the point."""
    return f"{figure:,.{max(0, 2 - int(log10(max(figure, 1))))}f}"


def table(head: Sequence[str], rows: Iterable[Sequence[str]]) -> str:
    """A Markdown table with names on the left and figures on the right."""
    lines = [f"| {' | '.join(head)} |", f"|---|{'--:|' * (len(head) - 1)}"]
    return "\n".join([*lines, *(f"| {' | '.join(row)} |" for row in rows)]) + "\n"


def columns(with_before: bool) -> list[str]:
    """The columns of one figure at one size."""
    beside = [NOW, BASELINE, f"{NOW} / {BASELINE}"]
    return [BEFORE, *beside, f"{NOW} / {BEFORE}"] if with_before else beside


def cells(figures: Figures, name: str, with_before: bool) -> list[str]:
    """One figure at one size in these columns; a column is empty if its program wasn't measured."""
    by_column = {program: written(figures[program][name]) for program in PROGRAMS if program in figures}
    if BASELINE in figures:
        by_column[f"{NOW} / {BASELINE}"] = f"{quotient(figures, name, NOW, BASELINE):.1f}"
    if BEFORE in figures:
        by_column[f"{NOW} / {BEFORE}"] = f"{quotient(figures, name, NOW, BEFORE):.2f}"
    return [by_column.get(column, "") for column in columns(with_before)]


def grown(measured: Measurement, shape: str, name: str) -> Iterator[str]:
    """The last size's figure divided by the first size's, for each program."""
    first, last = (measured.found[shape, steps] for steps in (measured.sizes[0], measured.sizes[-1]))
    for program in PROGRAMS:
        if measured.has(program):
            yield f"{last[program][name] / first[program][name]:.1f}"


def under(title: str, words: Sequence[str]) -> list[str]:
    """Headings of neighbouring columns; the first heading also has their topic."""
    return [f"{title}: {words[0]}", *words[1:]]


def figure_table(measured: Measurement, name: str) -> str:
    """The table of one figure: a row for each shape, the sizes side by side, and the growth from the first size to the
    last if there are two."""
    sizes, with_before = measured.sizes, measured.has(BEFORE)
    head = [measured.titles[name]]
    for steps in sizes:
        head += under(f"{steps:,}", columns(with_before))
    rows = [[shape] for shape in measured.shapes]
    for row in rows:
        row += [cell for steps in sizes for cell in cells(measured.found[row[0], steps], name, with_before)]
    if len(sizes) > 1:
        head += under(f"{sizes[-1] / sizes[0]:g} times the steps", list(filter(measured.has, PROGRAMS)))
        rows = [[*row, *grown(measured, row[0], name)] for row in rows]
    return table(head, rows)


def arrow(ratios: Iterable[float]) -> str:
    """The older and the current ratio in one cell, or only the current ratio."""
    return " → ".join(f"{ratio:.1f}" for ratio in ratios)


def mean_table(measurements: Sequence[Measurement]) -> str:
    """A table of the ratios to the baseline with a row for each figure: the geometric means over the shapes, at each
    measurement's last size."""
    head = ["geometric mean of the ratios to the baseline"]
    rows = [[name] for name in NAMES if any(name in measured.titles for measured in measurements)]
    for measured in measurements:
        steps = measured.sizes[-1]
        head += under(f"{measured.sort}, {steps:,} steps", measured.netrevs)
        for row in rows:
            is_measured = row[0] in measured.titles
            row += [
                f"{measured.mean(steps, version, row[0]):.1f}" if is_measured else "" for version in measured.netrevs
            ]
    return table(head, rows)


def cell(figures: Figures, name: str) -> str:
    """A figure for each measured program, as `before → now / baseline`."""
    netrevs = " → ".join(written(figures[program][name]) for program in (BEFORE, NOW) if program in figures)
    return f"{netrevs} / {written(figures[BASELINE][name])}" if BASELINE in figures else netrevs


def cases_table(title: str, names: Sequence[str], cases: Cases) -> str:
    """A table with a row for each case and a column for each figure."""
    return table([title, *names], [[case, *(cell(figures, name) for name in names)] for case, figures in cases.items()])


def ratio_cell(figures: Figures, name: str) -> str:
    """The older and the current ratio to the baseline."""
    return arrow(quotient(figures, name, program, BASELINE) for program in (BEFORE, NOW) if program in figures)


def side_by_side(title: str, sorts: dict[str, Cases], has_mean: bool) -> str:
    """A table of the ratios to the baseline. Ratios of different kinds, such as instructions and times, are side by
    side. It has a row for each case and, if requested, a row of geometric means."""
    columns = [(name, sort) for name in NAMES for sort, cases in sorts.items() if has_figure(cases, name)]
    rows = [[case, *(ratio_cell(sorts[sort][case], name) for name, sort in columns)] for case in first_of(sorts)]
    if has_mean:
        rows.append(["geometric mean", *(mean_cell(sorts[sort], name) for name, sort in columns)])
    names = [name for name, _ in columns]
    return table([title, *(f"{name}, {sort}" if names.count(name) > 1 else name for name, sort in columns)], rows)


def has_figure(cases: Cases, name: str) -> bool:
    """Whether a figure was measured for all of these cases."""
    return all(name in figures[NOW] for figures in cases.values())


def first_of(sorts: dict[str, Cases]) -> Cases:
    """The cases of the first kind. All other kinds have these cases too."""
    return next(iter(sorts.values()))


def mean_cell(cases: Cases, name: str) -> str:
    """The geometric means of the cases' ratios to the baseline: the earlier program's and the current program's."""
    programs = [program for program in (BEFORE, NOW) if all(program in figures for figures in cases.values())]
    return arrow(
        geometric_mean(quotient(figures, name, program, BASELINE) for figures in cases.values()) for program in programs
    )


def growth_table(title: str, name: str, limits: dict[str, Cases]) -> str:
    """How a figure grows with the limits in the header. Each row is a shape. For each program it has the figure at each
    limit, smallest limit first, and the ratio of the last to the first."""
    least, *_, greatest = limits.values()
    programs = [program for program in PROGRAMS if all(program in figures for figures in least.values())]
    head = [title]
    for program in programs:
        head += under(program, [*limits, f"{list(limits)[-1]} / {list(limits)[0]}"])
    rows = []
    for shape in least:
        row = [shape]
        for program in programs:
            row += [written(cases[shape][program][name]) for cases in limits.values()]
            row.append(f"{greatest[shape][program][name] / least[shape][program][name]:.2f}")
        rows.append(row)
    return table(head, rows)
