"""Pictures by their geometry: where each mark is, what is outside of the picture, and what lies over what.

Rows, arrows and bars are measured in pixels, 96 to the inch. What they should be is worked out from a trace's lines.
"""

from collections.abc import Callable, Iterator, Sequence
from fractions import Fraction
from itertools import combinations, pairwise
from pathlib import Path
from types import ModuleType
from typing import Any, TypeVar

import pytest

import rtdvs.plot.comparison
import rtdvs.plot.evaluation
import rtdvs.plot.schedule
from rtdvs.model import Demands, Machine, Point, Task, TaskSet
from rtdvs.plot import View, parse_means, save_compare, save_means, save_trace
from rtdvs.rules import simulate
from rtdvs.studies import Result, Row
from rtdvs.trace import Trace
from tests.shared.examples import DATA, MINE, TEMPLATE, TEST_DATA, WORKED, Lines

pytest.importorskip("matplotlib")
Found = TypeVar("Found")
ROW, BAR, SPEED, VALUES = 58, 36, 72, 28    # a task's row, a bar and the speed row of full height, the row of values
RELEASE, DEADLINE = 48, 28                  # arrows
Spot = tuple[float, float]


def has_places(line: Any) -> bool:
    return len(line.get_xdata()) > 0


def seen(module: ModuleType, draw: Callable[[Path], None], look: Callable[[Any], Found]) -> Found:
    """What is seen of a picture in place of its file, with the fonts that it is drawn with."""
    from matplotlib.backends.backend_agg import FigureCanvasAgg

    found: list[Found] = []

    def keep(figure: Any, path: Path, background: str) -> None:
        canvas: Any = FigureCanvasAgg(figure)
        canvas.draw()
        found.append(look(figure))

    with pytest.MonkeyPatch.context() as patch:
        patch.setattr(module, "save", keep)
        draw(Path("a.svg"))
    return found[0]


def seen_trace(trace: Trace, look: Callable[[Any], Found], view: View = View(), width: int = 1000) -> Found:
    return seen(rtdvs.plot.schedule, lambda path: save_trace(trace, path, view, width), look)


# What lies where

Box = tuple[str, float, float, float, float]
"""What it is, and its left, right, lower and upper end in pixels."""


def box(name: str, artist: Any) -> Box:
    extent = artist.get_window_extent()
    return name, extent.x0, extent.x1, extent.y0, extent.y1


def texts(artist: Any) -> Iterator[Any]:
    from matplotlib.text import Text

    return (text for text in artist.findobj(Text) if text.get_text() and text.get_visible())


def lies_over(one: Box, two: Box, by: float = 0.5) -> bool:
    (_, left, right, low, high), (_, other_left, other_right, other_low, other_high) = one, two
    return (min(right, other_right) - max(left, other_left) > by and min(high, other_high) - max(low, other_low) > by)


def lies_in(one: Box, two: Box, by: float = 1) -> bool:
    (_, left, right, low, high), (_, other_left, other_right, other_low, other_high) = one, two
    return left >= other_left - by and right <= other_right + by and low >= other_low - by and high <= other_high + by


def faults(figure: Any) -> list[str]:
    """What is outside of the figure, lies over something else, or is outside of the axes though it is in them."""
    from matplotlib.collections import Collection
    from matplotlib.lines import Line2D
    from matplotlib.text import Annotation

    legends = [legend for legend in (*(axes.get_legend() for axes in figure.axes), *figure.legends) if legend]
    signs = [text for legend in legends for text in texts(legend)]
    inner = [text for axes in figure.axes for text in axes.texts if not isinstance(text, Annotation)]
    outer = [text for text in texts(figure) if not any(text is other for other in [*signs, *inner])]
    plates = [box("axes", axes) for axes in figure.axes]
    names = [box(text.get_text(), text) for text in outer]
    marks = [each for axes in figure.axes for each in axes.get_children()
             if isinstance(each, Line2D) and has_places(each) or isinstance(each, Collection) and each.get_paths()]
    every = [*plates, *names, *(box("legend", legend) for legend in legends),
             *(box(text.get_text(), text) for text in [*signs, *inner]),
             *(box(str(each.get_gid()), each) for each in marks)]
    whole = ("figure", 0.0, float(figure.bbox.width), 0.0, float(figure.bbox.height))
    apart = [*plates, *names, *(box("legend", legend) for legend in legends)]
    found = [f"{one[0]} is outside of the figure" for one in every if not lies_in(one, whole)]
    found += [f"{one[0]} lies over {two[0]}" for one, two in combinations(apart, 2) if lies_over(one, two)]
    found += [f"{one.get_text()} lies over {two.get_text()}" for one, two in combinations(signs, 2)
              if lies_over(box("", one), box("", two))]
    return found


LONG = "a_name_of_31_letters_and_numbers"[:31]
NAMED = f"trace 1\nplan edf none 2\nrelease 0 {LONG} 1\nspeed 0 1 1/1\nrun 0:0 2:0 {LONG} 1 2 2\nend 2 2 0\n"
TWO = TaskSet((Task(LONG, 2**32, 2**20, 2**31), Task("b", 4, 3)))
MANY = TaskSet(tuple(Task(f"task_{place}", 100, 1) for place in range(12)))
PICTURES = [
    pytest.param(Trace.read(WORKED), View(), 1000, id="version 1"),
    pytest.param(Trace.read(TEMPLATE), View(charge=1), 1000, id="version 2"),
    pytest.param(Trace.read(TEMPLATE), View(charge=1), 360, id="narrow"),
    pytest.param(Trace.parse(MINE), View(top=5), 700, id="another top"),
    pytest.param(Trace.read(WORKED), View(first=3, last=9), 500, id="a part"),
    pytest.param(simulate(TWO, Machine((Point(10**6, 20000),)), "edf", 40, "none"), View(charge=77), 700, id="long names"),
    pytest.param(Trace.parse(NAMED), View(), 600, id="a long name without facts"),
    pytest.param(simulate(MANY, Machine((Point(1, 1), Point(9, 2))), "rm", 100, "cc"), View(), 640, id="twelve tasks"),
]


@pytest.mark.parametrize(("trace", "view", "width"), PICTURES)
def test_all_is_in_the_picture_and_apart(trace: Trace, view: View, width: int) -> None:
    assert seen_trace(trace, faults, view, width) == []


# Where the marks of a trace are

def deadlines(lines: Lines) -> dict[tuple[str, str], int]:
    """Those of jobs whose period is known: in version 1 by two releases."""
    first = {name: sorted(tick for (task, _), tick in lines.releases.items() if task == name)
             for name, _ in lines.releases}
    periods = lines.period or {name: ticks[1] - ticks[0] for name, ticks in first.items() if len(ticks) > 1}
    return {job: tick + periods[job[0]] for job, tick in lines.releases.items() if job[0] in periods}


def near(found: Sequence[Sequence[float]], wanted: Sequence[Sequence[Fraction | float]]) -> bool:
    """The same rows of numbers, but for roundings."""
    pairs = list(zip(sorted(tuple(row) for row in found), sorted(tuple(map(float, row)) for row in wanted)))
    return len(found) == len(wanted) and all(one == pytest.approx(two, abs=1e-6) for one, two in pairs)


def shapes(axes: Any, name: str) -> list[tuple[float, float, float, float]]:
    """The rectangles of a group: begin, end, floor and top."""
    found = [path.vertices for each in axes.collections if str(each.get_gid()).removesuffix("-narrow") == name
             for path in each.get_paths()]
    return [(min(xs), max(xs), min(ys), max(ys)) for xs, ys in (corners.T for corners in found)]


def spots(axes: Any, name: str) -> list[Spot]:
    (line,) = [each for each in axes.lines if each.get_gid() == name]
    return [(x, y) for x, y in zip(*line.get_data())]


def shafts(axes: Any) -> list[tuple[float, float, float]]:
    """The upright lines: their ticks, lower ends and upper ends."""
    from matplotlib.collections import LineCollection

    ends: list[Any] = [path.vertices for each in axes.collections if isinstance(each, LineCollection)
                       for path in each.get_paths()]
    return [(low[0], low[1], high[1]) for low, high in ends if low[0] == high[0]]


@pytest.mark.parametrize(("path", "top"), [
    pytest.param(WORKED, None, id="version 1"), pytest.param(TEMPLATE, None, id="version 2"),
    pytest.param(WORKED, 9, id="another top"), pytest.param(DATA / "offsets" / "edf_cc.trace", None, id="offsets"),
    pytest.param(TEST_DATA / "saw.trace", None, id="a job that ends at a lower speed")])
def test_marks_are_where_the_lines_say(path: Path, top: int | None) -> None:
    lines, trace = Lines(path.read_text()), Trace.read(path)
    full = top or max(speed for _, speed, _ in lines.decisions)
    peak = max(Fraction(full), *(demand for _, _, demand in lines.decisions))
    names = [name for name in dict.fromkeys([*lines.period, *(task for task, _ in lines.releases)])]
    first = SPEED * min(peak / full, Fraction(3, 2)) + VALUES
    floors = {name: first + (len(names) - 1 - row) * ROW for row, name in enumerate(names)}
    last = {(each.task, each.job): each.speed for each in lines.segments}
    due = {job: tick for job, tick in deadlines(lines).items() if tick <= lines.ticks}

    def look(figure: Any) -> None:
        (axes,) = figure.axes
        for name, floor in floors.items():
            own = {job: tick for job, tick in lines.releases.items() if job[0] == name}
            assert near(spots(axes, f"release-{name}"), [(tick, floor + RELEASE) for tick in own.values()])
            assert near(spots(axes, f"deadline-{name}"), [(tick, floor) for job, tick in due.items() if job[0] == name])
            ends = [(end, floor + Fraction(BAR * last.get(job, 0), full)) for job, end in lines.ends.items() if job[0] == name]
            assert near(spots(axes, f"done-{name}"), ends)
            assert near(shapes(axes, f"run-{name}"), bars(lines, name, floor, Fraction(BAR, full)))
        assert near(shapes(axes, "idle"), bars(lines, "", Fraction(0), Fraction(SPEED, full)))
        assert near(shafts(axes), [(tick, floors[job[0]], floors[job[0]] + RELEASE) for job, tick in lines.releases.items()]
                    + [(tick, floors[job[0]], floors[job[0]] + DEADLINE) for job, tick in due.items()])
        assert near(spots(axes, "decision"), [(tick, SPEED * demand / full) for tick, _, demand in lines.decisions])
        for name, place in (("speed", 1), ("demand", 2)):
            values = [(tick, SPEED * Fraction(each[place]) / full) for tick, each in spans(lines)]
            assert near(sorted(set(spots(axes, name))), sorted({(float(x), float(y)) for x, y in values}))

    seen_trace(trace, look, View(top=top))


def spans(lines: Lines) -> Iterator[tuple[int, tuple[int, int, Fraction]]]:
    """The first tick and the last one of each decision, with it."""
    for each, end in zip(lines.decisions, [*(tick for tick, _, _ in lines.decisions[1:]), lines.ticks]):
        yield from ((each[0], each), (end, each))


def bars(lines: Lines, name: str, floor: Fraction, unit: Fraction) -> list[tuple[Fraction, ...]]:
    """The segments of a task, or idle ones; those that meet are one, if job and speed are the same."""
    own: list[list[Any]] = []
    for before, each in pairwise([None, *lines.segments]):
        assert each is not None
        if before and (before.task, before.job, before.speed, before.end) == (each.task, each.job, each.speed, each.begin):
            own[-1][2] = each.end
        else:
            own.append([each.task, each.begin, each.end, each.speed])
    return [(begin, end, floor, floor + unit * speed) for task, begin, end, speed in own if task == name]


def test_a_pixel_of_the_axes_is_one_of_the_picture() -> None:
    """There are 20 on the right, and on the left the room of the names, at least 100."""
    def look(figure: Any) -> tuple[float, float, float, float]:
        (axes,) = figure.axes
        plate, (low, high) = axes.get_window_extent(), axes.get_ylim()
        return plate.height / (high - low), figure.bbox.width, figure.bbox.width - plate.x1, plate.x0

    assert seen_trace(Trace.read(WORKED), look, width=777) == pytest.approx((1, 777, 20, 100))


def test_a_completion_without_units_is_on_the_floor() -> None:
    """A job that needs nothing has no bar, so its circle is at no height; the other one needs two ticks at speed 1."""
    tasks, demands = TaskSet((Task("a", 4, 4),)), Demands({("a", 1): 0, ("a", 2): 2})
    trace = simulate(tasks, Machine((Point(1, 1000),)), "edf", 8, "none", demands)
    found = seen_trace(trace, lambda figure: spots(figure.axes[0], "done-a"))
    assert near(found, [(0, SPEED + VALUES), (6, SPEED + VALUES + BAR)])


# Comparisons and the evaluation

HALF, THIRD = Fraction(1, 2), Fraction(1, 3)
ROWS = [
    Row("edf", "none", Result(900, Fraction(1), Fraction(1), 0, THIRD, None, None, residency={4: Fraction(1)})),
    Row("edf", "cc", Result(450, HALF, Fraction(1, 4), 3, THIRD, None, None, residency={2: THIRD, 4: 2 * THIRD})),
    Row("rm", "cc", None, "denied rm y 7 6"),
    Row("rm", "static", Result(0, None, None, 0, HALF, None, None, residency={2: Fraction(1)})),
]


def rectangles(axes: Any) -> list[tuple[float, float, float, float]]:
    return [(each.get_x(), each.get_width(), each.get_y() + each.get_height() / 2, each.get_height())
            for each in axes.patches]


def test_bars_of_a_comparison() -> None:
    """The bound of a row is its energy over 1 and what is above it."""
    def look(figure: Any) -> None:
        energy, time = figure.axes
        assert near(rectangles(energy), [(0, 1, 0, 2 / 3), (0, HALF, 1, 2 / 3)])
        assert near(shafts(energy), [(HALF, -0.42, 0.42), (HALF / Fraction(5, 4), 0.58, 1.42)])
        assert near(rectangles(time), [(0, 1, 0, 2 / 3), (0, THIRD, 1, 2 / 3), (THIRD, 2 * THIRD, 1, 2 / 3), (0, 1, 3, 2 / 3)])
        shades = [each.get_alpha() for each in time.patches]
        assert shades[0] == shades[2] > shades[1] == shades[3]
        assert [(text.get_text(), *text.get_position()) for text in energy.texts] == [
            ("1.000", 1.013, 0), ("0.500", 0.513, 1), ("denied rm y 7 6", 0.02, 2), ("no share", 0.02, 3)]
        assert [text.get_text() for text in time.get_legend().texts] == ["2", "4"]
        assert energy.get_ylim() == time.get_ylim() == (3.5, -0.5)
        assert faults(figure) == []

    seen(rtdvs.plot.comparison, lambda path: save_compare(ROWS, path), look)


SHIFTS = {"bound": 0, "edf static": -2, "rm static": 4, "edf cc": 0, "rm cc": 6, "edf la": 2}
HEAD = "panel\tcurve\tutilisation\tsets\tmean\tlow\thigh\n"
MEANS = HEAD + "".join(
    f"{count} tasks\t{curve}\t0.{tenth}\t{sets}\t0.{tenth}{place}\t0.{tenth - 1}\t0.{tenth + 1}\n"
    for count in (5, 10) for place, curve in enumerate(SHIFTS)
    for tenth, sets in ((2, 100), (7, 9 if curve == "rm cc" else 10))
) + "".join(f"{count} tasks\t{pair}\t0.{tenth}\t100\t1\t1\t1\n" for count in (5, 10) for tenth in (2, 7)
            for pair in ("edf none", "rm none"))


@pytest.mark.parametrize("columns", [1, 2, 3])
def test_curves_of_the_evaluation(columns: int) -> None:
    """A point of fewer than a tenth of the sets is left out; a curve is some pixels to the side of the utilisation."""
    def look(figure: Any) -> None:
        assert [axes.get_title() for axes in figure.axes] == ["5 tasks", "10 tasks"]
        assert faults(figure) == []
        for axes in figure.axes:
            pixel = axes.transData.inverted().transform([(0, 0), (1, 0)])
            unit = pixel[1][0] - pixel[0][0]
            wanted: list[tuple[float, float, float]] = []
            for place, (curve, shift) in enumerate(SHIFTS.items()):
                tenths = [0.2] if curve == "rm cc" else [0.2, 0.7]
                points = [(tenth + shift * unit, tenth + place / 100) for tenth in tenths]
                assert near(spots(axes, curve.replace(" ", "-")), points)
                wanted += [(x, tenth - 0.1, tenth + 0.1) for (x, _), tenth in zip(points, tenths) if curve != "bound"]
            assert near(shafts(axes), wanted)

    seen(rtdvs.plot.evaluation, lambda path: save_means(parse_means(MEANS), path, columns), look)
