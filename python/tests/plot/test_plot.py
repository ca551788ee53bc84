"""Pictures: their marks are counted in the trace's lines, and the stored ones are made again and compared."""

import re
import struct
import sys
import xml.etree.ElementTree as ElementTree
import zlib
from collections import Counter
from pathlib import Path
from typing import Any

import pytest
from hypothesis import given
from hypothesis import strategies as st

from rtdvs._numbers import readable
from rtdvs.engine import Engine
from rtdvs.errors import BadValue
from rtdvs.plot import (
    Bar, View, join_narrow, parse_means, plot_compare, plot_trace, round_step, save_means, save_trace, settled,
    steps, thin, trace_height,
)
from rtdvs.studies import Result, Row
from rtdvs.trace import Trace
from tests.shared.examples import DATA, SHORT, TEMPLATE, TOP, Captured, Lines, path_id, refusal
from tools import pictures

pytest.importorskip("matplotlib")
SVG = "{http://www.w3.org/2000/svg}"


def marks(path: Path) -> dict[str, int]:
    """The marks of each named group of a picture."""
    def count(group: ElementTree.Element, *kinds: str) -> int:
        return sum(len(list(group.iter(SVG + kind))) for kind in kinds)

    groups = ElementTree.parse(path).getroot().iter(f"{SVG}g")
    # A shape that is used is defined by a path of its own.
    return {group.get("id", ""): count(group, "use", "path") - count(group, "defs") for group in groups}


def texts(path: Path) -> list[str]:
    return ["".join(text.itertext()) for text in ElementTree.parse(path).getroot().iter(f"{SVG}text")]


def drawn(trace: Trace, path: Path, view: View = View(), width: int = 1000) -> tuple[dict[str, int], list[str]]:
    """Draws a trace; the marks and the texts of the picture."""
    save_trace(trace, path, view, width)
    return marks(path), texts(path)


@pytest.mark.parametrize("path", SHORT, ids=path_id)
def test_marks_are_those_of_the_trace(path: Path, tmp_path: Path) -> None:
    lines, (found, said) = Lines(path.read_text()), drawn(Trace.read(path), tmp_path / "a.svg")
    tasks = {word: Counter({name.removeprefix(f"{word}-"): count for name, count in found.items()
                            if name.startswith(f"{word}-")}) for word in ("release", "done", "run")}
    assert tasks["release"] == Counter(task for _, task, _ in lines.of("release"))
    assert tasks["done"] == Counter(task for _, task, _, _ in lines.of("done"))
    assert tasks["run"].keys() == {task for _, _, task, *_ in lines.of("run")}
    assert found["decision"] + found["over"] == len(lines.decisions)
    assert ("idle" in found) == (lines.of("idle") != [])
    assert {*lines.used.values()} <= {text.split("/")[0] for text in said}
    assert ["{}, {}: {} ticks".format(*fields) in said for fields in lines.of("plan")] == [True]


def placed(path: Path) -> list[tuple[str, list[float]]]:
    """Each mark of a picture, with the numbers that place it, in points."""
    found = []
    for mark in ElementTree.parse(path).getroot().iter():
        numbers = re.findall(r"-?\d+(?:\.\d+)?", " ".join(mark.get(key, "") for key in PLACING))
        found.append((mark.tag, [float(number) for number in numbers]))
    return found


PLACING = ("d", "x", "y", "width", "height", "transform", "viewBox")
"""The attributes that place a mark."""
APART = 0.5
"""Points by which another version of matplotlib may place a mark elsewhere."""


def same_picture(made: Path, stored: Path) -> None:
    """The same texts and marks in the same order, each at the same place."""
    assert texts(made) == texts(stored)
    for found, wanted in zip(placed(made), placed(stored), strict=True):
        assert found[0] == wanted[0] and found[1] == pytest.approx(wanted[1], abs=APART)
    named = {name: count for name, count in marks(made).items() if "-" in name
             or name in ("idle", "decision", "over")}
    assert named == {name: count for name, count in marks(stored).items() if name in named} and len(named) > 4


def test_stored_pictures(engine: Engine, tmp_path: Path) -> None:
    stored = TOP / "examples" / "pictures"
    for path in pictures.draw_pictures(engine, tmp_path):
        same_picture(path, stored / path.name)
    assert sorted(path.name for path in stored.glob("*.svg")) == sorted(path.name for path in tmp_path.iterdir())


def test_stored_figures(tmp_path: Path) -> None:
    for path in pictures.draw_figures(tmp_path):
        same_picture(path, TOP / "examples" / "evaluation" / path.name)


def test_the_picture_of_the_page_is_whole() -> None:
    """Its parts have their sums, and all of its lines are there."""
    content = (TOP / "examples" / "pictures" / "page.png").read_bytes()
    assert content[:8] == b"\x89PNG\r\n\x1a\n"
    at, parts = 8, list[tuple[bytes, bytes]]()
    while at < len(content):
        length = int.from_bytes(content[at:at + 4])
        kind, data = content[at + 4:at + 8], content[at + 8:at + 8 + length]
        assert zlib.crc32(kind + data) == int.from_bytes(content[at + 8 + length:at + 12 + length])
        parts, at = [*parts, (kind, data)], at + 12 + length
    width, height, depth, colour = struct.unpack(">IIBB", parts[0][1][:10])
    line = 1 + (width * depth * {0: 1, 2: 3, 3: 1, 4: 2, 6: 4}[colour] + 7) // 8
    assert [kind for kind, _ in parts][::len(parts) - 1] == [b"IHDR", b"IEND"]
    lines = zlib.decompress(b"".join(data for kind, data in parts if kind == b"IDAT"))
    assert len(lines) == height * line and min(width, height) > 500


def test_same_bytes_each_time(tmp_path: Path) -> None:
    trace = Trace.read(TEMPLATE)
    for kind in "svg", "pdf":
        for name in "a", "b":
            save_trace(trace, tmp_path / f"{name}.{kind}")
        assert (tmp_path / f"a.{kind}").read_bytes() == (tmp_path / f"b.{kind}").read_bytes()


def head(ticks: int, tasks: str) -> str:
    return f"trace 2\nplan edf my_own {ticks}\n{tasks}"


def long_trace(jobs: int) -> Trace:
    """A task of period 2 that runs for a tick, at another speed each time."""
    lines = [head(2 * jobs, "task a 2 0 2\n")]
    for job in range(jobs):
        at, speed = 2 * job, 1 + job % 2
        lines += [f"release {at} a {job + 1}\nspeed {at} {speed} {speed}/1\n",
                  f"run {at}:0 {at + 1}:0 a {job + 1} {speed} 5\ndone {at + 1}:0 a {job + 1} {speed}\n",
                  f"idle {at + 1}:0 {at + 2}:0 {speed} 0\n"]
    return Trace.parse("".join([*lines, f"energy a {5 * jobs}\nend {2 * jobs} {5 * jobs} 0\n"]))


def test_long_run_is_thinned(tmp_path: Path) -> None:
    found, said = drawn(long_trace(4000), tmp_path / "a.svg", width=400)
    assert all(50 < found[name] <= 160 for name in ("release-a", "deadline-a", "done-a"))
    assert found["decision"] <= 320 and found["run-a-narrow"] <= 640
    assert "near marks (less than 2 pixels) once" in said
    assert (tmp_path / "a.svg").stat().st_size < 300_000


def test_window(tmp_path: Path) -> None:
    found, said = drawn(long_trace(50), tmp_path / "a.svg", View(first=10, last=20))
    names = ("release-a", "deadline-a", "done-a", "run-a", "idle", "decision")
    assert [found[name] for name in names] == [6, 6, 5, 5, 5, 5]
    assert "edf, my_own: ticks 10 to 20 of 100" in said


def test_a_trace_without_a_task(tmp_path: Path) -> None:
    """The program's own: one tick of idle time before the first release."""
    trace = Trace.parse("trace 1\nplan edf none 1\nspeed 0 4 4/1\nidle 0:0 1:0 4 0\nend 1 0 0\n")
    found, said = drawn(trace, tmp_path / "a.svg")
    assert (found["idle"], found["decision"]) == (1, 1) and "edf, none: 1 ticks" in said


def test_64_tasks_and_a_demand_above_the_picture(tmp_path: Path) -> None:
    names = [f"t{'x' * 29}{place:02}" for place in range(64)]
    tasks, releases, energies = ("".join(form.format(name) for name in names) for form in (
        "task {} 9 0 1\n", "release 0 {} 1\n", "energy {} 0\n"))
    trace = Trace.parse(head(9, tasks) + f"{releases}speed 0 1 {2**100}/1\nidle 0:0 9:0 9 0\n"
                        f"{energies}end 9 0 {2**127}\n")
    found, said = drawn(trace, tmp_path / "a.svg", View(charge=3))
    assert found["over"] == 1 and {*names} < {*said}
    assert "period 9, worst 1+6" in said and "demand above the picture" in said
    assert any("1.70141 × 10³⁸ idle" in text for text in said)
    assert trace_height(trace) > 64 * 50


def test_into_the_axes_of_a_caller() -> None:
    from matplotlib.figure import Figure

    one, two = Figure(figsize=(8, 8)).subplots(2)
    plot_trace(Trace.read(DATA / "paper" / "edf_none.trace"), one, View(top=8))
    result = Result(1, None, None, 0, *3 * [one.get_xlim()[0] * 0], residency={})    # type: ignore[misc]
    plot_compare([Row("rm", "cc", None, "denied rm 3 of 2"), Row("edf", "cc", result)], one, two)
    assert "denied rm 3 of 2" in [text.get_text() for text in one.texts]


@pytest.mark.parametrize(("view", "line"), [
    (View(last=17), "--to has to be at most 16, the ticks of the run"),
    (View(first=16), "--from has to be below 16"),
    (View(first=3, last=3), "--from has to be below 3"),
    (View(top=2), "--top has to be at least 4, the fastest speed"),
], ids=str)
def test_views(view: View, line: str) -> None:
    with pytest.raises(BadValue, match=line):
        settled(Trace.read(DATA / "paper" / "edf_none.trace"), view)


@pytest.mark.parametrize("table", ["", "a\tb\n",
                                   "panel\tcurve\tutilisation\tsets\tmean\tlow\thigh\na\tb\tx\t1\t1\t1\t1\n"])
def test_tables_are_refused(table: str, tmp_path: Path, capsys: Captured) -> None:
    (tmp_path / "t.tsv").write_text(table)
    words = ["--table", tmp_path / "t.tsv", "--output", tmp_path / "a.svg"]
    assert "table: " in refusal(capsys, ["plot", "evaluation", *words])


def test_without_matplotlib(tmp_path: Path, monkeypatch: pytest.MonkeyPatch, capsys: Captured) -> None:
    modules: dict[str, object] = sys.modules    # type: ignore[assignment]
    monkeypatch.setitem(modules, "matplotlib", None)
    words = ["--trace", DATA / "paper" / "edf_none.trace", "--output", tmp_path / "a.svg", "--unchecked"]
    assert "plot: matplotlib is not installed" in refusal(capsys, ["plot", "trace", *words])


places = st.lists(st.integers(0, 1000)).map(lambda ticks: sorted(ticks))


@given(places, st.integers(0, 50))
def test_thinned_places_are_apart_and_near_all(given_places: list[int], near: int) -> None:
    kept = thin(given_places, near)
    assert all(after - before >= near for before, after in zip(kept, kept[1:]))
    assert all(any(0 <= place - other < max(near, 1) for other in kept) for place in given_places)


@given(st.lists(st.tuples(st.integers(0, 5), st.integers(1, 9), st.integers(1, 2))), st.integers(0, 6))
def test_joined_bars_cover_all(row: list[tuple[int, int, int]], narrow: int) -> None:
    bars, now = [], 0
    for gap, length, speed in row:
        bars.append(Bar(now + gap, now + gap + length, speed))
        now += gap + length
    joined = list(join_narrow(bars, narrow, 1))
    assert all(any(one.begin <= bar.begin and bar.end <= one.end and one.speed >= bar.speed
                   for one in joined) for bar in bars)
    assert all(before.end <= after.begin for before, after in zip(joined, joined[1:]))
    assert sum(bar.end - bar.begin for bar in joined) <= sum(bar.end - bar.begin + 2 for bar in bars)


@given(st.lists(st.tuples(st.integers(1, 5), st.integers(0, 9)), min_size=1), st.integers(0, 8))
def test_steps_show_each_extreme(values: list[tuple[int, int]], gap: int) -> None:
    ends = [sum(length for length, _ in values[:place + 1]) for place in range(len(values))]
    corners = steps(((end - length, end, float(value)) for end, (length, value) in zip(ends, values)), gap)
    assert {max(y for _, y in corners), min(y for _, y in corners)} == {max(y for _, y in values),
                                                                        min(y for _, y in values)}
    assert all(before[0] <= after[0] for before, after in zip(corners, corners[1:]))


@given(st.integers(1, 2**40), st.integers(1, 50))
def test_round_step_is_the_least_that_fits(span: int, most: int) -> None:
    step = round_step(span, most)
    lower = {"1": step // 2, "2": step // 2, "5": step * 2 // 5}[str(step)[0]]
    assert span <= step * most and str(step).strip("0") in "125" and (step == 1 or span > lower * most)


@given(st.integers(0, 2**128))
def test_readable_is_near(number: int) -> None:
    digits, _, power = readable(number).partition(" × 10")
    raised = int(power.translate(str.maketrans("⁰¹²³⁴⁵⁶⁷⁸⁹", "0123456789")) or "0")
    whole, _, places = digits.partition(".")
    assert abs(int(whole + places) * 10 ** (raised - len(places)) - number) * 10**5 <= number


# Figures of the evaluation, of any table

LONG = "8 tasks on the machine of a file with a rather long name of its own, and then some more of it"


def table_of(*panels: str) -> str:
    """A table with two curves of other governors in each panel."""
    rows = [(panel, curve, f"0.{tenth}") for panel in panels for tenth in (2, 7)
            for curve in ("edf none", "edf la", "edf careful_governor_of_mine", "rm other", "bound")]
    return "panel\tcurve\tutilisation\tsets\tmean\tlow\thigh\n" + "".join(
        "\t".join([*row, "9", f"0.{place % 9 + 1}", "0.1", "0.9"]) + "\n" for place, row in enumerate(rows))


def test_how_many_sets_rm_admits(tmp_path: Path, monkeypatch: pytest.MonkeyPatch) -> None:
    """Of three sets at 0.1 two, of three at 0.2 none; there is no set at 0.3, nor in the table beyond it."""
    rows = [("edf none", "0.1", 3), ("rm none", "0.1", 2), ("edf none", "0.2", 3), ("rm none", "0.2", 0),
            ("edf none", "0.3", 0), ("rm none", "0.3", 0)]
    text = "panel\tcurve\tutilisation\tsets\tmean\tlow\thigh\n" + "".join(
        "\t".join(["a", curve, tenth, str(sets), *(3 * "1" if sets else 3 * [""])]) + "\n" for curve, tenth, sets in rows)
    made: list[Any] = []
    monkeypatch.setattr("rtdvs.plot.evaluation.save", lambda figure, *rest: made.append(figure))
    save_means(parse_means(text), tmp_path / "a.svg", 1)
    labels = [label.get_text().split("\n")[1] for label in made[0].axes[0].get_xticklabels()]
    assert labels == ["2", "0", *8 * "–"]


@pytest.mark.parametrize("panels", [("5 tasks",), (LONG,), (LONG, "a", "b", "c")], ids=["one", "long", "four"])
@pytest.mark.parametrize("columns", [1, 2, 3, 7])
def test_each_curve_is_drawn_and_no_text_is_cut(panels: tuple[str, ...], columns: int, tmp_path: Path,
                                                monkeypatch: pytest.MonkeyPatch) -> None:
    from matplotlib.backends.backend_agg import FigureCanvasAgg
    from matplotlib.text import Text

    made: list[Any] = []
    monkeypatch.setattr("rtdvs.plot.evaluation.save", lambda figure, *rest: made.append(figure))
    save_means(parse_means(table_of(*panels)), tmp_path / "a.svg", columns)
    [figure] = made
    FigureCanvasAgg(figure)
    figure.draw_without_rendering()
    for axes in figure.axes:
        drawn = {line.get_gid(): len(line.get_xdata()) for line in axes.lines}
        assert [drawn[name] for name in ("bound", "edf-la", "edf-careful_governor_of_mine", "rm-other")] == [2] * 4
        colours = {line.get_gid(): line.get_color() for line in axes.lines}
        assert len(set(colours.values())) == 6 and colours == {
            line.get_gid(): line.get_color() for line in figure.axes[0].lines}
    [signs] = figure.legends
    assert {"EDF careful_governor_of_mine", "RM other"} <= {text.get_text() for text in signs.get_texts()}
    wide, high = figure.canvas.get_width_height()
    boxes = [(text.get_text(), text.get_window_extent()) for text in figure.findobj(Text) if text.get_text()]
    outside = [text for text, box in boxes if box.x0 < -1 or box.y0 < -1 or box.x1 > wide + 1 or box.y1 > high + 1]
    assert not outside
    titles = [box for text, box in boxes if text.replace("\n", " ") in panels]
    heading = next(box for text, box in boxes if text.startswith("energy"))
    assert len(titles) == len(panels) and all(title.y1 <= heading.y0 + 1 for title in titles)


# What is left out of a picture is said

NEAR_SAID, JOINED_SAID = "near marks (less than 2 pixels) once", "runs below 3 pixels joined, as high as the highest"


def rare_trace(runs: int) -> Trace:
    """One release in a thousand ticks, and within a tick many decisions with the same speed, and runs between."""
    lines = [head(1000, "task a 1000 0 900\n"), "release 0 a 1\n", "speed 0 10 10/1\n"]
    for tick in range(runs):
        lines += [f"run {tick}:0 {tick}:5 a 1 5 1\n", f"idle {tick}:5 {tick + 1}:0 5 0\n"]
    lines.append(f"idle {runs}:0 1000:0 {10 * (1000 - runs)} 0\n")
    return Trace.parse("".join([*lines, f"energy a {runs}\nend 1000 {runs} 0\n"]))


def decided_trace(decisions: int) -> Trace:
    """Only decisions are near to each other."""
    lines = [head(1000, "task a 1000 0 900\n"), "release 0 a 1\n"]
    lines += [f"speed {tick} 10 10/1\nidle {tick}:0 {tick + 1}:0 10 0\n" for tick in range(decisions)]
    lines.append(f"idle {decisions}:0 1000:0 {10 * (1000 - decisions)} 0\n")
    return Trace.parse("".join([*lines, "energy a 0\nend 1000 0 0\n"]))


def busy_trace(tasks: int, jobs: int) -> Trace:
    """Tasks that all run a unit of each tick, one after the other."""
    names = [f"t{number}" for number in range(tasks)]
    lines = [head(jobs, "".join(f"task {name} 1 0 1\n" for name in names))]
    for tick in range(jobs):
        lines += [f"release {tick} {name} {tick + 1}\n" for name in names]
        lines.append(f"speed {tick} {tasks + tick % 2} {tasks}/1\n")
        for unit, name in enumerate(names):
            end = f"{tick}:{unit + 1}" if unit + 1 < tasks + tick % 2 else f"{tick + 1}:0"
            lines.append(f"run {tick}:{unit} {end} {name} {tick + 1} 1 5\ndone {end} {name} {tick + 1} 1\n")
        lines += [f"idle {tick}:{tasks} {tick + 1}:0 1 0\n"] * (tick % 2)
    energies = "".join(f"energy {name} {5 * jobs}\n" for name in names)
    return Trace.parse("".join([*lines, energies, f"end {jobs} {5 * jobs * tasks} 0\n"]))


@pytest.mark.parametrize(("tasks", "jobs", "marks"), [
    pytest.param(3, 4000, (300, 440), id="few tasks: as near as usual"),
    pytest.param(30, 1000, (60, 133), id="many tasks: farther from each other"),
])
def test_marks_of_all_rows(tasks: int, jobs: int, marks: tuple[int, int], tmp_path: Path) -> None:
    """A picture has at most 12,000 marks of jobs, and no more runs, however long the trace is."""
    found, said = drawn(busy_trace(tasks, jobs), tmp_path / "a.svg")
    for kind in ("release", "deadline", "done"):
        assert all(marks[0] <= found[f"{kind}-t{row}"] <= marks[1] for row in range(tasks))
    rows = [f"{kind}-t{row}" for kind in ("release", "deadline", "done") for row in range(tasks)]
    assert 3000 < sum(found[row] for row in rows) <= 12_000
    assert sum(found[name] for name in found if name.startswith("run-")) <= 12_000
    near = int(re.findall(r"near marks \(less than (\d+) pixels\) once", " ".join(said))[0])
    assert f"runs below {3 * near // 2} pixels joined, as high as the highest" in said
    assert (near == 2) == (tasks == 3) and (tmp_path / "a.svg").stat().st_size < 4_000_000


@pytest.mark.parametrize(("trace", "near", "joined"), [
    pytest.param(long_trace(20), False, False, id="all is there"),
    pytest.param(rare_trace(20), False, True, id="runs only"),
    pytest.param(decided_trace(20), True, False, id="decisions only"),
    pytest.param(long_trace(4000), True, True, id="both"),
])
def test_what_is_left_out_is_said(trace: Trace, near: bool, joined: bool, tmp_path: Path) -> None:
    _, said = drawn(trace, tmp_path / "a.svg", width=600)
    assert (NEAR_SAID in said, JOINED_SAID in said) == (near, joined)
