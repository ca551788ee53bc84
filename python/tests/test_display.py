"""What a notebook shows of values, and the frames of pandas: each cell by the files' own numbers."""

import base64
import sys
from collections.abc import Callable
from fractions import Fraction
from types import ModuleType
from typing import cast
from xml.etree import ElementTree

import pytest

from rtdvs._display import Shown, html_of
from rtdvs.model import Deadlines, Demands, Machine, Point, Request, Requests, Task, TaskSet
from rtdvs.studies import Comparison, Result, Row
from rtdvs.trace import SAMPLE, Trace, task_statistics
from tests.shared.examples import WORKED

COMPARED = Comparison([
    Row("edf", "none", Result(2**70, Fraction(1), None, 3, Fraction(1, 8), Fraction(1, 3), None, {2: Fraction(3, 4)})),
    Row("rm", "cc", None, "denied rm y 7 6")])
SAMPLED = task_statistics(Trace.parse(SAMPLE), TaskSet((Task("t", 2, 4),)))
VALUES: dict[str, tuple[Shown, list[list[str]]]] = {
    "tasks": (TaskSet((Task("a", 8, 12), Task("b", 10, 3, 5))),
              [["name", "period", "worst", "offset"], ["a", "8", "12", "0"], ["b", "10", "3", "5"]]),
    "machine": (Machine((Point(2, 3000), Point(3, 4000)), idle=10, charge=1),
                [["speed", "millivolts"], ["2", "3000"], ["3", "4000"]]),
    "demands": (Demands({("a", 2): 7}), [["task", "job", "units"], ["a", "2", "7"]]),
    "deadlines": (Deadlines({"a": 3}), [["task", "deadline"], ["a", "3"]]),
    "requests": (Requests((Request(0, 3),)), [["arrival", "units"], ["0", "3"]]),
    "comparison": (COMPARED, [
        ["scheduler", "governor", "energy", "of_none", "above_bound", "switches", "idle", "least_laxity", "jitter",
         "at_2", "refusal"],
        ["edf", "none", "1180591620717411303424", "1.0000", "-", "3", "0.1250", "0.3333", "-", "0.7500", ""],
        ["rm", "cc", "-", "-", "-", "-", "-", "-", "-", "-", "denied rm y 7 6"]]),
    "statistics": (SAMPLED, [
        ["task", "jobs", "complete", "missed", "mean_response", "greatest_response", "jitter", "least_laxity",
         "preemptions", "energy"],
        ["t", "1", "1", "0", "1.5000", "1.5000", "0.0000", "0.5000", "0", "6000"]]),
}
IDS = list(VALUES)


def cells(html: str) -> list[list[str]]:
    table = ElementTree.fromstring(html)
    return [[cell.text or "" for cell in row] for row in table.iter("tr")]


@pytest.mark.parametrize(("value", "table"), VALUES.values(), ids=IDS)
def test_tables_of_a_notebook(value: Shown, table: list[list[str]]) -> None:
    assert cells(value._repr_html_()) == table


@pytest.mark.parametrize(("value", "table"), VALUES.values(), ids=IDS)
def test_frames(value: Shown, table: list[list[str]]) -> None:
    """The same columns and as many rows; whole numbers are whole, and an energy of any size is exact."""
    pandas = pytest.importorskip("pandas")
    frame = value.frame()
    assert (list(frame.columns), len(frame)) == (table[0], len(table) - 1)
    for column, texts in zip(frame.columns, zip(*table[1:])):
        for found, text in zip(frame[column], texts):
            assert str(found) == text or (pandas.isna(found) and text == "-") or abs(found - float(text)) < 1e-4


def test_settings_of_a_machine() -> None:
    caption = ElementTree.fromstring(Machine((Point(2, 3000),), idle=10, charge=1)._repr_html_()).find("caption")
    assert caption is not None and caption.text == "idle 10, charge 1"


def test_a_long_table_is_cut() -> None:
    html = html_of(["n"], ((number,) for number in range(103)))
    assert html.count("<td>") == 100 and html.endswith("<td>99</td></tr></table><p>3 more</p>")


def test_a_trace_of_one_job() -> None:
    assert repr(Trace.parse(SAMPLE)) == "<Trace: edf mine, 2 ticks, 1 job, energy 6000>"


def test_a_trace_in_a_notebook() -> None:
    """A short line at a prompt, and the picture of `plot`; without matplotlib its segments."""
    pytest.importorskip("matplotlib")
    trace = Trace.read(WORKED)
    assert repr(trace) == str(trace) == "<Trace: edf cc, 16 ticks, 6 jobs, energy 364000000000>"
    picture = trace._repr_svg_()
    assert picture is not None and picture == trace._repr_html_()
    found = ElementTree.fromstring(picture)
    assert found.tag.endswith("svg")
    words = {(text.text or "").strip() for text in found.iter("{http://www.w3.org/2000/svg}text")}
    assert {"t1", "t2", "t3"} <= words


def test_a_trace_in_a_converted_notebook() -> None:
    """Debian's nbconvert takes the HTML of an output as it is, with its SVG, and leaves no path in an SVG of its own.

    It prefers an SVG to a PNG beside it.
    """
    pytest.importorskip("matplotlib")
    nbconvert, nbformat = (pytest.importorskip(name) for name in ("nbconvert", "nbformat"))
    trace = Trace.read(WORKED)
    svg, png = str(trace._repr_svg_()), base64.b64encode(b"\x89PNG").decode()

    def converted(kinds: dict[str, str]) -> str:
        output = nbformat.v4.new_output("execute_result", kinds)
        book = nbformat.v4.new_notebook(cells=[nbformat.v4.new_code_cell("trace", outputs=[output])])
        return str(nbconvert.HTMLExporter().from_notebook_node(book)[0])

    paths = svg.count("<path ")
    assert paths > 20 and converted({"image/svg+xml": svg, "text/html": trace._repr_html_()}).count("<path ") == paths
    beside = converted({"image/svg+xml": svg, "image/png": png})
    if nbconvert.__version__.startswith("6.5"):
        assert "<path " not in beside and png not in beside
    assert png in converted({"image/png": png})


def test_a_trace_without_a_picture(monkeypatch: pytest.MonkeyPatch) -> None:
    """There is no matplotlib, or no job to draw: a notebook shows the segments."""
    none = Trace.parse("trace 1\nplan edf mine 2\nend 2 0 0\n")
    assert none._repr_svg_() is None and len(cells(none._repr_html_())) == 1
    for name in [*sys.modules, "matplotlib"]:
        if name.split(".")[0] == "matplotlib":
            monkeypatch.setitem(sys.modules, name, cast(ModuleType, None))
    trace = Trace.parse(SAMPLE)
    table = cells(trace._repr_html_())
    assert trace._repr_svg_() is None and table[0][:3] == ["kind", "task", "job"]
    assert table[1] == ["run", "t", "1", "0:0", "1:0", "0.0000", "1.0000", "3", "3", "5000"]


@pytest.mark.parametrize(("table", "column", "values"), [
    pytest.param("segments", "energy", [5000, 1000, 0], id="segments"),
    pytest.param("jobs", "laxity", [0.5], id="jobs"), pytest.param("decisions", "speed", [3, 2], id="decisions")])
def test_frames_of_a_trace(table: str, column: str, values: list[float]) -> None:
    pytest.importorskip("pandas")
    assert Trace.parse(SAMPLE).frame(table)[column].tolist() == values


def test_joules_of_a_trace() -> None:
    pytest.importorskip("pandas")
    assert Trace.parse(SAMPLE).frame(joule=Fraction(1, 1000))["joules"].tolist() == [5.0, 1.0, 0.0]


@pytest.mark.parametrize("make", [lambda: Demands({})._repr_html_(), lambda: Comparison()._repr_html_()])
def test_nothing_is_a_table_too(make: Callable[[], str]) -> None:
    assert len(cells(make())) == 1
