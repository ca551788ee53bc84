"""The notebook of the examples: a run from its top shows what is stored, and the numbers of the pages."""

import copy
import re
from fractions import Fraction
from pathlib import Path

import pytest

from rtdvs._numbers import decimal
from tests.shared.examples import TEST_DATA, TOP
from tools import tour

STORED = tour.read()
CELLS = {cell["id"]: cell for cell in tour.code_cells(STORED)}
# Cells: the page that works one out, and lines that are on both.
WORKED = [block.splitlines() for block in (TEST_DATA / "notebook.txt").read_text(encoding="utf-8").split("\n\n")]


def printed(cell: str) -> str:
    return "\n".join(tour.shown(CELLS[cell]))


def faults(wanted: tour.Notebook, found: tour.Notebook) -> list[str]:
    """The cells that show something else."""
    texts = [{cell["id"]: [*tour.shown(cell)] for cell in tour.code_cells(book)} for book in (wanted, found)]
    return [f"{cell}: shown is {texts[1].get(cell)}, stored {text}" for cell, text in texts[0].items()
            if texts[1].get(cell) != text]


def test_a_run_shows_what_is_stored(program: Path, tmp_path: Path, monkeypatch: pytest.MonkeyPatch) -> None:
    for module in ("nbconvert", "ipykernel", "matplotlib"):
        pytest.importorskip(module)
    monkeypatch.setenv("RTDVS", str(program))
    found = tour.executed(STORED, tmp_path)
    assert faults(STORED, found) == []
    assert tour.stored(found).keys() == STORED.keys()


def test_other_outputs_are_a_fault() -> None:
    changed, without = copy.deepcopy(STORED), copy.deepcopy(STORED)
    for output in tour.code_cells(changed)[1]["outputs"]:
        output["text"] = [line.replace("448000000000", "448000000001") for line in output["text"]]
    for output in tour.code_cells(without)[2]["outputs"]:
        del output["data"]["image/png"]
    assert [fault.split(":")[0] for fault in faults(STORED, changed)] == ["pairs"]
    assert [fault.split(":")[0] for fault in faults(STORED, without)] == ["pairs-drawn"]


@pytest.mark.parametrize(("place", "lines"), [
    pytest.param(first, lines, id=first) for first, *lines in WORKED])
def test_numbers_of_the_pages(place: str, lines: list[str]) -> None:
    cell, page = place.split()
    text = (TOP / "docs" / page).read_text(encoding="utf-8")
    for line in lines:
        assert line in text and line in printed(cell), line


def test_the_decision_of_look_ahead() -> None:
    """The room for `c` is 9 ticks at the highest speed less the rates of `a` and `b` (docs/TRACE.md)."""
    room = (12 - Fraction(12, 3) - Fraction(12, 4)) * (12 - 3)
    assert f"{room} of 60 put off, {60 - room} before 3" in printed("ahead")
    assert "no speed meets it" in printed("ahead")


def test_the_governor_of_the_page() -> None:
    """Its code, its energy and its share are those of docs/PYTHON.md."""
    page = (TOP / "docs" / "PYTHON.md").read_text(encoding="utf-8")
    found = re.search(r"^def careful.*?^mine = .*?$", page, re.MULTILINE | re.DOTALL)
    assert found is not None and found[0] in "".join(CELLS["governor"]["source"])
    assert "448000000000" in page and "Fraction(16, 25)" in page
    assert "energy 448000000000 running and 0 idle: legal" in printed("governor")
    assert printed("governor-drawn").startswith("16/25\n")


def test_the_sweep() -> None:
    """The speeds are 200, 300 and 400 at 3, 4 and 5 V: `static` has the lowest that meets the utilisation.

    Jobs that take all leave nothing to `cc`. No run is below the bound, a mix of two speeds: at 0.6 it has
    200 for 0.6 of the time, otherwise 300.
    """
    rows = {" ".join(words[:-10]): words[-10:]
            for words in map(str.split, printed("sweep-drawn").splitlines()) if len(words) > 10}
    volts = [3 if tenths <= 5 else 4 if 2 * tenths <= 15 else 5 for tenths in range(1, 11)]
    static = [decimal(Fraction(volt**2, 5**2), 2) for volt in volts]
    assert rows["all of the worst case edf static"] == rows["half of it edf static"] == static
    assert rows["all of the worst case edf cc"] == static
    mixed = Fraction(6 * 200 * 3**2 + 4 * 300 * 4**2, 10 * 240 * 5**2)
    assert rows["all of the worst case bound"][5] == decimal(mixed, 2)
    for name, energies in rows.items():
        bound = rows[f"{re.split(' edf| rm| bound', name)[0]} bound"]
        assert all(low <= energy for low, energy in zip(bound, energies) if energy != "-")
    assert len(rows) == 16


def test_the_sets_have_their_utilisation() -> None:
    """The set that is shown has 0.5 of 400 units a tick, less than one unit in its longest period below."""
    pairs = [(int(period), int(worst)) for period, worst in re.findall(r"\((\d+), (\d+)\)", printed("sets"))]
    used = sum(Fraction(worst, period) for period, worst in pairs)
    assert len(pairs) == 5 and 200 - Fraction(1, 50) < used <= 200


def test_the_form_of_the_file() -> None:
    """As Jupyter writes it, with what differs from run to run and from machine to machine left out."""
    text = tour.NOTEBOOK.read_text(encoding="utf-8")
    assert text == tour.text_of(tour.stored(STORED))
    assert [cell["execution_count"] for cell in CELLS.values()] == [*range(1, len(CELLS) + 1)]
    assert len(CELLS) <= 12 and len({cell["id"] for cell in STORED["cells"]}) == len(STORED["cells"])
    assert not re.search(r"(?<![.\w])/(?:home|root|tmp|usr|work|var)/", text) and str(TOP) not in text


def test_pictures_survive_a_sanitizer() -> None:
    """Debian's nbconvert takes the paths out of an SVG, also beside a PNG, and shows a PNG that has no SVG beside it."""
    kinds = [{kind for kind in output.get("data", {}) if kind.startswith("image/")}
             for cell in CELLS.values() for output in cell["outputs"]]
    assert [kind for kind in kinds if kind] == [{"image/png"}] * 5


def test_each_cell_has_its_sentence() -> None:
    kinds = [cell["cell_type"] for cell in STORED["cells"]]
    assert kinds == ["markdown", "code"] * len(CELLS)
    assert all(cell["outputs"] for name, cell in CELLS.items() if name != "sweep")


def test_the_pages_that_it_names() -> None:
    words = "".join("".join(cell["source"]) for cell in STORED["cells"] if cell["cell_type"] == "markdown")
    named = re.findall(r"`(docs/[^`]*)`", words)
    assert named and all((TOP / name).is_file() for name in named)
