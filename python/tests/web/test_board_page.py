"""The page of a board: milliseconds beside ticks, MHz, kcycles, joules, milliwatts and hours, each worked out by hand.

VOLTS has a task of 1.5 million cycles in each 4 ms. Here a tick is 0.5 ms and a unit 1000 cycles, so 500 MHz are 250
units a tick, a period 8 ticks and a job 1500 units. Under `static` a job runs at 500 MHz for 3 ms, then 1 ms is idle. A
cycle takes 0.2 nJ at 500 MHz: a job 0.3 mJ, the 2 ms of idle time in 8 ms a tenth of 0.2 mJ, together 0.62 mJ.
"""

import json
from fractions import Fraction
from pathlib import Path
from typing import Any

import pytest

from rtdvs.board import Board, Scale, Units, design
from rtdvs.model import Machine
from rtdvs.rules import simulate
from rtdvs.trace import Trace
from rtdvs.web import Shown, page_data
from tests.board.test_energy import VOLTS
from tests.shared.browsing import Browser, click, open_data, sized, text, until
from tests.shared.examples import Captured, options, printed, refusal
from tests.web.test_data import data_of, sheet_of, unpacked

CELLS = "[...table.rows].map((row) => [...row.cells].map((cell) => cell.textContent))"
ENERGY = ("0.00062 joules in 8 ms, 77.5 milliwatts on average, 12.9032 hours from 1000 milliwatt hours; "
          "switches of the speed: 0; a tick is 0.5 ms, a unit 1000 cycles")


@pytest.fixture(name="units")
def made_units() -> Units:
    board = Board.parse(VOLTS)
    return Units(board, design(board, Scale(Fraction(1, 2), Fraction(1000))))


def shown(units: Units) -> Shown:
    return Shown(units.made.tasks, units.made.machine, units=units)


def run(units: Units, governor: str = "static") -> Trace:
    return simulate(units.made.tasks, units.made.machine, "edf", 16, governor)


def tables(browser: Browser, where: str) -> dict[str, list[list[str]]]:
    found: list[tuple[str, list[list[str]]]] = browser.execute_script(
        f"return [...document.querySelectorAll('{where} table')].map((table) => [table.caption.textContent, {CELLS}])")
    return dict(found)


def opened_page(browser: Browser, folder: Path, data: Any) -> None:
    open_data(browser, folder, data)
    click(browser, "#all")
    browser.execute_script("schedule.drawAll()")


def test_picture_and_tables(units: Units, browser: Browser, tmp_path: Path) -> None:
    opened_page(browser, tmp_path, page_data({"": run(units).text()}, shown(units)))
    assert text(browser, ".sheet h2") == "edf static, 16 ticks (8 ms)"
    assert text(browser, ".energy").startswith(ENERGY)
    assert text(browser, "#where") == "ticks 0 (0 ms) to 16 (8 ms) of 16 (8 ms); cursor at 0 (0 ms)"
    axis = browser.execute_script("return [...document.querySelectorAll('.axis text')].map((each) => "
                                  "[Number(each.getAttribute('y')), each.textContent])")
    rows = [[words for y, words in axis if y == row] for row in sorted({y for y, _ in axis})]
    assert [row[-1] for row in rows] == ["tick", "ms"] and len(rows[0]) > 3
    assert [float(ms) for ms in rows[1][:-1]] == [int(tick) / 2 for tick in rows[0][:-1]]
    small = browser.execute_script("return [...document.querySelectorAll('.small')].map((each) => each.textContent)")
    assert small == ["period 8 (4 ms)", "1000 MHz", "0"]
    assert tables(browser, "#numbers") == {
        "edf static: time at each speed": [["MHz", "ms", "share"], ["500", "8", "1.0000"], ["idle", "2", "0.2500"]],
        "edf static: tasks": [
            ["task", "jobs", "complete", "missed", "mean response ms", "greatest response ms", "jitter ms",
             "least laxity ms", "preemptions", "J", "mW"],
            ["a", "2", "2", "0", "3", "3", "0", "1", "0", "0.0006", "75"]]}
    assert tables(browser, "#question") == {
        "Tasks: a tick is 0.5 ms, a unit 1000 cycles": [
            ["task", "period", "ms", "worst case", "cycles", "offset", "ms"],
            ["a", "8", "4", "1500", "1500000", "0", "0"]],
        "Machine: idle share 100 thousandths, charge 0 units": [
            ["speed", "MHz", "millivolts", "mW"], ["250", "500", "1000", "100"], ["500", "1000", "2000", "800"]]}
    jobs = until(browser, f"const table = document.querySelector('#jobs'); return table.rows.length > 1 && {CELLS}")
    assert jobs[1:] == [
        ["a 1", "0 (0 ms)", "8 (4 ms)", "6 (3 ms)", "6 (3 ms)", "2 (1 ms)", "1500 of 1500 (1500 kcycles)", "0.0003 J"],
        ["a 2", "8 (4 ms)", "16 (8 ms)", "14 (7 ms)", "6 (3 ms)", "2 (1 ms)", "1500 of 1500 (1500 kcycles)",
         "0.0003 J"]]


def test_sentences(units: Units, browser: Browser, tmp_path: Path) -> None:
    """What is said of the first mark of each kind."""
    opened_page(browser, tmp_path, page_data({"": run(units).text()}, shown(units)))
    said = browser.execute_script(
        "return Object.fromEntries([...document.querySelectorAll('.rows [role=button]')].toReversed().map((each) => "
        "[each.mark.kind, each.querySelector('title').textContent]))")
    assert said == {
        "release": "a job 1 is released at 0 (0 ms), due at 8 (4 ms)",
        "deadline": "a job 1 is due at 8 (4 ms)",
        "run": "a job 1 runs from 0 (0 ms) to 6 (3 ms) at speed 250 (500 MHz): 1500 units (1500 kcycles)",
        "done": "a job 1 is complete at 6 (3 ms) with 1500 of 1500 units (1500 kcycles)",
        "idle": "idle from 6 (3 ms) to 8 (4 ms) at speed 250 (500 MHz): 500 units (500 kcycles)",
        "decision": "decision at tick 0 (0 ms): speed 250 (500 MHz) for 1500/8 (375 MHz)"}


def test_a_narrow_window(units: Units, browser: Browser, tmp_path: Path) -> None:
    """No text of the picture begins left of it, and the line of times is whole."""
    sized(browser, 390, 900)
    opened_page(browser, tmp_path, page_data({"": run(units).text()}, shown(units)))
    edges = browser.execute_script("return [...document.querySelectorAll('.small, .name, .axis text, #where')].map("
                                   "(each) => each.getBoundingClientRect()).map(({ left, right }) => [left, right])")
    assert len(edges) > 8 and all(left >= 0 and right <= 390 for left, right in edges)


def test_where_two_schedules_part(units: Units) -> None:
    """`none` runs the job in 1.5 ms at 1000 MHz: both run it from tick 0 on, at other speeds."""
    data = page_data({"A": run(units).text(), "B": run(units, "none").text()}, shown(units))
    assert data["apart"] == {
        "tick": 0, "parts": True, "text": "The schedules part at tick 0 (0 ms): a 1 at speed 250, and a 1 at speed 500. "
        "The published demands differ from tick 0 (0 ms) on: 1500/8 and 500/1."}


def test_without_power(units: Units) -> None:
    """A board without milliwatts has times, no joules."""
    board = Board.parse(VOLTS.replace("milliwatts = 800\n", ""))
    sheet = sheet_of(run(units).text(), shown(Units(board, design(board, units.made.scale))))
    assert sheet["energy"].startswith("no power: joules need milliwatts at the highest point; switches")
    assert json_jobs(sheet)[0][8] == "–" and sheet["tables"][1]["rows"][0][-2:] == ["-", "-"]


def json_jobs(sheet: Any) -> list[list[Any]]:
    jobs: list[list[Any]] = json.loads(unpacked(sheet["pieces"][0]))["jobs"]
    return jobs


def test_command(units: Units, tmp_path: Path, capsys: Captured, monkeypatch: pytest.MonkeyPatch) -> None:
    monkeypatch.chdir(tmp_path)
    Path("board.toml").write_text(VOLTS)
    printed(capsys, "design --board board.toml --tick-ms 0.5 --unit-cycles 1000 --folder made".split())
    Path("run.trace").write_text(run(units).text())
    page = printed(capsys, "page run.trace --board board.toml --folder made".split())
    assert data_of(page)["sheets"][0]["energy"] == ENERGY
    assert Machine.read(Path("made/machine.toml")) == units.made.machine
    given = "page run.trace --board board.toml --tick-ms 0.5 --unit-cycles 1000".split()
    assert printed(capsys, given) == page
    assert "a tick is 0.5 ms, a unit 500 cycles: line 3" in refusal(
        capsys, "page run.trace --board board.toml --tick-ms 0.5 --unit-cycles 500".split())
    assert "give either --board or --tasks" in refusal(capsys, [*given, *options(Path("made"))])
    assert "--lesson names its files, so --board has no place beside it" in refusal(
        capsys, "page --lesson a.toml --board board.toml".split())
