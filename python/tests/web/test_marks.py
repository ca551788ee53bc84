"""The drawing says what the trace says: its marks are read back from the page, for random runs of all pairs.

What has to be there is worked out from the lines of the trace, in tests/shared/drawn.py.
"""

from collections.abc import Iterator
from fractions import Fraction
from pathlib import Path
from random import Random
from typing import Any

import pytest

from rtdvs.errors import Denied
from rtdvs.model import PAIRS, Demands, Machine, Point, Task, TaskSet
from rtdvs.rules import Plan, simulate
from rtdvs.web import Shown, chunks, page_data
from tests.shared.browsing import CLICK, Browser, assert_board, click, open_data, until
from tests.shared.drawn import FULL, READ, ROW, SPEED, Drawing, marks_of, moment, steps_of
from tests.shared.examples import explained

RUNS = 30
NEAR = 0.12     # pixels: the page rounds to tenths


def drawn_set(random: Random) -> tuple[TaskSet, Machine, Demands]:
    """Some tasks, a machine and demands, which both schedulers admit; at most 64 units a tick."""
    while True:
        count = random.randint(1, 4)
        tasks = TaskSet(tuple(Task(f"task_{place}", random.randint(3, 12), random.randint(1, 20),
                                   random.choice((0, 0, 3))) for place in range(count)))
        speeds = sorted(random.sample(range(1, 16), random.randint(2, 4)))
        points = tuple(Point(speed, 1000 + 100 * speed) for speed in speeds)
        machine = Machine(points, random.choice((0, 100)), random.choice((0, 1)))
        units = {(task.name, job): random.randint(1, task.worst) for task in tasks for job in range(1, 5)
                 if random.random() < 0.6}
        try:
            Plan(tasks, machine, "edf").admit()
            Plan(tasks, machine, "rm").admit()
        except Denied:
            continue
        return tasks, machine, Demands(units)


def pages() -> Iterator[tuple[int, list[tuple[str, str]]]]:
    """The seeds of the pages, each with the two pairs of its traces."""
    for place in range(0, RUNS, 2):
        yield place, [PAIRS[place % len(PAIRS)], PAIRS[(place + 1) % len(PAIRS)]]


@pytest.mark.parametrize(("seed", "pairs"), [pytest.param(seed, pairs, id=str(seed)) for seed, pairs in pages()])
def test_marks_are_those_of_the_trace(seed: int, pairs: list[tuple[str, str]], browser: Browser,
                                      tmp_path: Path) -> None:
    tasks, machine, demands = drawn_set(Random(seed))
    ticks = 2 * max(task.period + task.offset for task in tasks)
    texts = {label: simulate(tasks, machine, scheduler, ticks, governor, demands).text()
             for label, (scheduler, governor) in zip("AB", pairs, strict=True)}
    boards = {label: explained(tasks, machine, demands, text) for label, text in texts.items()}
    data: dict[str, Any] = page_data(texts, Shown(tasks, machine, demands))
    for sheet in data["sheets"]:    # in many chunks, as those of a long run are
        sheet["boards"] = [*chunks(boards[sheet["label"]], 200)]
    open_data(browser, tmp_path, data)
    click(browser, "#all")
    browser.execute_script("schedule.drawAll()")
    for sheet, (label, text) in zip(browser.execute_script(READ), texts.items(), strict=True):
        assert_sheet(sheet, text, tasks, machine, f"{label}: {' '.join(pairs['AB'.index(label)])}, {ticks} ticks")
    assert_tables(browser, texts, tasks, machine)
    for place, label in enumerate(texts):
        assert_explained(browser, place, boards[label])


def assert_sheet(sheet: dict[str, Any], text: str, tasks: TaskSet, machine: Machine, title: str) -> None:
    """The marks, lines, labels and numbers of a sheet are those of a trace."""
    assert sheet["title"] == title
    running, idle = map(int, text.splitlines()[-1].split()[2:])
    assert sheet["energy"].startswith(f"energy {running + idle}: {running} running, {idle} idle, ")
    ends = [path for kind, path, _ in sheet["rows"][0]["paths"] if kind == "floor"]
    left, floor, right = map(float, ends[0][1:].replace("H", " ").split())
    assert floor == ROW - 2
    drawing = Drawing(text, tasks, machine, left, right)
    floors = [*(ROW * place - 2 for place in range(1, len(tasks) + 1)), ROW * len(tasks) + SPEED - 8]
    for row, wanted, labels, floor in zip(sheet["rows"], drawing.rows, drawing.labels, floors, strict=True):
        assert_marks(marks_of(row, floor), wanted)
        assert_labels(row, labels)
    assert_lines(sheet["rows"][-1], drawing, floors[-1], machine)
    assert_axis(sheet, drawing)


def assert_marks(found: list[Any], wanted: list[Any]) -> None:
    order = {kind: place for place, kind in enumerate(("run", "release", "deadline", "done", "idle", "decision"))}
    found, wanted = (sorted(marks, key=lambda mark: (order[mark.kind], mark.places[0], mark.words))
                     for marks in (found, wanted))
    assert [(mark.kind, mark.words) for mark in found] == [(mark.kind, mark.words) for mark in wanted]
    for one, two in zip(found, wanted, strict=True):
        assert one.places == pytest.approx(two.places, abs=NEAR), one


def assert_labels(row: dict[str, Any], wanted: list[tuple[float, float, str]]) -> None:
    """A bar that has room for it has its job's number in its middle."""
    found = [(x, words) for kind, x, words in row["texts"] if kind == "inside"]
    kept = [((begin + end) / 2, job) for begin, end, job in wanted if end - begin >= 9 * len(job) + 12]
    assert [words for _, words in found] == [words for _, words in kept]
    assert [x for x, _ in found] == pytest.approx([x for x, _ in kept], abs=NEAR)


def assert_lines(row: dict[str, Any], drawing: Drawing, floor: float, machine: Machine) -> None:
    """The speed and the demand from each decision on to the next; a demand over 1.25 times the top is drawn there."""
    ends = [*(x for _, x, _, _ in drawing.demand[1:]), drawing.right]
    for kind, place in (("speed", 2), ("demand", 3)):
        wanted = [(step[1], end, FULL * min(float(step[place]) / machine.top_speed, 1.25))
                  for step, end in zip(drawing.demand, ends, strict=True)]
        found = [*steps_of(row, kind, floor)]
        assert [number for step in found for number in step] == pytest.approx(
            [number for step in wanted for number in step], abs=NEAR)


def assert_axis(sheet: dict[str, Any], drawing: Drawing) -> None:
    """Each number is at its tick, on a line, and they are alike apart."""
    ticks = [int(words) for _, words in sheet["axis"]]
    assert ticks[0] == 0 and len(ticks) > 1 and {two - one for one, two in zip(ticks, ticks[1:])} == {ticks[1]}
    assert [x for x, _ in sheet["axis"]] == pytest.approx([drawing.x(tick) for tick in ticks], abs=NEAR)
    lines = [float(part.split()[0]) for part in sheet["grid"].split("M")[1:]]
    assert lines == pytest.approx([x for x, _ in sheet["axis"]], abs=NEAR)


def assert_tables(browser: Browser, texts: dict[str, str], tasks: TaskSet, machine: Machine) -> None:
    """The jobs of the first sheet, and the ticks at each speed of both."""
    cells = "[...table.rows].map((row) => [...row.cells].map((cell) => cell.textContent))"
    found = until(browser, "const table = document.querySelector('#jobs'); "
                           f"return table.caption.textContent.startsWith('A: ') && {cells}")
    heading = ["job", "release", "deadline", "completion", "response", "laxity", "units", "energy"]
    assert found == [heading, *jobs_of(texts["A"], tasks, machine)]
    residency = browser.execute_script("return [...document.querySelectorAll('#numbers table')].filter((table) => "
                                       f"table.caption.textContent.endsWith('at each speed')).map((table) => {cells})")
    assert [table[0] for table in residency] == [["speed", "ticks", "share"]] * 2
    for table, text in zip(residency, texts.values(), strict=True):
        assert [[*row] for row in table[1:]] == residency_of(text)


def jobs_of(text: str, tasks: TaskSet, machine: Machine) -> list[list[str]]:
    """The rows of the table of jobs, by the lines of the trace."""
    jobs: dict[tuple[str, str], dict[str, Any]] = {}
    speed = 1
    for word, *fields in map(str.split, text.splitlines()):
        if word == "speed":
            speed = int(fields[1])
        elif word == "release":
            jobs[fields[1], fields[2]] = {"release": int(fields[0]), "units": 0, "energy": 0, "done": None}
        elif word == "run":
            job = jobs[fields[2], fields[3]]
            job["units"], job["energy"] = job["units"] + int(fields[4]), job["energy"] + int(fields[5])
        elif word == "done":
            tick, units = map(int, fields[0].split(":"))
            jobs[fields[1], fields[2]]["done"] = tick + Fraction(units, speed)
    rows = []
    for (name, number), job in jobs.items():
        task = next(task for task in tasks if task.name == name)
        due, done, missing = job["release"] + task.period, job["done"], ["not in this run", "–", "–"]
        times = missing if done is None else [moment(done), moment(done - job["release"]), moment(due - done)]
        rows.append([f"{name} {number}", str(job["release"]), str(due), *times,
                     f"{job['units']} of {task.worst + 2 * machine.charge}", str(job["energy"])])
    return rows


def residency_of(text: str) -> list[list[str]]:
    """Ticks at each speed and idle ticks, with four digits and their shares of the run."""
    lines = [line.split() for line in text.splitlines()]
    ticks, decisions = int(lines[1][-1]), [line for line in lines if line[0] == "speed"]
    times: dict[int, int] = {}
    for line, end in zip(decisions, [*(int(line[1]) for line in decisions[1:]), ticks], strict=True):
        times[int(line[2])] = times.get(int(line[2]), 0) + end - int(line[1])
    idle, speed = Fraction(0), 1
    for line in lines:
        speed = int(line[2]) if line[0] == "speed" else speed
        idle += Fraction(int(line[3]), speed) if line[0] == "idle" else 0
    rows = [[str(speed), str(time), fixed(Fraction(time, ticks))] for speed, time in sorted(times.items())]
    return [*rows, ["idle", fixed(idle), fixed(idle / ticks)]]


def fixed(number: Fraction) -> str:
    """A number with four digits, rounded to the nearest, a half away from zero.

    >>> fixed(Fraction(2, 3)), fixed(Fraction(1, 20000))
    ('0.6667', '0.0001')
    """
    whole = int(number * 10_000 + Fraction(1, 2))
    return f"{whole // 10_000}.{whole % 10_000:04}"


def assert_explained(browser: Browser, place: int, boards: list[str]) -> None:
    """The first, a middle and the last decision of a sheet open the lines of `explain`."""
    count = "return document.querySelectorAll('.sheet')[arguments[0]].querySelectorAll('.decision').length"
    before = sum(browser.execute_script(count, other) for other in range(place))
    last = browser.execute_script(count, place) - 1
    for each in sorted({0, last // 2, last}):
        browser.execute_script(CLICK, "decision", before + each)
        assert_board(browser, boards[each])
