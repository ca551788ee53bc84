"""Comparisons, against values worked out by hand and recounted from the text of traces."""

from collections import defaultdict
from fractions import Fraction
from itertools import combinations, pairwise
from pathlib import Path

import pytest
from hypothesis import given, settings
from hypothesis import strategies as st

from rtdvs.engine import Engine
from rtdvs.errors import Denied, TooManyJobs, TraceFault
from rtdvs.model import Demands, Machine, Point, Task, TaskSet
from rtdvs.studies import PAIRS, Result, Row, compare, finer_table, table
from rtdvs.trace import Ran, Trace
from tests.shared.examples import (
    DATA, MINE, MY_BOARD, TEST_DATA, Captured, Lines, files, machines, options, printed, refusal,
    task_sets,
)


def words(text: str) -> list[list[str]]:
    return [line.split() for line in text.strip().splitlines()]


# 28 units at 9, 16 and 25 thousand million at speeds 2, 3 and 4; the bound is all of them at 2, 252. The
# units at each speed, and how long it lasts: none and RM static 28 at 4; EDF static 28 at 3; EDF cc 16 at 3
# in 6 ticks; EDF la 9 at 3 in 3 ticks; RM cc 12 at 4 in 3 ticks and 10 at 3 in 4. All others run at 2.
# Completions of the first jobs: at 4 in ticks 2, 3, 4; EDF static 8/3, 4, 16/3; EDF cc 8/3, 4, 6; EDF la 8/3,
# 9/2, 13/2; RM cc 2, 10/3, 5. The second jobs need one tick at 4, 4/3 at 3 and 2 at 2. So the least laxity is
# that of the first job of t1, and t3 has the greatest jitter.
PAPER = (TEST_DATA / "compared.txt").read_text()

HEADING = "scheduler governor energy of_none above_bound switches idle least_laxity jitter"


def alike(speed: str, edf: str, rm: str) -> str:
    """A table whose rows of one scheduler are alike."""
    rows = (f"{scheduler} {governor} {edf if scheduler == 'edf' else rm}" for scheduler, governor in PAIRS)
    return "\n".join([f"{HEADING} {speed}", *rows])


# At full load every tick runs 2 units, of 10^9 each. In 3 ticks RM has 2 * 2 + 3 units of both tasks. The
# jobs of x are complete at 1, 7/2 and 5, those of y at 5/2 and 6.
FULL = alike("at_2", "12000000000 1.0000 0.0000 0 0.0000 0.0000 0.5000 1.0000", "denied rm y 7 6")
# Each tick asks for a unit more than it has: 15 units in 6 ticks under EDF, 3 in 2 under RM.
DENIED = alike("", "denied edf 15 6", "denied rm x 3 2")
# Each second tick runs 999983 units at 399880009000, and the other idles as many at 399880009 * 999. Together
# 1000 of each cost 999983 * 1000 * 399880009 * 1999.
LARGE = alike("at_999983", *2 * ["799346548868654153000 1.0000 0.0000 0 0.5000 1.0000 0.0000 1.0000"])
# One job of 5 units, in half of the time, at 1210000000 each.
SMALL = alike("at_1", *2 * ["6050000000 1.0000 0.0000 0 0.5000 5.0000 0.0000 1.0000"])


@pytest.mark.parametrize(("tasks", "machine", "ticks", "wanted"), [
    pytest.param(TaskSet((Task("x", 2, 2), Task("y", 3, 3))), Machine((Point(2, 1000),)), 6, FULL, id="full load"),
    pytest.param(TaskSet((Task("x", 2, 3), Task("y", 3, 3))), Machine((Point(1, 1000),)), 6, DENIED, id="denied"),
    pytest.param(TaskSet((Task("x", 2, 999983),)), Machine((Point(999983, 19997),), idle=999), 2000, LARGE, id="large"),
    pytest.param(TaskSet((Task("x", 10, 5),)), Machine((Point(1, 1100),)), 10, SMALL, id="small"),
])
def test_by_hand(engine: Engine, tasks: TaskSet, machine: Machine, ticks: int, wanted: str) -> None:
    assert words(table(compare(engine, tasks, machine, ticks))) == words(wanted)


def call(program: Path, *words: object) -> list[object]:
    """The command for 16 ticks of the paper's example."""
    return ["compare", "--program", program, *options(DATA / "paper"), "--ticks", "16", *words]


def test_the_paper_by_hand(program: Path, capsys: Captured) -> None:
    demands = ["--demands", DATA / "paper" / "demands.csv"]
    assert words(printed(capsys, call(program, *demands, "--jobs", "2"))) == words(PAPER)


def test_finer_ticks_of_the_paper(program: Path, capsys: Captured) -> None:
    """In ticks 3 times finer EDF la needs 308 of the 700 and RM cc 500, in the natural ones 315 and 514."""
    demands = ["--demands", DATA / "paper" / "demands.csv"]
    _, _, second = printed(capsys, call(program, *demands, "--finer", "1", "3")).partition("\n\n")
    heading, *rows = words(second)
    assert heading == ["scheduler", "governor", "finer_1", "finer_3"]
    assert [row[3] for row in rows] == ["1.0000", "1.0000", "1.0000", "0.9778", "1.0000", "1.0000", "0.9728"]


def bound(machine: Machine, units: int, ticks: int) -> Fraction:
    """The cheapest mix of two corners that does the units in the ticks."""
    slowest = machine.points[0]
    corners = [(0, slowest.speed * slowest.millivolts**2 * machine.idle)]
    corners += [(point.speed, point.speed * point.millivolts**2 * 1000) for point in machine.points]
    need = Fraction(units, ticks)
    return ticks * min(slow[1] + (fast[1] - slow[1]) * (need - slow[0]) / (fast[0] - slow[0])
                       for slow, fast in combinations(corners, 2) if slow[0] <= need <= fast[0])


def recounted(text: str, tasks: TaskSet, machine: Machine, base: int) -> Result:
    """What the lines of a trace add up to: from units and speeds, not from its energies."""
    lines = Lines(text)
    square = {point.speed: point.millivolts**2 for point in machine.points}
    energy = sum(each.units * square[each.speed] * (1000 if each.task else machine.idle)
                 for each in lines.segments)
    idle = sum((each.end - each.begin for each in lines.segments if not each.task), Fraction(0))
    least = bound(machine, sum(each.units for each in lines.segments if each.task), lines.ticks)
    periods = {task.name: task.period for task in tasks}
    times: defaultdict[str, list[Fraction]] = defaultdict(list)
    for job, end in lines.ends.items():
        times[job[0]].append(end - lines.releases[job])
    residency: defaultdict[int, Fraction] = defaultdict(Fraction)
    for ticks, speed, _ in lines.spans():
        residency[speed] += Fraction(ticks, lines.ticks)
    ran: dict[int, Ran] = {}
    for each in lines.segments:
        units, idle_units = ran.get(each.speed, Ran())
        ran[each.speed] = Ran(units + each.units, idle_units) if each.task else Ran(units, idle_units + each.units)
    return Result(
        energy=energy,
        share=Fraction(energy, base) if base else None,
        above_bound=energy / least - 1 if least else None,
        switches=sum(one[1] != two[1] for one, two in pairwise(lines.decisions)),
        idle=idle / lines.ticks,
        least_laxity=min((periods[task] - max(jobs) for task, jobs in times.items()), default=None),
        jitter=max((max(jobs) - min(jobs) for jobs in times.values()), default=None),
        residency=residency,
        ran=ran,
    )


def check(engine: Engine, tasks: TaskSet, machine: Machine, ticks: int, demands: Demands | None) -> None:
    base = 0
    for row, pair in zip(compare(engine, tasks, machine, ticks, demands), PAIRS, strict=True):
        assert (row.scheduler, row.governor) == pair
        try:
            text = engine.run(tasks, machine, *pair, ticks, demands).text()
        except Denied as denied:
            assert (row.result, row.refusal) == (None, str(denied))
            continue
        if pair == PAIRS[0]:
            base = recounted(text, tasks, machine, 0).energy
        assert row.result == recounted(text, tasks, machine, base)


@pytest.mark.parametrize(("example", "ticks"), [
    ("paper", 32), ("ahead", 60), ("offsets", 50), ("controller", 2000)])
def test_examples(engine: Engine, example: str, ticks: int) -> None:
    tasks, machine, demands = files(example)
    check(engine, tasks, machine, ticks, demands if example == "controller" else None)


@st.composite
def cases(draw: st.DrawFn) -> tuple[TaskSet, Machine]:
    """Small sets, and machines whose energies are up to 1.8 * 10^27."""
    scale = draw(st.sampled_from([1, 7, 30000]))
    tasks = task_sets(3, st.integers(1, 9), st.integers(1, 9 * scale), st.integers(0, 3))
    return draw(tasks), draw(machines(4, 10 * scale, 1))


@settings(max_examples=10)
@given(cases(), st.integers(1, 60))
def test_random_sets(engine: Engine, case: tuple[TaskSet, Machine], ticks: int) -> None:
    check(engine, *case, ticks, None)


def test_energies_of_28_digits(engine: Engine) -> None:
    """10^6 units a tick at 20 V for 2^32 ticks: 2^32 * 10^6 * 4 * 10^11."""
    tasks = TaskSet((Task("a", 2**32, 2**32 * 10**6),))
    rows = compare(engine, tasks, Machine((Point(10**6, 20000),)), 2**32)
    assert [row.result and row.result.energy for row in rows] == [2**32 * 4 * 10**17] * 7


def test_a_trace_beside_the_pairs(engine: Engine) -> None:
    """Four units at 3 * 9000 + 4000, and one that idles at 40; at 3 they are 36000 and two idle units 180.

    Two ticks at 2 are 4 * 4000.
    """
    tasks, trace, half = TaskSet((Task("x", 2, 4),)), Trace.parse(MINE), Fraction(1, 2)
    rows = compare(engine, tasks, MY_BOARD, 2, traces=[trace])
    assert len(rows) == 8 and (rows[7].scheduler, rows[7].governor) == ("edf", "mine")
    assert rows[7].result == Result(31040, Fraction(31040, 36180), Fraction(31040, 16000) - 1, 1, half / 2, half,
                                    Fraction(0), {3: half, 2: half}, {3: Ran(3, 0), 2: Ran(1, 1)})
    with pytest.raises(TraceFault, match="line 2: a run of 2 ticks, and not of 3"):
        compare(engine, tasks, MY_BOARD, 3, traces=[trace])


def test_other_refusals_end_it(engine: Engine) -> None:
    with pytest.raises(TooManyJobs):
        compare(engine, TaskSet((Task("a", 1, 1),)), Machine((Point(1, 1),)), 10**6)


def test_finer_ticks_of_an_energy_of_0() -> None:
    """It has no shares, and neither has a pair that is denied in finer ticks."""
    none, some = (Result(energy, None, None, 0, Fraction(1), None, None, residency={}) for energy in (0, 8))
    rows = [Row("edf", "none", none), Row("edf", "cc", some), Row("rm", "cc", some)]
    found = finer_table(rows, {2: [Fraction(0), Fraction(6), None], 3: [Fraction(0), Fraction(8), Fraction(2)]})
    assert words(found) == [["scheduler", "governor", "finer_2", "finer_3"], ["edf", "none", "-", "-"],
                            ["edf", "cc", "0.7500", "1.0000"], ["rm", "cc", "-", "0.2500"]]


@pytest.mark.parametrize("name", ["absent", "."])
def test_a_file_that_is_not_there(program: Path, tmp_path: Path, name: str, capsys: Captured) -> None:
    assert refusal(capsys, call(program, "--tasks", tmp_path / name)).count("\n") == 1


def test_a_trace_that_is_none(program: Path, capsys: Captured) -> None:
    demands = DATA / "paper" / "demands.csv"
    assert refusal(capsys, call(program, "--trace", demands)) == (
        f"rtdvs: {demands}: line 1: neither trace 1 nor trace 2\n")
