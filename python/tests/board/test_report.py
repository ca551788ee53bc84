"""The report of a board: worked out by hand, from textbooks, or by the rules of the program's tests."""

from dataclasses import replace
from fractions import Fraction
from pathlib import Path

import pytest
from hypothesis import given
from hypothesis import strategies as st

from rtdvs.board import Asked, Board, Load, Scale, design, report, run_ticks
from rtdvs.errors import BadValue, Refused
from rtdvs.model import Demands, TaskSet
from rtdvs.rules import Plan
from tests.board.test_energy import MEASURED, TASKS, VOLTS
from tests.shared.examples import Captured, printed, refusal

USUAL = MEASURED.replace("1200000\n", "1200000\nusual_cycles = 700_000\n")
HALF, FULL = "[[point]]\nmhz = 500\nvolts = 1\n", "[[point]]\nmhz = 1000\nvolts = 2\n"


def lines_of(text: str, folder: Path, capsys: Captured, *words: str) -> list[str]:
    (folder / "board.toml").write_text(text)
    return printed(capsys, ["design", "--board", folder / "board.toml", *words]).splitlines()


def row(lines: list[str], first: str) -> list[str]:
    (found,) = (line for line in lines if line.startswith(f"{first}  "))
    return found.removeprefix(first).split()


def test_a_board_by_hand(tmp_path: Path, capsys: Captured) -> None:
    """In 1665 ms, a hyperperiod, are 333 jobs of 1.2 million cycles and 50 of 16 million: 1199.6 million.

    They take 1.6 nJ each at 1000 MHz, and 1.125 nJ at 800, which the pairs with `static` choose: 720.48 and
    732.7 MHz are asked for. With 0.7 million in place of 1.2 they are 1033.1 million.
    """
    lines = lines_of(USUAL, tmp_path, capsys, "--report")
    assert row(lines, "utilisation") == ["0.720005", "0.72048"]  # 0.24 + 16/33.333, and 0.24 + 16/33.3
    assert row(lines, "EDF") == row(lines, "RM") == ["admitted", "admitted"]
    assert row(lines, "response under RM: control") == ["1.2", "ms"] * 2
    assert row(lines, "response under RM: decode") == ["22", "ms"] * 2  # 16 + 5 * 1.2
    # The others leave 0.52 of the highest speed to `control`, and 0.76 to `decode`, under EDF.
    assert row(lines, "most cycles under EDF: control") == ["2599975", "2597597"]  # 5e6 * (1 - 16/33.333), 16/33.3
    assert row(lines, "most cycles under EDF: decode") == ["25333080", "25308000"]  # 0.76 * 33.333e6, 33.3e6
    # Seven jobs of `control` are released in a period of `decode`.
    assert row(lines, "most cycles under RM: control") == ["2476142", "2471428"]  # (33.333e6 - 16e6) / 7, 33.3e6
    assert row(lines, "most cycles under RM: decode") == ["24933000", "24900000"]  # 33.333e6 - 7 * 1.2e6, 33.3e6
    assert row(lines, "1665 ms") == ["worst", "mW", "hours", "usual", "mW", "hours"]
    none = ["1152.77", "3.20966", "992.769", "3.72695"]  # 1199.6 * 1.6/1.665, and 1033.1 * 1.6/1.665
    static = ["810.541", "4.56485", "698.041", "5.30055"]  # by 1.125/1.665
    assert row(lines, "edf none") == row(lines, "rm none") == none
    assert row(lines, "edf static") == row(lines, "rm static") == static
    assert [line.split("  ")[0] for line in lines[-7:]] == [
        "edf none", "edf static", "edf cc", "edf la", "rm none", "rm static", "rm cc"]


def test_denied_pairs_and_no_battery(tmp_path: Path, capsys: Captured) -> None:
    """Two tasks of 2 ms in 4 and 3 ms in 6 take the highest speed whole; at 6 ms RM would need 7."""
    text = TASKS.format("a", 4, 2_000_000) + TASKS.format("b", 6, 3_000_000) + HALF + FULL + "milliwatts = 800\n"
    lines = lines_of(text, tmp_path, capsys, "--report", "--tick-ms", "1")
    assert row(lines, "utilisation") == ["1", "1"] and row(lines, "EDF") == ["admitted", "admitted"]
    assert row(lines, "RM") == ["denied", "b", "denied", "b"]
    assert row(lines, "response under RM: b") == ["late", "late"]
    assert row(lines, "most cycles under RM: b") == ["-", "-"]
    assert row(lines, "most cycles under EDF: b") == ["3000000", "3000000"]
    assert row(lines, "edf static") == ["800"]
    assert [line.split() for line in lines[-3:]] == [["rm", name, "denied"] for name in ("none", "static", "cc")]


def test_rounding_may_deny(tmp_path: Path, capsys: Captured) -> None:
    """5.9 ms in ticks of 1 ms are 5, in which the highest speed does 5 million cycles; 5.5 are asked for."""
    text = TASKS.format("a", 5.9, 5_500_000) + FULL
    lines = lines_of(text, tmp_path, capsys, "--report", "--tick-ms", "1")
    assert row(lines, "utilisation") == ["0.932203", "1.1"]
    assert row(lines, "EDF") == ["admitted", "denied"] and row(lines, "RM") == ["admitted", "denied", "a"]
    assert row(lines, "response under RM: a") == ["5.5", "ms", "late"]
    said = "no speed serves this board in this tick and unit: the tasks ask for 1.1 of the highest"
    assert lines[-1] == said == lines_of(text, tmp_path, capsys, "--tick-ms", "1")[-1]


def test_a_board_that_no_speed_serves(tmp_path: Path, capsys: Captured) -> None:
    text = TASKS.format("a", 5, 3_000_000) + TASKS.format("b", 10, 5_000_000) + FULL
    said = "no speed serves this board: the tasks ask for 1.1 of the highest"
    assert lines_of(text, tmp_path, capsys, "--report")[-1] == said == lines_of(text, tmp_path, capsys)[-1]


def test_no_power(tmp_path: Path, capsys: Captured) -> None:
    lines = lines_of(VOLTS.replace("milliwatts = 800\n", ""), tmp_path, capsys, "--report")
    assert lines[-1] == "no power: joules need milliwatts at the highest point"


def test_no_energy(tmp_path: Path, capsys: Captured) -> None:
    """The first job is released after the run."""
    late = VOLTS.replace("idle_share = 0.1", "").replace("cycles = 1500000\n", "cycles = 1500000\noffset_ms = 2\n")
    lines = lines_of(late, tmp_path, capsys, "--report", "--ms", "1", "--tick-ms", "1")
    assert row(lines, "1 ms") == ["worst", "mW", "hours"] and row(lines, "edf cc") == ["0", "-"]


@pytest.mark.parametrize(("tasks", "times"), [  # Burns and Wellings, Real-Time Systems and Programming Languages
    ([(7, 3), (12, 3), (20, 5)], [3, 6, 20]),
    ([(80, 40), (40, 10), (20, 5)], [80, 15, 5]),
    ([(50, 12), (40, 10), (30, 10)], [None, 20, 10]),
    ([(5, 2), (5, 3)], [2, 5]),
    ([(5, 2), (5, 4)], [2, None]),
    ([(4, 4), (8, 1)], [4, None]),
], ids=str)
def test_responses(tasks: list[tuple[int, int]], times: list[int | None]) -> None:
    loads = tuple(Load(f"t{place}", Fraction(period), Fraction(work)) for place, (period, work) in enumerate(tasks))
    asked = Asked(loads, Fraction(1))
    assert [asked.response(place) for place in range(len(tasks))] == times


def test_a_response_of_less_than_a_millisecond() -> None:
    """8 cycles at 10 a millisecond: the job's own 4, and one job of 4 before it."""
    asked = Asked((Load("a", Fraction(1), Fraction(4)), Load("b", Fraction(2), Fraction(4))), Fraction(10))
    assert asked.response(1) == Fraction(4, 5)


@pytest.mark.parametrize(("tasks", "late"), [
    ([(4, 4)], ""), ([(4, 2), (8, 4)], ""), ([(4, 2), (8, 5)], "t1"), ([(8, 5), (4, 2)], "t0"),
    ([(4, 5), (8, 1)], "t0"),
], ids=str)
def test_late_under_rm(tasks: list[tuple[int, int]], late: str) -> None:
    loads = tuple(Load(f"t{place}", Fraction(period), Fraction(work)) for place, (period, work) in enumerate(tasks))
    assert Asked(loads, Fraction(1)).late_under_rm() == late


def test_switches_are_paid_twice_in_each_job() -> None:
    """20 microseconds at 1000 MHz are 20,000 cycles, and 20 units of 1000."""
    board = Board.parse(f"switch_us = 20\n{MEASURED}")
    made = design(board, Scale(Fraction(1), Fraction(1000)))
    assert [load.cycles for load in Asked.by(board).loads] == [1_240_000, 16_040_000]
    assert [load.cycles for load in Asked.by_files(made).loads] == [1_240_000, 16_040_000]
    # Of 33 ms in whole ticks `decode` has 16.04, and 7 jobs of `control` the rest: 2,422,857.1 cycles with switches.
    assert Asked.by_files(made).most(0, "rm") == Fraction(33_000_000 - 16_040_000, 7) - 40_000
    assert Asked.by(board).most(0, "edf") == 5 * (10**6 - Fraction(16_040_000) / Fraction("33.333")) - 40_000


@given(st.lists(st.tuples(st.integers(1, 12), st.integers(1, 20)), min_size=1, max_size=5), st.integers(0, 1))
def test_verdicts_are_those_of_the_rules(tasks: list[tuple[int, int]], switch: int) -> None:
    """For the files, and for a board that nothing is rounded of; what RM admits is in time."""
    text = f"switch_us = {switch * 1000}\n" + "".join(
        TASKS.format(f"t{place}", period, work * 1000) for place, (period, work) in enumerate(tasks))
    try:
        board = Board.parse(text + "[[point]]\nmhz = 3\nvolts = 1\n")
        made = design(board, Scale(Fraction(1), Fraction(1000)))
    except Refused:
        return
    for asked in (Asked.by(board), Asked.by_files(made)):
        assert (asked.utilisation <= 1) == admits(made.tasks, made, "edf")
        assert (not asked.late_under_rm()) == admits(made.tasks, made, "rm")
        assert asked.late_under_rm() or None not in map(asked.response, range(len(tasks)))


@given(st.lists(st.tuples(st.integers(1, 12), st.integers(1, 8)), min_size=1, max_size=4),
       st.sampled_from(["edf", "rm"]))
def test_a_task_may_grow_to_its_limit(tasks: list[tuple[int, int]], scheduler: str) -> None:
    """A set with one task at its limit is admitted, and with a cycle more it isn't."""
    loads = tuple(Load(f"t{place}", Fraction(period), Fraction(work)) for place, (period, work) in enumerate(tasks))
    for place, load in enumerate(loads):
        most = Asked(loads, Fraction(3)).most(place, scheduler)
        for more in (0, 1) if most is not None else ():
            grown = replace(load, cycles=(most or Fraction(0)) + more)
            asked = Asked((*loads[:place], grown, *loads[place + 1:]), Fraction(3))
            assert (not asked.late_under_rm() if scheduler == "rm" else asked.utilisation <= 1) == (not more)


def admits(tasks: TaskSet, made: object, scheduler: str) -> bool:
    try:
        Plan(tasks, getattr(made, "machine"), scheduler).admit()
    except Refused:
        return False
    return True


@pytest.mark.parametrize(("periods", "ticks"), [
    pytest.param([4, 6], 12, id="hyperperiod"),
    pytest.param([997, 1009], 1002964, id="some 2000 jobs"),  # 2000 * 997 * 1009 / (997 + 1009) = 1,002,964.1
    pytest.param([100, 10**6 + 1], 10**6 + 1, id="the longest period"),  # 10,002 jobs
    pytest.param([7, 10**6 + 1], 692995, id="99,000 jobs"),  # 99,000 * 7 * 1,000,001 / 1,000,008 = 692,995.1
])
def test_time_of_runs(periods: list[int], ticks: int) -> None:
    text = "".join(TASKS.format(f"t{place}", period, 1) for place, period in enumerate(periods)) + FULL
    made = design(Board.parse(text), Scale(Fraction(1), Fraction(1000)))
    assert run_ticks(made) == ticks


@pytest.mark.parametrize(("words", "ticks", "time", "jobs"), [
    pytest.param([], 16650, "1665", 333, id="hyperperiod"),
    pytest.param(["--ms", "10.05"], 100, "10", 2, id="a given time"),
])
def test_demand_file(words: list[str], ticks: int, time: str, jobs: int, tmp_path: Path, capsys: Captured) -> None:
    lines = lines_of(USUAL, tmp_path, capsys, "--folder", str(tmp_path), *words)
    assert lines[-1] == f"demands.csv is for {ticks} ticks, {time} ms"
    tasks = TaskSet.read(tmp_path / "tasks.toml")
    assert Demands.read(tmp_path / "demands.csv", tasks).units == {("control", job): 7000 for job in range(1, jobs + 1)}


def test_no_demand_file_without_usual_cycles(tmp_path: Path, capsys: Captured) -> None:
    assert "demands" not in lines_of(MEASURED, tmp_path, capsys, "--folder", str(tmp_path / "made"))[-1]
    assert sorted(path.name for path in (tmp_path / "made").iterdir()) == ["machine.toml", "tasks.toml"]


def test_time_of_runs_is_above_0(tmp_path: Path, capsys: Captured) -> None:
    (tmp_path / "board.toml").write_text(MEASURED)
    assert "--ms has to be above 0" in refusal(capsys, ["design", "--board", tmp_path / "board.toml", "--ms", "0"])


def test_report_without_the_command() -> None:
    board = Board.parse(MEASURED)
    made = design(board, Scale(Fraction(1, 10), Fraction(100)))
    assert sum(text.count("\n") for text in report(board, made, 10)) == 10 + 8


@pytest.mark.parametrize("words", [["--tick-ms", "1", "--unit-cycles", "500"], ["--unit-cycles", "300"]], ids=repr)
def test_given_scale(words: list[str], tmp_path: Path, capsys: Captured) -> None:
    tick = words[1] if len(words) > 2 else "0.1"
    assert lines_of(MEASURED, tmp_path, capsys, *words)[0] == f"a tick is {tick} ms, a unit {words[-1]} cycles"
