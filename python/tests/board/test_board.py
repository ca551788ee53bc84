"""Boards: expected values are worked out by hand, or are what holds for every rounding."""

from fractions import Fraction
from pathlib import Path

import pytest
from hypothesis import given
from hypothesis import strategies as st

from rtdvs._numbers import plain
from rtdvs.board import (
    Board, BoardPoint, BoardTask, Scale, choose_scale, choose_tick, design, nanojoules, operating_points, settle,
    usual_demands,
)
from rtdvs.errors import BadValue, Refused
from rtdvs.model import Demands, Machine, Point, Task, TaskSet
from tests.shared.examples import TEST_DATA, TOP, XSCALE, Captured, cases, printed, refusal

# The controller and the decoder of the page on units, on operating points of the XScale.
TASKS = (TEST_DATA / "board.toml").read_text()
VOLTS = TASKS + "".join(f"[[point]]\nmhz = {mhz}\nvolts = {volts}\n" for mhz, volts, _ in XSCALE) + (
    "milliwatts = 1600\n")
POWER = TASKS + "".join(f"[[point]]\nmhz = {mhz}\nmilliwatts = {power}\n" for mhz, _, power in XSCALE[1:])
MS = Scale(Fraction(1), Fraction(1000))
decimals = st.decimals("0.01", "1000", places=3).map(lambda number: Fraction(str(number)))


def test_files_of_the_page() -> None:
    made = design(Board.parse("idle_share = 0.1\nswitch_us = 20\n" + VOLTS), MS)
    assert made.tasks.tasks == (Task("control", 5, 1200), Task("decode", 40, 16000))
    points = tuple(Point(mhz, int(1000 * float(volts))) for mhz, volts, _ in XSCALE)
    assert made.machine == Machine(points, 100, 20)
    assert made.roundings == ()


@pytest.mark.parametrize(("periods", "tick"), [
    (("5", "40"), "0.5"), (("2.5", "33.3", "100"), "0.1"), (("3", "7"), "0.25"), (("5", "33.333"), "0.2"),
    (("1000",), "100"), (("7.3",), "0.73"), (("0.125", "0.12599"), "0.0002"),
], ids=str)
def test_tick(periods: tuple[str, ...], tick: str) -> None:
    tasks = tuple(BoardTask(f"t{place}", Fraction(period), Fraction(1000)) for place,
                  period in enumerate(periods))
    assert choose_tick(Board(tasks, ())) == Fraction(tick)


@pytest.mark.parametrize(("longest", "tick"), [
    pytest.param("281474976710656.3", 1, id="2^48"), pytest.param("281474976710672.3", None, id="2^48 + 16"),
])
def test_tick_of_the_longest_hyperperiod(longest: str, tick: int | None) -> None:
    """Only a tick of 1 ms can do: with a finer one 16.5 ms are 33 ticks or 82, which no power of two has as a part."""
    board = Board((BoardTask("a", Fraction("16.5"), Fraction(1)), BoardTask("b", Fraction(longest), Fraction(1))), ())
    if tick is None:
        with pytest.raises(BadValue, match="no common multiple up to 2.48 ticks"):
            choose_tick(board)
    else:
        assert choose_tick(board) == tick


def test_roundings_are_said() -> None:
    board = Board.parse(TASKS.replace("period_ms = 40", "period_ms = 33.333\noffset_ms = 0.25")
                        + "[[point]]\nmhz = 747.5\nvolts = 1.18725")
    assert [rounding.text() for rounding in design(board, MS).roundings] == [
        "task decode: period 33.333 ms taken as 33 ms", "task decode: offset 0.25 ms taken as 0 ms",
        "point 747.5 MHz: speed 747.5 MHz taken as 747 MHz",
        "point 747.5 MHz: volts 1.18725 V taken as 1.188 V"]


@given(st.lists(st.tuples(decimals, st.integers(1, 10**9)), min_size=1, max_size=8),
       st.lists(st.tuples(decimals, st.integers(1, 20000)), min_size=1, max_size=5,
                unique_by=lambda point: int(point[0] * 1000)),
       st.fractions(0, 1, max_denominator=10**4), decimals, st.booleans())
def test_a_set_is_never_easier(tasks: list[tuple[Fraction, int]], points: list[tuple[Fraction, int]],
                               idle_share: Fraction, switch: Fraction, is_coarse: bool) -> None:
    volts = sorted(volts for _, volts in points)
    board = Board(tuple(BoardTask(f"t{place}", period, Fraction(worst)) for place,
                        (period, worst) in enumerate(tasks)),
                  tuple(BoardPoint(mhz, Fraction(level, 1000)) for (mhz, _),
                        level in zip(sorted(points), volts)), idle_share, switch)
    try:
        scale = choose_scale(board)
        made = design(board, Scale(scale.tick, scale.unit * 7 / 3) if is_coarse else scale)
    except Refused:
        return
    tick, unit = made.scale.tick, made.scale.unit
    assert tick <= min(task.period for task in board.tasks) / 10
    assert all(task.period * tick <= task_in.period for task, task_in in zip(made.tasks, board.tasks))
    assert all(task.worst * unit >= task_in.worst for task, task_in in zip(made.tasks, board.tasks))
    assert all(point.speed * unit <= given_point.megahertz * 1000 * tick
               and point.millivolts >= (given_point.volts or 0) * 1000
               for point, given_point in zip(made.machine.points, board.points))
    assert made.machine.idle >= idle_share * 1000
    assert made.machine.charge >= switch / 1000 / tick * made.machine.top_speed


@pytest.mark.parametrize("times", [Fraction(1), Fraction(1000), Fraction(1, 10**6)], ids=str)
def test_tick_is_halved_until_the_energy_stays(times: Fraction) -> None:
    # 337.7 is 1.1 % above 334, and 339.5 is 0.5 % above 337.7.
    energies = {"0.5": "296", "0.25": "334", "0.125": "337.7", "0.0625": "339.5"}
    board = Board.parse(VOLTS)
    found = settle(board, choose_scale(board), lambda made: times * Fraction(energies[plain(made.scale.tick)]),
                   Fraction(1, 100))
    assert [plain(made.scale.tick) for made, _ in found] == [*energies]


def test_usual_demands() -> None:
    board = Board.parse(VOLTS)
    made = design(board, MS)
    demands = usual_demands(board, made, 81)
    assert demands == Demands({("decode", 1): 8000, ("decode", 2): 8000, ("decode", 3): 8000})
    assert Demands.parse(demands.text(), made.tasks) == demands


@pytest.mark.parametrize(("old", "new", "line"), [
    *cases("refused_boards"),
    (VOLTS, "task = 3", "board: task is no array of tables"),
    (VOLTS, "", "board: no tasks"),
    pytest.param(VOLTS, "a = " + "[" * 5000, "board: n", id="nested"),
    (VOLTS, POWER.replace("mhz = 400", "mhz = 150\nmilliwatts = 80\n[[point]]\nmhz = 400"),
     "board: point 150 MHz: a cycle takes more energy than at 400 MHz; leave the point out"),
])
def test_refusals(old: str, new: str, line: str, tmp_path: Path, capsys: Captured) -> None:
    assert old in VOLTS
    (tmp_path / "board.toml").write_text(VOLTS.replace(old, new, 1))
    said = refusal(capsys, ["design", "--board", tmp_path / "board.toml"])
    first, *second = said.splitlines()
    assert line in first and len(second) <= 1


def test_command_writes_files(tmp_path: Path, capsys: Captured) -> None:
    (tmp_path / "board.toml").write_text(VOLTS)
    board = ["design", "--board", tmp_path / "board.toml", "--tick-ms", "1", "--unit-cycles", "1000"]
    assert printed(capsys, [*board, "--folder", tmp_path / "made"]) == (
        "a tick is 1 ms, a unit 1000 cycles\ndemands.csv is for 40 ticks, 40 ms\n")
    assert TaskSet.read(tmp_path / "made" / "tasks.toml").tasks[1] == Task("decode", 40, 16000)
    assert Machine.read(tmp_path / "made" / "machine.toml").points[4] == Point(1000, 1800)


@pytest.mark.parametrize(("microseconds", "charge"), [
    ("0", 0), ("20", 20), ("2000", 2000), ("2000.5", 2001), ("0.001", 1), ("999999", 999999),
])
def test_charge(microseconds: str, charge: int) -> None:
    """The highest speed does a unit in a microsecond."""
    made = design(Board.parse(f"switch_us = {microseconds}\n" + VOLTS), MS)
    assert made.machine.charge == charge
    assert [rounding.text() for rounding in made.roundings] == (
        [] if Fraction(microseconds) == charge
        else [f"switch {microseconds} microseconds taken as {charge} microseconds"])


def test_effective_voltages_are_said() -> None:
    """A cycle takes 0.425, 0.6667, 1.125 and 1.6 nJ: the square roots of their shares of the last, times 20000."""
    made = design(Board.parse(POWER), MS)
    assert [rounding.text() for rounding in made.roundings] == [
        f"point {mhz} MHz: {power} milliwatts taken as {millivolts} effective millivolts"
        for mhz, power, millivolts in ((400, 170, 10308), (600, 400, 12910), (800, 900, 16771), (1000, 1600, 20000))]


def test_points_twice() -> None:
    points = operating_points((TEST_DATA / "da850.dts").read_text()).points
    with pytest.raises(BadValue, match="board: the points are given twice: here and by a device tree"):
        Board.parse(VOLTS, points)


def test_a_worst_case_as_long_as_its_period() -> None:
    made = design(Board.parse(VOLTS.replace("worst_ms = 1.2", "worst_ms = 5")), MS)
    assert made.tasks.tasks[0] == Task("control", 5, 5000)


def test_an_effective_voltage_that_is_the_milliwatts() -> None:
    made = design(Board.parse(TASKS + "[[point]]\nmhz = 1000\nmilliwatts = 20000\n"), MS)
    assert [each.text() for each in made.roundings] == [
        "point 1000 MHz: 20000 milliwatts taken as 20000 effective millivolts"]


@pytest.mark.parametrize(("milliwatts", "millivolts"), [("200", 10000), ("200.000001", 10001)])
def test_effective_voltages_are_rounded_up(milliwatts: str, millivolts: int) -> None:
    """At 500 MHz a cycle takes a quarter of the 1.6 nJ of the last point, or a little more: half of 20000."""
    points = f"[[point]]\nmhz = 500\nmilliwatts = {milliwatts}\n[[point]]\nmhz = 1000\nmilliwatts = 1600\n"
    assert design(Board.parse(TASKS + points), MS).machine.points[0] == Point(500, millivolts)


@pytest.mark.parametrize(("milliseconds", "ticks"), [("0.001", 1), ("1.999", 1), ("2", 2)])
def test_whole_ticks(milliseconds: str, ticks: int) -> None:
    assert design(Board.parse(VOLTS), MS).ticks_of(Fraction(milliseconds)) == ticks


def test_milliwatts_beside_a_device_tree() -> None:
    points = operating_points((TEST_DATA / "da850.dts").read_text()).points
    board = Board.parse("highest_milliwatts = 360.5\n" + TASKS.replace("16_000_000", "8_000_000"), points)
    assert [point.milliwatts for point in board.rising] == [None, None, Fraction("360.5")]
    assert nanojoules(board)[1] == Fraction("360.5") / 300 * Fraction("1.21") / Fraction("1.44")


@pytest.mark.parametrize(("words", "points"), [
    pytest.param([], [(500, 825), (747, 900), (1400, 1188)], id="megahertz"),
    pytest.param(["--tick-ms", "0.1", "--unit-cycles", "10000"], [(5, 825), (7, 900), (14, 1188)], id="tens of them"),
])
def test_machine_of_a_device_tree(
        words: list[str], points: list[tuple[int, int]], tmp_path: Path, capsys: Captured) -> None:
    tree = ["design", "--device-tree", TOP / "examples" / "board.dts", "--table", "little", "--turbo"]
    printed(capsys, [*tree, *words, "--output", tmp_path / "machine.toml"])
    assert Machine.read(tmp_path / "machine.toml") == Machine(tuple(Point(*point) for point in points))
    (tmp_path / "board.toml").write_text(TASKS)
    printed(capsys, [*tree, "--board", tmp_path / "board.toml", "--folder", tmp_path])


def test_tick_is_settled_by_the_program(program: Path, tmp_path: Path, capsys: Captured) -> None:
    (tmp_path / "board.toml").write_text(VOLTS)
    words = ["--settle-ms", "80", "--governor", "la", "--program", program]
    lines = printed(capsys, ["design", "--board", tmp_path / "board.toml", *words]).splitlines()[:-1]
    joules = [Fraction(line.split(": ")[1].split(" ")[0]) for line in lines]
    assert len(joules) > 1 and abs(joules[-1] - joules[-2]) <= joules[-1] / 99
