"""Joules, mean power and hours of runs: worked out by hand in the comments. The runs are simulated."""

from collections.abc import Sequence
from decimal import Context, Decimal
from fractions import Fraction
from pathlib import Path

import pytest
from hypothesis import given
from hypothesis import strategies as st

from rtdvs.board import Board, BoardPoint, Design, Scale, Spent, Units, design, nanojoules
from rtdvs.cli.main import main
from rtdvs.errors import BadValue, Refused, TraceFault
from rtdvs.model import Demands, Machine, TaskSet
from rtdvs.rules import check
from rtdvs.trace import Trace
from tests.shared.examples import TEST_DATA, Captured, printed, refusal
from tests.shared.simulated import Simulated



def check_trace(files: Design, trace: Trace) -> None:
    """As `design --trace` does."""
    check(files.tasks, files.machine, trace.text().splitlines(keepends=True), any_governor=True)


TASKS = '[[task]]\nname = "{}"\nperiod_ms = {}\nworst_cycles = {}\n'
# The controller and the decoder of the page on units, with measured points.
MEASURED = ("battery_mwh = 3700\n" + TASKS.format("control", 5, 1_200_000) + TASKS.format("decode", 33.333, 16_000_000)
            + "".join(f"[[point]]\nmhz = {mhz}\nmilliwatts = {power}\n"
                      for mhz, power in ((400, 170), (600, 400), (800, 900), (1000, 1600))))
VOLTS = ("battery_mwh = 1000\nidle_share = 0.1\n" + TASKS.format("a", 4, 1_500_000)
         + "[[point]]\nmhz = 500\nvolts = 1\n[[point]]\nmhz = 1000\nvolts = 2\nmilliwatts = 800\n")
TREE = "battery_mwh = 5000\nhighest_milliwatts = 360\n" + TASKS.format("a", 10, 1_500_000)
DA850 = ["--device-tree", str(TEST_DATA / "da850.dts")]


def run_of(folder: Path, ticks: int, capsys: Captured, governor: str = "static", scheduler: str = "edf") -> str:
    """The text of a run of the files in a folder."""
    files = [word for kind in ("tasks", "machine") for word in (f"--{kind}", folder / f"{kind}.toml")]
    pair = ["--scheduler", scheduler, "--governor", governor]
    return printed(capsys, ["simulate", *files, *pair, "--ticks", ticks, "--format", 2])


def energy_of(text: str, words: Sequence[str], ticks: int, folder: Path, capsys: Captured,
              governor: str = "static") -> str:
    """What the command prints for a run of a board's files."""
    (folder / "board.toml").write_text(text)
    board = ["design", "--board", folder / "board.toml", "--folder", folder / "made"]
    made([*board, *words], capsys)
    (folder / "run.trace").write_text(run_of(folder / "made", ticks, capsys, governor))
    return made([*board, *words[:2], "--trace", folder / "run.trace"], capsys)


def made(words: Sequence[object], capsys: Captured) -> str:
    """What a command prints; what it leaves out of a device tree may be noted."""
    status, (out, err) = main([*map(str, words)]), capsys.readouterr()
    assert status == 0 and (not err or err.startswith("note: left out")), err
    return out


@pytest.mark.parametrize(("board", "words", "ticks", "lines"), [
    # Ticks of 0.1 ms, units of 100 cycles. Both tasks ask for 240 + 16000/33.3 = 720.48 MHz, so all runs are at
    # 800 MHz, where a cycle takes 900/800 nJ. In 100 ms `control` has 20 jobs of 1.2 million cycles, `decode` 3
    # of 16 million, and one tick of its fourth, 80,000: 72.08 million cycles, 81.09 mJ, 810.9 mW; and 3700 mWh
    # by 810.9 mW are 4.5628314 hours.
    pytest.param(MEASURED, [], 1000, ["0.08109 joules in 100 ms", "810.9 milliwatts on average",
                                      "4.56283 hours from 3700 milliwatt hours"], id="measured"),
    # A task of 375 MHz, so at 500 MHz: 3 ms of run and 1 ms of idle time in each 4. A cycle at 1000 MHz takes
    # 0.8 nJ, at half the voltage 0.2 nJ, and an idle one 0.02 nJ. In 8 ms 3 million cycles take 0.6 mJ, and 1
    # million idle ones 0.02 mJ: 0.62 mJ, 77.5 mW, and 1000 mWh by 77.5 mW are 12.903226 hours.
    pytest.param(VOLTS, ["--tick-ms", "1", "--unit-cycles", "1000"], 8,
                 ["0.00062 joules in 8 ms", "77.5 milliwatts on average", "12.9032 hours from 1000 milliwatt hours"],
                 id="volts"),
    # 150 MHz are asked for, so 200 MHz at 1.1 V run 7.5 ms of 10. At 300 MHz and 1.2 V a cycle takes 1.2 nJ; at
    # 1.1 V 1.2 * 1.21/1.44 nJ. Ten jobs of 1.5 million cycles take 15.125 mJ in 100 ms: 151.25 mW, and 5000 mWh
    # by 151.25 mW are 33.057851 hours.
    pytest.param(TREE, [*DA850, "--tick-ms", "0.5", "--unit-cycles", "1000"], 200,
                 ["0.015125 joules in 100 ms", "151.25 milliwatts on average",
                  "33.0579 hours from 5000 milliwatt hours"], id="device tree"),
])
def test_boards_by_hand(board: str, words: list[str], ticks: int, lines: list[str], tmp_path: Path,
                        capsys: Captured) -> None:
    assert energy_of(board, words, ticks, tmp_path, capsys).splitlines() == lines


def digits(number: Fraction) -> str:
    """A number with six digits, rounded once, without the zeros at its end."""
    return f"{Context(prec=6).divide(Decimal(number.numerator), Decimal(number.denominator)).normalize():f}"


# Milliseconds, the battery's mWh, and joules as cycles times nanojoules, under `none` and `static`.
# MEASURED: in 100 ms 20 jobs of 1.2 million cycles, 3 of 16 million, and 0.1 ms of the next one. A cycle takes
# 1600/1000 nJ at 1000 MHz and 900/800 at 800.
# VOLTS: in 8 ms two jobs of 1.5 million, 0.8 nJ at 2 V and a quarter of it at 1 V. Idle cycles take a tenth: of each
# 4 ms 2.5 at 1000 MHz, or 1 at 500.
# TREE: in 100 ms ten jobs of 1.5 million, 360/300 nJ at 300 MHz and 1.2 V, and (1.1/1.2)^2 of it at 200 MHz.
SEEN = [
    pytest.param(MEASURED, [], 100, 3700, [
        (24_000_000 + 48_000_000 + 100_000) * Fraction(1600, 1000) / 10**9,
        (24_000_000 + 48_000_000 + 80_000) * Fraction(900, 800) / 10**9], id="measured"),
    pytest.param(VOLTS, ["--tick-ms", "0.5"], 8, 1000, [
        (3_000_000 + Fraction(5_000_000, 10)) * Fraction(800, 1000) / 10**9,
        (3_000_000 + Fraction(1_000_000, 10)) * Fraction(800, 1000) / 4 / 10**9], id="volts"),
    pytest.param(TREE, [*DA850, "--tick-ms", "0.5"], 100, 5000, [
        15_000_000 * Fraction(360, 300) / 10**9,
        15_000_000 * Fraction(360, 300) * Fraction(11, 12)**2 / 10**9], id="device tree"),
]


@pytest.mark.parametrize(("board", "words", "milliseconds", "battery", "joules"), SEEN)
def test_all_digits_of_three_boards(board: str, words: list[str], milliseconds: int, battery: int,
                                    joules: list[Fraction], tmp_path: Path, capsys: Captured,
                                    monkeypatch: pytest.MonkeyPatch) -> None:
    """Joules, milliwatts and hours of `compare`, of `statistics` and of `design --trace`."""
    monkeypatch.setattr("rtdvs.cli.options.engine_of", lambda args: Simulated(tmp_path))
    (tmp_path / "board.toml").write_text(board)
    given, folder = ["--board", tmp_path / "board.toml", *words], tmp_path / "made"
    rows = [line.split() for line in made(["compare", *given, "--ms", milliseconds], capsys).splitlines()[1:3]]
    made(["design", *given, "--folder", folder], capsys)
    scale = Scale.parse((folder / "tasks.toml").read_text())
    assert scale is not None
    for row, governor, each in zip(rows, ("none", "static"), joules, strict=True):
        milliwatts = each * 1000 / Fraction(milliseconds, 1000)
        wanted = [digits(each), digits(milliwatts), digits(battery / milliwatts)]
        assert row[:5] == ["edf", governor, *wanted]
        (tmp_path / "run.trace").write_text(run_of(folder, int(milliseconds / scale.tick), capsys, governor))
        for command in ("design", "statistics"):
            lines = made([command, *given, "--folder", folder, "--trace", tmp_path / "run.trace"], capsys).splitlines()
            assert [line.split()[0] for line in lines[-3:]] == wanted


@pytest.mark.parametrize("words", [[], ["--tick-ms", "0.05"], ["--tick-ms", "0.5", "--unit-cycles", "100"],
                                   ["--tick-ms", "1/30"]], ids=repr)
def test_the_scale_is_that_of_the_files(words: list[str], tmp_path: Path, capsys: Captured) -> None:
    """The same 100 ms take the same joules in any scale, within the tick in which a job ends."""
    (tmp_path / "board.toml").write_text(MEASURED)
    board = ["design", "--board", tmp_path / "board.toml", "--folder", tmp_path]
    printed(capsys, [*board, *words])
    scale = Scale.parse((tmp_path / "tasks.toml").read_text())
    assert scale is not None
    (tmp_path / "run.trace").write_text(run_of(tmp_path, int(100 / scale.tick), capsys))
    joules, milliwatts, _ = printed(capsys, [*board, "--trace", tmp_path / "run.trace"]).splitlines()
    assert joules.endswith(" joules in 100 ms")
    assert 0.081 <= float(joules.split()[0]) <= 0.082 and 810 <= float(milliwatts.split()[0]) <= 820


def test_idle_energy_by_the_share_of_the_board() -> None:
    """A share of 1/3 is 334 thousandths in the machine file: 30 cycles of 2 nJ run, and 50 are idle at a third."""
    board = Board.parse('idle_share = 0.3333\n' + TASKS.format("a", 8, 30) + "[[point]]\nmhz = 1\nvolts = 1\n"
                        "milliwatts = 2\n")
    files = design(board, Scale(Fraction(1, 100), Fraction(1)))
    lines = ["release 0 a 1", "speed 0 10 30/800", "run 0:0 3:0 a 1 30 12000000000000", "done 3:0 a 1 30",
             "idle 3:0 8:0 50 6680000000000"]
    trace = Trace.parse("\n".join(["trace 1", "plan edf mine 8", *lines, "end 8 12000000000000 6680000000000", ""]))
    check_trace(files, trace)
    assert Units(board, files).spent(trace) == Spent((60 + 100 * Fraction("0.3333")) / 10**9, Fraction("0.08"))


@given(st.lists(st.tuples(st.integers(1, 10**4), st.integers(1, 10**6)), min_size=1, max_size=6,
                unique_by=lambda point: int(point[0])))
def test_measured_power_is_exact(points: list[tuple[int, int]]) -> None:
    """A second at each point takes its milliwatts; the voltages of the machine are never too low for it."""
    board = Board((), tuple(BoardPoint(Fraction(mhz), milliwatts=Fraction(power)) for mhz, power in points))
    costs = nanojoules(board)
    assert [cost * point.megahertz for cost, point in zip(costs, board.rising)] == [
        power for _, power in sorted(points)]
    try:
        machine = design(Board.parse(TASKS.format("a", 1000, 1) + "".join(
            f"[[point]]\nmhz = {mhz}\nmilliwatts = {power}\n" for mhz, power in points)),
            Scale(Fraction(1), Fraction(1000))).machine
    except Refused:  # a cycle takes more than at the next higher point
        return
    most = max(costs)
    for cost, point in zip(costs, machine.points, strict=True):
        assert (point.millivolts - 1)**2 < cost / most * 20000**2 <= point.millivolts**2


def test_points_in_any_order() -> None:
    """The highest has the milliwatts: 0.8 nJ a cycle there, and a quarter at half the voltage."""
    points = BoardPoint(Fraction(1000), Fraction(2), Fraction(800)), BoardPoint(Fraction(500), Fraction(1))
    assert nanojoules(Board((), points)) == (Fraction("0.2"), Fraction("0.8"))


@pytest.mark.parametrize(("board", "line"), [
    pytest.param(VOLTS.replace("milliwatts = 800\n", ""), "joules need milliwatts at the highest point", id="none"),
    pytest.param(VOLTS.replace("volts = 1\n", "milliwatts = 80\n").replace("milliwatts = 800\n", ""),
                 "joules need milliwatts at the highest point", id="at another point"),
])
def test_no_joules(board: str, line: str) -> None:
    with pytest.raises(BadValue, match=f"board: {line}"):
        nanojoules(Board.parse(board))


# What is refused

@pytest.fixture
def board(tmp_path: Path, capsys: Captured) -> list[str]:
    """The words of a design whose files and run of 40 ticks, of 0.1 ms each, are in a folder `made`."""
    (tmp_path / "board.toml").write_text(MEASURED)
    words = ["design", "--board", str(tmp_path / "board.toml"), "--folder", str(tmp_path / "made")]
    printed(capsys, words)
    (tmp_path / "run.trace").write_text(run_of(tmp_path / "made", 1000, capsys))
    return [*words, "--trace", str(tmp_path / "run.trace")]


def edited(path: Path, old: str, new: str) -> None:
    text = path.read_text()
    assert old in text
    path.write_text(text.replace(old, new, 1))


@pytest.mark.parametrize(("name", "old", "new", "reason"), [
    ("made/tasks.toml", "# a tick is 0.1 ms, a unit 100 cycles\n", "", "tasks.toml doesn't say what a tick"),
    ("made/machine.toml", "a tick is", "ticks are", "machine.toml doesn't say what a tick"),
    ("made/machine.toml", "0.1 ms", "0.05 ms", "machine.toml: a tick is 0.05 ms, a unit 100 cycles, but in tasks.toml"),
    ("made/machine.toml", "unit 100", "unit 50", "machine.toml: a tick is 0.1 ms, a unit 50 cycles, but in tasks.toml"),
    ("made/tasks.toml", "period = 50", "period = 49", "tasks.toml has other tasks than this board"),
    ("made/machine.toml", "idle = 0", "idle = 1", "machine.toml has another machine than this board"),
    ("board.toml", "period_ms = 5", "period_ms = 6", "tasks.toml has other tasks than this board"),
    ("board.toml", "milliwatts = 170", "milliwatts = 180", "machine.toml has another machine than this board"),
    ("run.trace", "trace 2\n", "trace 3\n", "line 1: neither trace 1 nor trace 2"),
    ("run.trace", "control 50 0 12000", "control 50 0 12001", "no run of the files in"),
    ("run.trace", "release 50 control 2", "release 51 control 2", "no run of the files in"),
])
def test_files_that_are_not_of_the_board(name: str, old: str, new: str, reason: str, board: list[str], tmp_path: Path,
                                         capsys: Captured) -> None:
    edited(tmp_path / name, old, new)
    said = refusal(capsys, board)
    assert reason in said and said.count("\n") == 1


@pytest.mark.parametrize(("words", "reason"), [
    pytest.param(["--tick-ms", "0.05"], "a tick is 0.1 ms, a unit 100 cycles, not 0.05", id="tick"),
    pytest.param(["--unit-cycles", "50"], "a tick is 0.1 ms, a unit 100 cycles, not 50", id="unit"),
    pytest.param(["--folder", "absent"], "absent/tasks.toml: No such file or directory", id="folder"),
])
def test_another_scale_than_that_of_the_files(words: list[str], reason: str, board: list[str],
                                              capsys: Captured) -> None:
    assert reason in refusal(capsys, [*board, *words])
    assert printed(capsys, [*board, "--tick-ms", "0.1", "--unit-cycles", "100"]).startswith("0.08109 joules")


def test_a_trace_needs_its_files(board: list[str], capsys: Captured) -> None:
    at = board.index("--folder")
    assert "--trace needs --folder" in refusal(capsys, board[:at] + board[at + 2:])


@pytest.mark.parametrize("words", [["--tick-ms", "0.05"], ["--tick-ms", "0.2", "--unit-cycles", "50"]], ids=repr)
@pytest.mark.parametrize("version", [1, 2])
def test_a_trace_of_files_in_another_scale(version: int, words: list[str], board: list[str], tmp_path: Path,
                                           capsys: Captured) -> None:
    printed(capsys, [*board[:5], *words])
    text = (tmp_path / "run.trace").read_text()
    if version == 1:
        kept = [line for line in text.splitlines() if line.split()[0] not in ("task", "energy")]
        (tmp_path / "run.trace").write_text("\n".join(["trace 1", *kept[1:], ""]))
    assert "the trace is of no run of the files in" in refusal(capsys, board)


def test_a_battery_without_energy(tmp_path: Path, capsys: Captured) -> None:
    """The task begins at 3 ms, and an idle cycle takes nothing."""
    late = MEASURED.split("[[task]]")[0] + TASKS.format("a", 5, 1000) + "offset_ms = 3\n" + (
        "[[point]]\nmhz = 400\nmilliwatts = 170\n")
    assert energy_of(late, ["--tick-ms", "1"], 2, tmp_path, capsys) == (
        "0 joules in 2 ms\n0 milliwatts on average\nno energy was used from 3700 milliwatt hours\n")


# The tick that the energy settles at

class Simulator:
    """Answers `run` as the program does."""

    def __init__(self, folder: Path, capsys: Captured) -> None:
        self.folder, self.capsys = folder, capsys
        self.demands = list[Demands]()

    def run(self, tasks: TaskSet, machine: Machine, scheduler: str, governor: str, ticks: int, demands: Demands) -> Trace:
        tasks.write(self.folder / "tasks.toml")
        machine.write(self.folder / "machine.toml")
        self.demands.append(demands)
        return Trace.parse(run_of(self.folder, ticks, self.capsys, governor, scheduler))


def test_settled_time_is_in_whole_ticks(tmp_path: Path, capsys: Captured, monkeypatch: pytest.MonkeyPatch) -> None:
    """33.3333 ms are 33 ticks of 1 ms, and 66 of 0.5 ms."""
    (tmp_path / "board.toml").write_text(MEASURED)
    monkeypatch.setattr("rtdvs.cli.options.engine_of", lambda args: Simulator(tmp_path, capsys))
    words = ["--settle-ms", "33.3333", "--tick-ms", "1", "--governor", "static"]
    lines = printed(capsys, ["design", "--board", tmp_path / "board.toml", *words]).splitlines()
    assert [line.split(": ")[0] for line in lines[:2]] == ["tick 1 ms", "tick 0.5 ms"]
    assert all(line.endswith(" joules in 33 ms") for line in lines[:2])


def test_a_trace_of_a_wrong_energy(board: list[str], tmp_path: Path) -> None:
    trace = (tmp_path / "run.trace").read_text()
    files = design(Board.parse(MEASURED), Scale(Fraction(1, 10), Fraction(100)))
    check_trace(files, Trace.parse(trace))
    with pytest.raises(TraceFault, match="line "):
        first = "run 0:0 15:0 control 1 12000 "
        check_trace(files, Trace.parse(trace.replace(first, f"{first}1")))
