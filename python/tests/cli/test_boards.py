"""Commands with a board: milliseconds, megahertz, milliwatts, joules and hours, by computations in the tests."""

from fractions import Fraction
from pathlib import Path
from typing import Any

import pytest

import rtdvs.cli.main
import rtdvs.plot.board
import rtdvs.plot.comparison
from rtdvs._numbers import rounded
from rtdvs.board import Board, Scale, Units, choose_scale, design, run_ticks
from rtdvs.model import Machine, Point, Task, TaskSet
from rtdvs.plot import View, save_compare, save_report
from rtdvs.rules import simulate
from rtdvs.studies import compare
from tests.board.test_energy import MEASURED, TASKS, TREE, VOLTS
from tests.plot.test_geometry import faults, seen, seen_trace, spots, texts
from tests.shared.examples import TEST_DATA, Captured, options, printed, refusal
from tests.shared.simulated import Simulated

SCALE = ["--tick-ms", "1", "--unit-cycles", "1000"]
# VOLTS has a task of 1.5 million cycles in each 4 ms, and in 8 ms two jobs. At 500 MHz and 1 V a job takes 3 ms, at
# 1000 MHz and 2 V 1.5 ms. A cycle takes 800 mW / 1000 MHz = 0.8 nJ at 2 V, a quarter of it at 1 V, and idle a tenth.
JOB, TOP, LOW = 1_500_000, Fraction(8, 10) / 10**9, Fraction(2, 10) / 10**9
STATIC = 2 * JOB * LOW + 2 * 1_000 * 500 * LOW / 10       # 2 times 1 ms idle at 500 MHz
NONE = 2 * JOB * TOP + 2 * 2_500 * 1000 * TOP / 10        # 2 times 2.5 ms idle at 1000 MHz


@pytest.fixture(autouse=True)
def simulated(monkeypatch: pytest.MonkeyPatch) -> None:
    monkeypatch.setattr("rtdvs.cli.options.engine_of", lambda args: Simulated(Path("simulated")))


@pytest.fixture
def board(tmp_path: Path) -> Path:
    (tmp_path / "board.toml").write_text(VOLTS)
    return tmp_path / "board.toml"


def power(joules: Fraction) -> list[str]:
    """Joules, milliwatts and hours of 8 ms, by the battery's 1000 mWh."""
    milliwatts = joules * 1000 / Fraction(8, 1000)
    return [rounded(joules), rounded(milliwatts), rounded(1000 / milliwatts)]


def test_compare(board: Path, capsys: Captured) -> None:
    """By hand: 2.8 mJ, 350 mW and 2.85714 hours at 1000 MHz; 0.62 mJ, 77.5 mW and 12.9032 hours at 500 MHz."""
    assert power(NONE) == ["0.0028", "350", "2.85714"] and power(STATIC) == ["0.00062", "77.5", "12.9032"]
    lines = printed(capsys, ["compare", "--board", board, *SCALE, "--ms", "8"]).splitlines()
    assert lines[0].split() == ["8", "ms", "J", "mW", "hours", "of_none", "above_bound", "switches", "idle",
                                "least_laxity_ms", "jitter_ms", "at_500_MHz", "at_1000_MHz"]
    rows = {" ".join(line.split()[:2]): line.split()[2:] for line in lines[1:]}
    assert len(rows) == 7
    for pair, row in rows.items():
        is_none = pair.endswith("none")
        assert row[:3] == power(NONE if is_none else STATIC)
        assert row[3] == ("1.0000" if is_none else "0.2214")  # 0.62/2.8
        # 2.5 or 1 ms of 4 are idle, up to the deadline; each response is the same.
        assert row[5:] == (["0", "0.6250", "2.5", "0", "0.0000", "1.0000"] if is_none
                           else ["0", "0.2500", "1", "0", "1.0000", "0.0000"])


def test_compare_with_measured_points(tmp_path: Path, capsys: Captured) -> None:
    """In 1665 ms, a hyperperiod, 1199.6 million cycles take 1.6 nJ each at 1000 MHz, and 1.125 nJ at 800 MHz."""
    (tmp_path / "board.toml").write_text(MEASURED)
    lines = printed(capsys, ["compare", "--board", tmp_path / "board.toml"]).splitlines()
    joules = [Fraction(1_199_600_000) * Fraction(cost) / 10**9 for cost in ("1.6", "1.125")]
    for line, each in zip(lines[1:3], joules):
        milliwatts = each * 1000 / Fraction(1665, 1000)
        assert line.split()[2:5] == [rounded(each), rounded(milliwatts), rounded(3700 / milliwatts)]
    assert lines[0].startswith("1665 ms ") and lines[2].split()[5] == "0.7031"  # 1.125/1.6


@pytest.fixture
def run(board: Path, capsys: Captured) -> Path:
    """A run of 8 ms of the board's files, which are in the folder `made`."""
    made = board.parent / "made"
    printed(capsys, ["design", "--board", board, *SCALE, "--folder", made])
    words = ["simulate", *options(made), "--scheduler", "edf", "--governor", "static", "--ticks", "8"]
    (board.parent / "run.trace").write_text(printed(capsys, words))
    return board.parent / "run.trace"


@pytest.mark.parametrize("scale", [SCALE, ["--folder", "made"]], ids=["given", "of the files"])
def test_statistics(scale: list[str], board: Path, run: Path, capsys: Captured,
                    monkeypatch: pytest.MonkeyPatch) -> None:
    """Two jobs of 3 ms, 1 ms before their deadlines. They take 3 million * 0.2 nJ, 75 mW in 8 ms; idle time 2.5 mW."""
    monkeypatch.chdir(board.parent)
    assert power(2 * JOB * LOW)[:2] == ["0.0006", "75"]
    lines = printed(capsys, ["statistics", "--board", board, *scale, "--trace", run]).splitlines()
    assert lines[0].split() == ["task", "jobs", "complete", "missed", "mean_response_ms", "greatest_response_ms",
                                "jitter_ms", "least_laxity_ms", "preemptions", "J", "mW"]
    assert lines[1].split() == ["a", "2", "2", "0", "3", "3", "0", "1", "0", "0.0006", "75"]
    assert lines[2:] == ["", "0.00062 joules in 8 ms", "77.5 milliwatts on average",
                         "12.9032 hours from 1000 milliwatt hours"]


def test_points_of_a_device_tree(tmp_path: Path, capsys: Captured) -> None:
    """The highest of 300 MHz has 360 mW, 1.2 nJ a cycle: ten jobs of 1.5 million cycles in 100 ms take 18 mJ."""
    (tmp_path / "board.toml").write_text(TREE)
    words = ["compare", "--board", str(tmp_path / "board.toml"), "--ms", "100", "--tick-ms", "0.5"]
    assert rtdvs.cli.main.main([*words, "--device-tree", str(TEST_DATA / "da850.dts")]) == 0
    out, err = capsys.readouterr()
    assert err.startswith("note: left out") and out.splitlines()[1].split()[2:5] == ["0.018", "180", "27.7778"]


def test_sensitivity(board: Path, capsys: Captured) -> None:
    """A job may have 4 ms at 1000 MHz, 4 million cycles, which is 2.666 of its 1.5 million; 375 MHz are enough."""
    words = ["sensitivity", "--board", board, "--tick-ms", "1", "--unit-cycles", "1000", "--test", "edf"]
    lines = printed(capsys, words).splitlines()
    assert [f"{line.split('  ')[0]}: {' '.join(line.split()[-2:])}" for line in lines] == [
        ": is limit", "all worst cases, times: 1 2.666", "task a, cycles: 1500000 4000000",
        "task a, ms at 1000 MHz: 1.5 4", "highest speed, MHz: 1000 375"]


def test_response(tmp_path: Path, capsys: Captured) -> None:
    """By hand at 1000 MHz: `control` takes 1.2 ms. Five jobs of it are released in the 22 ms that `decode` takes:
    16 + 5 * 1.2. In ticks of 0.1 ms these are 12 and 220, of 333; the period is rounded down to 33.3 ms.
    """
    (tmp_path / "board.toml").write_text(MEASURED)
    words: list[object] = ["response", "--board", tmp_path / "board.toml"]
    assert list(map(str.split, printed(capsys, words).splitlines())) == [
        ["task", "response_ms", "ticks", "period_ms", "laxity_ms"],
        ["control", "1.2", "12", "5", "3.8"],
        ["decode", "22", "220", "33.3", "11.3"]]
    # In ticks of 0.5 ms: `control` ends within its third tick, and `decode` at 22 ms, in 66 ticks, 33 ms.
    assert list(map(str.split, printed(capsys, [*words, "--tick-ms", "0.5"]).splitlines()))[1:] == [
        ["control", "1.5", "3", "5", "3.5"], ["decode", "22", "44", "33", "11"]]


@pytest.mark.parametrize(("words", "line"), [
    pytest.param(["--folder", "made"], "--folder needs --board", id="no board"),
    pytest.param(["--board", "board.toml", "--tasks", "t", "--machine", "m"], "give either --board or --tasks", id="both"),
    pytest.param(["--board", "late.toml"], "misses b 7 5\n  By the deadline of its first job, `b` and those before it "
                 "ask for 7 units; the highest speed does 5. ", id="late"),
])
def test_refusals_of_response(words: list[str], line: str, tmp_path: Path, capsys: Captured,
                              monkeypatch: pytest.MonkeyPatch) -> None:
    """By hand: in 5 ms at 1 MHz two jobs of a and one of b take 7000 cycles, in 4 ms one of each 5000."""
    monkeypatch.chdir(tmp_path)
    Path("board.toml").write_text(VOLTS)
    Path("late.toml").write_text(TASKS.format("a", 4, 2000) + TASKS.format("b", 5, 3000)
                                 + "[[point]]\nmhz = 1\nvolts = 1\n")
    scale = ["--tick-ms", "1", "--unit-cycles", "1000"]
    status, (out, err) = rtdvs.cli.main.main(["response", *words, *scale]), capsys.readouterr()
    assert (status, out) == (2, "") and f"rtdvs: {line}" in err


# Pictures

def test_picture_of_a_trace() -> None:
    pytest.importorskip("matplotlib")
    parsed = Board.parse(VOLTS)
    units = Units(parsed, design(parsed, Scale(Fraction(1, 2), Fraction(500))))
    trace = simulate(units.made.tasks, units.made.machine, "edf", 16, "static")
    found = seen_trace(trace, lambda figure: ([text.get_text() for text in texts(figure)], faults(figure)),
                       View(units=units))
    said = "\n".join(found[0])
    for part in ("edf, static: 8 ms", "energy of the run: 0.00062 J, 77.5 mW on average, 12.9032 hours of the battery",
                 "period 4 ms, worst 1500 kcycles", "MHz", "run (full height: 500)", "1500/1500", "375"):
        assert part in said, part
    assert found[1] == []


@pytest.fixture
def picture(board: Path, capsys: Captured) -> list[str]:
    """The words of a picture of 8 ms, in ticks of 0.5 ms: 500 MHz are 250 units a tick."""
    pytest.importorskip("matplotlib")
    made, trace = board.parent / "half", board.parent / "half.trace"
    printed(capsys, ["design", "--board", board, "--tick-ms", "0.5", "--unit-cycles", "1000", "--folder", made])
    words = ["simulate", *options(made), "--scheduler", "edf", "--governor", "static", "--ticks", "16"]
    trace.write_text(printed(capsys, words))
    return ["plot", "trace", *map(str, ("--board", board, "--folder", made, "--trace", trace)),
            "--output", str(board.parent / "a.svg")]


@pytest.mark.parametrize(("words", "title", "top"), [
    pytest.param(["--from", "1.5", "--to", "6.5", "--top", "1000"], "edf, static: ms 1.5 to 6.5 of 8", "1000", id="ticks"),
    pytest.param(["--from", "1.75", "--to", "6.1"], "edf, static: ms 1.5 to 6.5 of 8", "500", id="within ticks"),
    pytest.param(["--from", "0", "--to", "8", "--top", "700.5"], "edf, static: 8 ms", "702", id="all"),
])
def test_times_of_a_picture(words: list[str], title: str, top: str, picture: list[str], capsys: Captured,
                            monkeypatch: pytest.MonkeyPatch) -> None:
    """With a board they are milliseconds and MHz, of which each part of a tick counts, of 0.5 ms and 2 MHz here."""
    monkeypatch.setattr("rtdvs.plot.schedule.save", lambda figure, path, background: path.write_text(
        "\n".join(text.get_text() for text in texts(figure))))
    printed(capsys, [*picture, *words])
    said = Path(picture[-1]).read_text()
    assert title in said and f"run (full height: {top})" in said


@pytest.mark.parametrize(("words", "line"), [
    pytest.param(["--to", "8.5"], "--to has to be at most 8, the ms of the run", id="beyond the end"),
    pytest.param(["--from", "6", "--to", "6"], "--from has to be below 6", id="nothing"),
    pytest.param(["--top", "498"], "--top has to be at least 500, the fastest speed", id="too low"),
    pytest.param(["--charge", "0"], "--charge has no place beside --board, which has it", id="charge"),
    pytest.param(["--from", "-1"], "a whole number from 0 on, not -1", id="below 0"),
])
def test_refusals_of_a_picture(words: list[str], line: str, picture: list[str], capsys: Captured) -> None:
    assert line in refusal(capsys, [*picture, *words])


@pytest.mark.parametrize("usual", ["", "usual_cycles = 750_000\n"], ids=["worst", "usual"])
def test_picture_of_the_report(usual: str, board: Path, capsys: Captured) -> None:
    """A job takes 1.5 ms of 4 at 1000 MHz. Half of it at 500 MHz: 0.3 mJ, and 1.25 million idle cycles in 4 ms."""
    pytest.importorskip("matplotlib")
    parsed = Board.parse(VOLTS.replace("1500000\n", f"1500000\n{usual}"))
    made = design(parsed, choose_scale(parsed, Fraction(1), Fraction(1000)))

    def look(figure: Any) -> tuple[list[str], dict[str, float], list[str]]:
        bars = {str(bar.get_gid()): bar.get_width() for axes in figure.axes for bar in axes.patches}
        return [text.get_text() for text in texts(figure)], bars, faults(figure)

    said, bars, wrong = seen(rtdvs.plot.board, lambda path: save_report(parsed, made, run_ticks(made), path), look)
    assert "1.5 of 4 ms" in said and "77.5 mW, 12.9 h" in said and "350 mW, 2.86 h" in said
    assert bars["response-a"] == pytest.approx(1.5 / 4)
    assert bars["worst-edf-none"] == pytest.approx(350) and bars["worst-rm-cc"] == pytest.approx(77.5)
    assert len(bars) == (15 if usual else 8) and wrong == []
    if usual:
        half = 1000 * (JOB / 2 * LOW + 1_250_000 * LOW / 10) / Fraction(4, 1000)
        assert half == Fraction(175, 4) and bars["usual-edf-static"] == pytest.approx(float(half))
    path = board.parent / "report.png"
    assert "worst mW" in printed(capsys, ["design", "--board", board, "--report", "--picture", path])
    assert path.read_bytes()[:4] == b"\x89PNG"


def test_picture_of_a_comparison() -> None:
    pytest.importorskip("matplotlib")
    parsed = Board.parse(VOLTS)
    units = Units(parsed, design(parsed, Scale(Fraction(1), Fraction(1000))))
    rows = compare(Simulated(Path("simulated")), units.made.tasks, units.made.machine, 8)
    said, wrong = seen(rtdvs.plot.comparison, lambda path: save_compare(rows, path, units=units),
                       lambda figure: ([text.get_text() for text in texts(figure)], faults(figure)))
    assert said.count("77.5 mW, 12.9 h") == 5 and said.count("350 mW, 2.86 h") == 2
    assert {"500", "1000", "time at MHz"} <= {*said} and wrong == []


def test_missed_deadlines_in_a_picture() -> None:
    """At 1 unit a tick a has the ticks 0 to 3, 4 to 7 and 8 to 11, and b 3, 7 and 11. It needs 4 in each 6."""
    pytest.importorskip("matplotlib")
    tasks = TaskSet((Task("a", 4, 3), Task("b", 6, 4)))
    trace = simulate(tasks, Machine((Point(1, 1000),)), "rm", 12, "static", missed="drop")
    said, crosses = seen_trace(trace, lambda figure: ([text.get_text() for text in texts(figure)],
                                                      spots(figure.axes[0], "miss-b")))
    assert [x for x, _ in crosses] == [6, 12]
    assert "missed deadline" in said and "rm, static: 12 ticks, not a run of the program" in said
    assert any(text.startswith("deadlines missed: 2; late jobs are dropped") for text in said)


# What is refused

@pytest.mark.parametrize(("words", "line"), [
    pytest.param(["--tick-ms", "0.5", "--unit-cycles", "1000"],
                 "the trace isn't of this board where a tick is 0.5 ms, a unit 1000 cycles: line 5: the energy is ", id="another scale"),
    pytest.param(["--folder", "made", "--tick-ms", "0.5"], "a tick is 1 ms, a unit 1000 cycles, not 0.5",
                 id="another scale than that of the files"),
    pytest.param(["--tasks", "made/tasks.toml"], "give either --board or --tasks and --machine", id="both"),
    pytest.param(["--tick-ms", "0"], "--tick-ms has to be above 0", id="no tick"),
])
def test_refusals(words: list[str], line: str, board: Path, run: Path, capsys: Captured,
                  monkeypatch: pytest.MonkeyPatch) -> None:
    monkeypatch.chdir(board.parent)
    assert line in refusal(capsys, ["statistics", "--board", board, *words, "--trace", run])


@pytest.mark.parametrize("words", [["compare", "--ticks", "8", "--ms", "8"], ["compare", "--finer", "0"]], ids=repr)
def test_refusals_of_compare(words: list[str], board: Path, capsys: Captured) -> None:
    assert "either --ticks or --ms" in (said := refusal(capsys, [*words, "--board", board])) or "from 1 on" in said


def test_a_worst_case_above_its_period(tmp_path: Path, capsys: Captured) -> None:
    (tmp_path / "board.toml").write_text(TASKS.format("a", 4, 5_000_000) + "[[point]]\nmhz = 1000\nvolts = 1\n")
    assert refusal(capsys, ["compare", "--board", tmp_path / "board.toml"]) == (
        "rtdvs: board: task 1: the worst case takes 5 ms at 1000 MHz, the highest point, and the period is 4 ms\n")


def test_a_tree_whose_every_point_is_disabled(tmp_path: Path, capsys: Captured) -> None:
    points = "".join(f'opp-{hertz} {{ opp-hz = /bits/ 64 <{hertz}>; opp-microvolt = <900000>; status = "disabled"; }}; '
                     for hertz in (100_000_000, 200_000_000))
    (tmp_path / "off.dts").write_text(
        f'/dts-v1/; / {{ opp: opp-table {{ compatible = "operating-points-v2"; {points}}}; }};')
    (tmp_path / "board.toml").write_text(TASKS.format("a", 4, 1000))
    calls: list[list[object]] = [["compare", "--board", tmp_path / "board.toml"], ["design"]]
    for words in calls:
        assert refusal(capsys, [*words, "--device-tree", tmp_path / "off.dts"]) == (
            "rtdvs: device tree: no point of opp is left: opp-100000000 (disabled), opp-200000000 (disabled)\n")
