"""Each command, called once for each of its options: all that it prints, or writes, is compared.

The calls are made in the folder of the paper's example, OUT is an empty one, and the program is the package's
simulator. What is wanted is worked out by hand, or by functions that other tests check.
"""

import argparse
import os
import re
from collections.abc import Callable, Iterator
from concurrent.futures import ThreadPoolExecutor
from fractions import Fraction
from pathlib import Path
from typing import Any
from unittest.mock import Mock

import pytest

from rtdvs.cli import main as cli, options as commandline, serve
from rtdvs.cli.boards import add_board
from rtdvs.engine import Answer, Call
from rtdvs.export import events_text, vcd_text
from rtdvs.model import Demands, Machine, Point, Task, TaskSet
from rtdvs.plot import View, parse_means, save_compare, save_means, save_trace
from rtdvs.rules import simulate
from rtdvs.studies import (
    FIGURES, FINER, Listed, LogUniform, SetName, compare, exercise, figure_table, finer_energies, finer_table,
    paper_lines, paper_shares, published_sets, table, taken, taken_uniform, uunifast,
)
from rtdvs.studies import PAIRS, PAPER_EXAMPLE as CASE
from rtdvs.trace import Trace, csv_text
from rtdvs.web import LONGEST_CALL, PORT, Shown, in_one_file, page_data
from tests.shared.examples import (
    BOARD, DATA, MINE, PAPER, TEST_DATA, WORKED, Captured, explained, printed, refusal, version_1,
)
from tests.shared.simulated import Simulated

SIMULATED = Simulated(Path("simulated"))
SET = "--tasks tasks.toml --machine machine.toml"
NAMED = f"{SET} --demands demands.csv"
TRACE = "--trace edf_cc_with_demands.trace"
CHECKED = f"{SET} {TRACE}"
CC, NONE = (Trace.read(path) for path in (WORKED, WORKED.with_name("edf_none.trace")))
MY_SET = "[[task]]\nname = 'x'\nperiod = 2\nworst = 4\n"
MY_MACHINE = "idle = 10\n[[point]]\nspeed = 2\nmillivolts = 2\n[[point]]\nspeed = 3\nmillivolts = 3\n"
MINE_FILES = "--tasks OUT/my.toml --machine OUT/mine.toml"
TEMPLATES = f"{DATA}/templates/"
MEANS = "panel\tcurve\tutilisation\tsets\tmean\tlow\thigh\n" + "".join(
    f"{panel} tasks\tedf cc\t0.{tenth}\t9\t0.{tenth}\t0.1\t0.8\n" for panel in (5, 8, 10) for tenth in (2, 7))


@pytest.fixture(autouse=True)
def asked(monkeypatch: pytest.MonkeyPatch, tmp_path: Path) -> Iterator[list[tuple[Path | None, float | None]]]:
    """The folder, its files, and the programs and time limits that engines were asked for."""
    found: list[tuple[Path | None, float | None]] = []

    def find(program: Path | None, timeout: float | None) -> Simulated:
        found.append((program, timeout))
        return SIMULATED

    monkeypatch.setattr(commandline, "find_engine", find)
    monkeypatch.chdir(DATA / "paper")
    for name, text in {"my.toml": MY_SET, "mine.toml": MY_MACHINE, "mine.trace": MINE, "means.tsv": MEANS}.items():
        (tmp_path / name).write_text(text)
    yield found


# What is printed

def explanation(trace: Trace, verdict: str, text: str, *boards: str) -> str:
    """The explanations of a trace and the last line, whose counts are those of the text's lines."""
    lines = [line.split()[0] for line in text.splitlines()]
    jobs = f"{lines.count('release')} jobs released, {lines.count('done')} complete, {lines.count('speed')} decisions"
    energy = f"energy {trace.run_energy} running and {trace.idle_energy} idle"
    return "\n".join([*boards, f"{trace.ticks} ticks, {jobs}, {energy}: {verdict}", ""])


def worked(named: bool, quiet: bool = False) -> str:
    text = WORKED.read_text()
    boards = explained(PAPER, BOARD, CASE.demands if named else None, text)
    verdict = f"all as the rules say, with {'the demands of the file' if named else 'its own demands'}"
    return explanation(CC, verdict, text, *([] if quiet else boards))


def compared(ticks: int = 16, demands: bool = False, *traces: Trace) -> str:
    rows = compare(SIMULATED, PAPER, BOARD, ticks, CASE.demands if demands else None, traces)
    return table(rows)


def with_finer(*times: int) -> str:
    rows = compare(SIMULATED, PAPER, BOARD, 16, CASE.demands)
    finer = {each: finer_energies(SIMULATED, CASE, each) for each in times}
    return f"{table(rows)}\n{finer_table(rows[:len(PAIRS)], finer)}"


def limits(all_: int, worsts: tuple[int, int, int], speed: int) -> str:
    """The limits of the paper's set, which test_sensitivity.py works out, in columns for their widths."""
    tasks = "".join(f"{task.name}               work units      {task.worst:2} {most:6}\n" for task, most in zip(PAPER, worsts))
    return ("of               in             now  limit\n"
            f"all worst cases  thousandths   1000   {all_}\n{tasks}highest speed    units a tick     4      {speed}\n")


def of_ticks(scheduler: str, governor: str, ticks: int = 16) -> str:
    return version_1(simulate(PAPER, BOARD, scheduler, ticks, governor).text())


def seven(**changes: str) -> str:
    return exercise(SIMULATED, 7, **changes).question()


def page(*names: str, most: int = 8, demands: bool = False) -> str:
    texts = {label: (DATA / "paper" / name).read_text() for label, name in zip("AB" if names[1:] else [""], names)}
    return in_one_file(page_data(texts, Shown(PAPER, BOARD, CASE.demands if demands else None, most)))


# The responses of the first jobs are 8/3, 4 and 6 ticks. Those of the second ones, of 4 units each, are 4/3 at speed 3
# and twice 2 at speed 2. The energies are those of the lines.
STATISTICS = """\
task  jobs  complete  missed  mean_response  greatest_response  jitter  least_laxity  preemptions        energy
t1       2         2       0         2.0000             2.6667  1.3333        5.3333            0  {}
t2       2         2       0         3.0000             4.0000  2.0000        6.0000            0  {}
t3       2         2       0         4.0000             6.0000  4.0000        8.0000            0  {}
"""


def statistics() -> str:
    runs = [line.split() for line in WORKED.read_text().splitlines() if line.startswith("run ")]
    return STATISTICS.format(*(f"{sum(int(run[-1]) for run in runs if run[3] == task.name):12}" for task in PAPER))


def u(count: int = 3, share: Fraction = Fraction(7, 10), seed: int = 5,
      periods: Listed | LogUniform = LogUniform(), top: int = 1000) -> str:
    return uunifast(count, share, seed, periods, top).text()


def published(count: int = 5, tenths: int = 2, number: int = 3, sets: int = 4, seed: int = 2001) -> str:
    sought = SetName(count, tenths, number)
    return next(tasks for name, tasks in published_sets(sets, seed) if name == sought).text()


U = "generate uunifast --count 3 --utilisation 0.7 --seed 5"
P = "generate published --count 5 --tenths 2 --number 3 --sets 4"
PRINTED: list[tuple[str, Callable[[], str]]] = [
    (f"explain {SET} {TRACE}", lambda: worked(named=False)),
    (f"explain {NAMED} {TRACE}", lambda: worked(named=True)),
    (f"explain {NAMED} {TRACE} --quiet", lambda: worked(named=True, quiet=True)),
    (f"explain {MINE_FILES} --trace OUT/mine.trace --any --quiet",
     lambda: explanation(Trace.parse(MINE), "legal, with its own demands", MINE)),
    *((f"simulate {SET} --scheduler {pair[0]} --governor {pair[1]} --ticks 16",
       lambda pair=pair: of_ticks(*pair)) for pair in PAIRS),
    (f"simulate {SET} --scheduler edf --governor cc --ticks 9", lambda: of_ticks("edf", "cc", 9)),
    (f"simulate {NAMED} --scheduler rm --governor cc --ticks 16",
     lambda: version_1(simulate(PAPER, BOARD, "rm", 16, "cc", CASE.demands).text())),
    (f"simulate {NAMED} --scheduler rm --governor cc --ticks 16 --format 2",
     lambda: simulate(PAPER, BOARD, "rm", 16, "cc", CASE.demands).text()),
    (f"statistics {CHECKED}", statistics),
    (f"compare {SET} --ticks 16", compared),
    (f"compare {SET} --ticks 30 --jobs 2", lambda: compared(30)),
    (f"compare {NAMED} --ticks 16", lambda: compared(16, True)),
    (f"compare {NAMED} --ticks 16 {TRACE} edf_none.trace", lambda: compared(16, True, CC, NONE)),
    (f"compare {NAMED} --ticks 16 --finer 1 3", lambda: with_finer(1, 3)),
    (f"sensitivity {SET}", lambda: limits(1250, (20, 22, 18), 3)),
    (f"sensitivity {SET} --test edf", lambda: limits(1250, (20, 22, 18), 3)),
    (f"sensitivity {SET} --test rm --jobs 2", lambda: limits(1000, (14, 14, 8), 4)),
    (f"sensitivity {SET} --test response", lambda: limits(1083, (16, 16, 8), 4)),
    (U, u),
    (U.replace("--count 3", "--count 4"), lambda: u(count=4)),
    (U.replace("0.7", "3/10"), lambda: u(share=Fraction(3, 10))),
    (U.replace("--seed 5", "--seed 6"), lambda: u(seed=6)),
    (f"{U} --top 77", lambda: u(top=77)),
    (f"{U} --periods 20 25 40", lambda: u(periods=Listed((20, 25, 40)))),
    (f"{U} --low 100", lambda: u(periods=LogUniform(low=100))),
    (f"{U} --high 100", lambda: u(periods=LogUniform(high=100))),
    (f"{U} --multiple 5040", lambda: u(periods=LogUniform(multiple=5040))),
    (P, published),
    (P.replace("--count 5", "--count 8"), lambda: published(count=8)),
    (P.replace("--tenths 2", "--tenths 9"), lambda: published(tenths=9)),
    (P.replace("--number 3", "--number 4"), lambda: published(number=4)),
    (P.replace("--sets 4", "--sets 9"), lambda: published(sets=9)),
    (P.replace("--tenths 2", "--tenths 1").replace(" --sets 4", ""), lambda: published(tenths=1, sets=100)),
    (f"{P} --seed 3", lambda: published(seed=3)),
    ("generate demands --tasks tasks.toml --ticks 30 --share 0.5", lambda: taken(PAPER, Fraction(1, 2), 30).text()),
    ("generate demands --tasks tasks.toml --ticks 16 --share 1", lambda: taken(PAPER, Fraction(1), 16).text()),
    ("generate demands --tasks tasks.toml --ticks 30 --seed 4", lambda: taken_uniform(PAPER, 4, 30).text()),
    ("generate exercise --folder OUT --seed 7", seven),
    ("generate exercise --folder OUT --seed 7 --scheduler rm", lambda: seven(scheduler="rm")),
    ("generate exercise --folder OUT --seed 7 --governor la", lambda: seven(governor="la")),
    ("paper-table", lambda: lines_of_the_paper(*FINER)),
    ("paper-table --finer 3 5 --jobs 2", lambda: lines_of_the_paper(3, 5)),
    (f"convert --to chrome {CHECKED}", lambda: events_text(CC)),
    (f"convert --to vcd {CHECKED}", lambda: vcd_text(CC)),
    (f"convert --to csv {CHECKED}", lambda: csv_text(CC, "segments")),
    *((f"convert --to csv {CHECKED} --table {name}", lambda name=name: csv_text(CC, name))
      for name in ("segments", "jobs", "decisions")),
    (f"convert --to csv --table jobs --charge 5 --trace {TEMPLATES}edf_cc_with_demands.trace "
     f"--machine {TEMPLATES}machine.toml",
     lambda: csv_text(template(), "jobs", 5)),
    (f"convert --to csv --table jobs --trace {TEMPLATES}edf_cc_with_demands.trace --tasks {TEMPLATES}tasks.toml "
     f"--machine {TEMPLATES}machine.toml", lambda: csv_text(template(), "jobs", 1)),
    (f"page edf_none.trace {SET}", lambda: page("edf_none.trace")),
    (f"page edf_none.trace edf_none.trace {SET}", lambda: page("edf_none.trace", "edf_none.trace")),
    (f"page edf_cc_with_demands.trace {NAMED}", lambda: page(WORKED.name, demands=True)),
    (f"page edf_none.trace {SET} --most 0", lambda: page("edf_none.trace", most=0)),
]


def lines_of_the_paper(*times: int) -> str:
    return "\n".join([*paper_lines((each, paper_shares(SIMULATED, each)) for each in times), ""])


def template() -> Trace:
    return Trace.read(Path(TEMPLATES, "edf_cc_with_demands.trace"))


@pytest.mark.parametrize(("words", "wanted"), [
    pytest.param(*row, id=row[0].replace(f"{DATA}/", "")) for row in PRINTED])
def test_all_that_a_command_prints(words: str, wanted: Callable[[], str], tmp_path: Path, capsys: Captured) -> None:
    assert printed(capsys, words.replace("OUT", str(tmp_path)).split()) == wanted()


@pytest.mark.parametrize("path", sorted((DATA / "paper").glob("*_*.trace")), ids=lambda path: str(path.stem))
def test_a_simulated_run_is_that_of_the_program(path: Path, capsys: Captured) -> None:
    """The stored traces are the program's own."""
    scheduler, governor, *named = path.stem.split("_", 2)
    words = f"simulate {NAMED if named else SET} --scheduler {scheduler} --governor {governor} --ticks 16"
    assert printed(capsys, words.split()) == path.read_text()


def test_the_stored_comparison(capsys: Captured) -> None:
    found = printed(capsys, f"compare {NAMED} --ticks 16".split())
    assert [line.split() for line in found.splitlines()] == [
        line.split() for line in (TEST_DATA / "compared.txt").read_text().splitlines()]


# What is written

def pictured(view: View = View(), width: int = 1000, background: str = "none") -> Callable[[Path], None]:
    return lambda path: save_trace(CC, path, view, width, background)


def pairs(ticks: int = 16, demands: bool = False, background: str = "none") -> Callable[[Path], None]:
    rows = compare(SIMULATED, PAPER, BOARD, ticks, CASE.demands if demands else None)
    return lambda path: save_compare(rows, path, background)


def means(columns: int = 3, background: str = "none") -> Callable[[Path], None]:
    return lambda path: save_means(parse_means(MEANS), path, columns, background)


def text(made: Callable[[], str]) -> Callable[[Path], None]:
    def write(path: Path) -> None:
        path.write_text(made())
    return write


PLOT = f"plot trace {CHECKED}"
WRITTEN: list[tuple[str, str, Callable[[], Callable[[Path], None]]]] = [
    (PLOT, "a.svg", pictured),
    (PLOT, "a.pdf", pictured),
    (PLOT, "a.PNG", pictured),
    (f"{PLOT} --from 3", "a.svg", lambda: pictured(View(first=3))),
    (f"{PLOT} --to 9", "a.svg", lambda: pictured(View(last=9))),
    (f"{PLOT} --top 8", "a.svg", lambda: pictured(View(top=8))),
    (f"{PLOT} --width 500", "a.svg", lambda: pictured(width=500)),
    (f"{PLOT} --background #123456", "a.svg", lambda: pictured(background="#123456")),
    (f"plot trace {MINE_FILES} --trace OUT/mine.trace --charge 2", "a.svg",
     lambda: lambda path: save_trace(Trace.parse(MINE), path, View(charge=2))),
    (f"plot compare {SET} --ticks 16", "a.svg", pairs),
    (f"plot compare {SET} --ticks 31", "a.svg", lambda: pairs(31)),
    (f"plot compare {NAMED} --ticks 16", "a.svg", lambda: pairs(demands=True)),
    (f"plot compare {SET} --ticks 16 --background red", "a.svg", lambda: pairs(background="red")),
    ("plot evaluation --table OUT/means.tsv", "a.svg", means),
    ("plot evaluation --table OUT/means.tsv --columns 2", "a.svg", lambda: means(columns=2)),
    ("plot evaluation --table OUT/means.tsv --background red", "a.svg", lambda: means(background="red")),
    (f"convert --to vcd {CHECKED}", "a.vcd", lambda: text(lambda: vcd_text(CC))),
    (U, "a.toml", lambda: text(u)),
    (P, "a.toml", lambda: text(published)),
    ("generate demands --tasks tasks.toml --ticks 30 --seed 4", "a.csv",
     lambda: text(lambda: taken_uniform(PAPER, 4, 30).text())),
    (f"page edf_none.trace {SET}", "a.html", lambda: text(lambda: page("edf_none.trace"))),
]


@pytest.mark.parametrize(("words", "name", "made"), [
    pytest.param(*row, id=f"{row[0]} {row[1]}") for row in WRITTEN])
def test_all_that_a_command_writes(words: str, name: str, made: Callable[[], Callable[[Path], None]], tmp_path: Path,
                                   capsys: Captured) -> None:
    """It prints nothing then."""
    if words.startswith("plot"):
        pytest.importorskip("matplotlib")
    found, wanted = tmp_path / f"found_{name}", tmp_path / f"wanted_{name}"
    assert printed(capsys, [*words.replace("OUT", str(tmp_path)).split(), "--output", found]) == ""
    made()(wanted)
    assert found.read_bytes() == wanted.read_bytes()


# Traces that aren't checked

UNCHECKED = [f"statistics --tasks tasks.toml {TRACE} --unchecked", f"convert --to csv {TRACE} --unchecked",
             f"plot trace {TRACE} --output OUT/a.svg --unchecked", f"compare {SET} --ticks 16 {TRACE} --unchecked"]


@pytest.mark.parametrize("words", UNCHECKED)
def test_what_is_not_checked_is_said(words: str, tmp_path: Path, capsys: Captured) -> None:
    """Without that option the commands that have no machine refuse it."""
    if words.startswith("plot"):
        pytest.importorskip("matplotlib")
    words = words.replace("OUT", str(tmp_path))
    assert cli.main(words.split()) == 0
    assert capsys.readouterr().err == "note: the trace is not checked\n"
    if "--machine" not in words:
        files = "--machine" if "--tasks" in words else "--tasks and --machine"
        line = f"rtdvs: give {files}, by which the trace is checked, or --unchecked\n"
        assert refusal(capsys, words.replace(" --unchecked", "").split()) == line


@pytest.mark.parametrize("command", [
    "statistics", "convert --to csv", "convert --to vcd --output OUT/a", "plot trace --output OUT/a.svg",
    "compare --ticks 16"])
def test_no_number_of_a_wrong_trace(command: str, tmp_path: Path, capsys: Captured) -> None:
    """The first decision has another demand: all energies are right, and so is the machine."""
    if command.startswith("plot"):
        pytest.importorskip("matplotlib")
    wrong = tmp_path / "wrong.trace"
    wrong.write_text(WORKED.read_text().replace("836/280", "835/280"))
    words = f"{command} {SET} --trace {wrong}".replace("OUT", str(tmp_path)).split()
    assert "line 6: the demand is 836/280" in refusal(capsys, words)
    assert not (tmp_path / "a").exists() and not (tmp_path / "a.svg").exists()
    assert cli.main([*words, "--unchecked"]) == 0


def test_a_pipe_is_read_once(tmp_path: Path, capsys: Captured) -> None:
    pipe = tmp_path / "pipe"
    os.mkfifo(pipe)
    with ThreadPoolExecutor(1) as writer:
        writer.submit(pipe.write_text, WORKED.read_text())
        assert printed(capsys, f"statistics {SET} --trace {pipe}".split()) == statistics()


def test_a_set_that_is_denied_is_checked(tmp_path: Path, capsys: Captured) -> None:
    """EDF denies the set, and no job is late in the trace of another governor's name or of its own."""
    tasks, machine = TaskSet((Task("a", 4, 9),)), Machine((Point(2, 1000),))
    tasks.write(tmp_path / "tasks.toml")
    machine.write(tmp_path / "machine.toml")
    trace = simulate(tasks, machine, "edf", 4, "none", Demands({("a", 1): 8}))
    (tmp_path / "a.trace").write_text(trace.text())
    words = [f"--{kind}={tmp_path}/{kind}.toml" for kind in ("tasks", "machine")]
    assert "a        1         1       0         4.0000" in printed(capsys, ["statistics", *words, f"--trace={tmp_path}/a.trace"])


def test_the_files_of_an_exercise(tmp_path: Path, capsys: Captured) -> None:
    found, wanted = tmp_path / "found", tmp_path / "wanted"
    printed(capsys, ["generate", "exercise", "--seed", "7", "--governor", "la", "--folder", found])
    exercise(SIMULATED, 7, governor="la").write(wanted)
    assert {path.name: path.read_text() for path in found.iterdir()} == {
        path.name: path.read_text() for path in wanted.iterdir()}


# Grades

GRADES = f"explain {NAMED} {TRACE} --grade OUT/handed --csv OUT/grades.csv"


def test_grades_are_printed_and_written(tmp_path: Path, capsys: Captured) -> None:
    """A line less is found in the line after it; what is no trace is named. The status is 1 if one is wrong."""
    words, folder = GRADES.replace("OUT", str(tmp_path)).split(), tmp_path / "handed"
    folder.mkdir()
    assert refusal(capsys, words).endswith("handed: no file there has a name that ends with .trace\n")
    (folder / "anna.trace").write_text(WORKED.read_text())
    head = "file        lines    right  decisions    right  first fault\nanna.trace  33/33  100.0 %        8/8  100.0 %  none\n"
    assert printed(capsys, words) == head
    (folder / "ben.trace").write_text(WORKED.read_text().replace("speed 3 3 696/280\n", ""))
    (folder / "notes.txt").touch()
    assert (cli.main(words), *capsys.readouterr()) == (
        1, f"{head}ben.trace   32/33   97.0 %        7/8   87.5 %  line 10: the decision at tick 3 is missing\n",
        "note: these have no name that ends with .trace: notes.txt\n")
    assert (tmp_path / "grades.csv").read_text().splitlines()[2] == (
        "ben.trace,32,33,0.9697,7,8,0.8750,10,the decision at tick 3 is missing,")


@pytest.mark.parametrize(("words", "line"), [
    (SET, "give --trace or --grade"), (f"{SET} {TRACE} --csv OUT/a", "--csv needs --grade"),
    (f"{SET} --grade OUT --any", "--grade takes neither --any nor --quiet"),
    (f"{SET} --grade OUT --trace OUT/mine.trace", "--trace isn't a right trace: line 2: no scheduler and governor edf mine"),
    (f"{SET} --grade OUT/absent", "absent: no such folder")])
def test_what_isnt_graded(words: str, line: str, tmp_path: Path, capsys: Captured) -> None:
    assert line in refusal(capsys, f"explain {words}".replace("OUT", str(tmp_path)).split())


def test_a_misspelled_line_is_quoted(tmp_path: Path, capsys: Captured) -> None:
    (tmp_path / "a.trace").write_text(WORKED.read_text().replace("done 2:2", "done 2.67"))
    status = cli.main(f"explain {SET} --quiet --trace {tmp_path}/a.trace".split())
    assert (status, *capsys.readouterr()) == (1, "", "line 8: not a line of a trace\n"
        '  it is "done 2.67 t1 1 8", and not done TICK:UNITS TASK JOB UNITS in whole numbers\n')


# The evaluation

# A run of one job at one speed for all 720720 ticks: the voltages are 5, 4 and 3 V.
FLAT = {"none": (100_000, 5000), "static": (75_000, 4000), "cc": (50_000, 3000), "la": (50_000, 3000)}


class Flat(Simulated):
    """A program whose runs have one job and one speed. Its bound is half of the least energy."""

    bound = Fraction(1, 2)

    def answer(self, call: Call[Any]) -> Answer:
        if call.command == "least":
            bound = energy_at("cc") * self.bound
            return Answer(0, f"least 1 0 720720 1 0 {int(bound)}\nprices 1 plus 0\n".encode(), b"")
        governor = dict(call.options)["--governor"]
        speed, _ = FLAT[governor]
        energy, units = energy_at(governor), speed * 720720
        return Answer(0, f"trace 2\nplan edf {governor} 720720\ntask t1 720720 0 {units}\nrelease 0 t1 1\n"
                         f"speed 0 {speed} {speed}/1\nrun 0:0 720720:0 t1 1 {units} {energy}\n"
                         f"done 720720:0 t1 1 {units}\nenergy t1 {energy}\nend 720720 {energy} 0\n".encode(), b"")


class High(Flat):
    """Its bound is twice the least energy."""

    bound = Fraction(2)


def energy_at(governor: str) -> int:
    speed, millivolts = FLAT[governor]
    return speed * 720720 * millivolts**2 * 1000


EVALUATE = "evaluate --folder OUT/sweep --sets 1 --counts 5 --utilisations 0.8"
EVALUATIONS = [
    (EVALUATE, "1 published", ["5_8_1"], 8),
    (EVALUATE.replace("--sets 1", "--sets 2"), "2 published", ["5_8_1", "5_8_2"], 16),
    (EVALUATE.replace("--counts 5", "--counts 10 15"), "1 published", ["10_8_1", "15_8_1"], 16),
    (EVALUATE.replace("0.8", "0.1 1"), "1 published", ["5_10_1", "5_1_1"], 16),
    (f"{EVALUATE} --draws uunifast --jobs 2", "1 uunifast", ["5_8_1"], 8),
]


@pytest.mark.parametrize(("words", "said", "names", "lines"), [pytest.param(*row, id=row[0]) for row in EVALUATIONS])
def test_what_an_evaluation_runs(words: str, said: str, names: list[str], lines: int, tmp_path: Path, capsys: Captured,
                                 monkeypatch: pytest.MonkeyPatch) -> None:
    monkeypatch.setattr(commandline, "find_engine", lambda *words: Flat(Path("flat")))
    assert printed(capsys, words.replace("OUT", str(tmp_path)).split()) == (
        f"{lines} lines, {lines // 8} groups, 0 denied under RM, 0 faults\n")
    assert (tmp_path / "sweep" / "sweep").read_text() == f"{said} sets a point by seed 2001\n"
    assert sorted(path.name for path in (tmp_path / "sweep" / "results").iterdir()) == [f"{name}.tsv" for name in names]


def test_the_tables_of_an_evaluation(tmp_path: Path, capsys: Captured, monkeypatch: pytest.MonkeyPatch) -> None:
    """The energy of a unit is as the square of the voltage, and a speed does units in proportion to itself."""
    monkeypatch.setattr(commandline, "find_engine", lambda *words: Flat(Path("flat")))
    printed(capsys, EVALUATE.replace("OUT", str(tmp_path)).split())
    share = {"none": Fraction(1), "static": Fraction(75 * 16, 100 * 25), "cc": Fraction(50 * 9, 100 * 25)}
    found = {" ".join(pair): share["cc" if pair[1] == "la" else pair[1]] for pair in PAIRS} | {"bound": share["cc"] / 2}
    places = {(5, "table1_idle0", "1", curve, 8): [value] for curve, value in found.items()}
    assert {path.stem: path.read_text() for path in (tmp_path / "sweep").glob("*.tsv")} == {
        figure: figure_table(panels, places) for figure, panels in FIGURES.items()}


OWN = ("evaluate --folder OUT/sweep --sets 1 --counts 1 --utilisations 0.5 --machine OUT/mine.toml --scheduler edf "
       "--governor OUT/governor.py:full --traces OUT/other")


def test_an_evaluation_of_one_s_own(tmp_path: Path, capsys: Captured, monkeypatch: pytest.MonkeyPatch) -> None:
    """The traces are asked for with their task files; the governor's and theirs are those of the highest speed."""
    monkeypatch.setattr("rtdvs.cli.options.processes_of", lambda args: ThreadPoolExecutor(1))
    (tmp_path / "governor.py").write_text("def full(view): return view.plan.machine.top_speed\n")
    words, trace = OWN.replace("OUT", str(tmp_path)).split(), tmp_path / "other" / "mine" / "1_5_1.trace"
    assert refusal(capsys, words) == (
        f"rtdvs: {trace} is missing; its task file is there: runs of 720720 ticks under edf\n")
    two = ["0.5", *(word for word in "0.6 0.7".split())]
    assert refusal(capsys, [*words[:words.index("0.5")], *two, *words[words.index("0.5") + 1:]]) == (
        f"rtdvs: {trace} is missing, and 2 more; the task file of each is there: runs of 720720 ticks under edf\n")
    machine = Machine.parse(MY_MACHINE)
    trace.write_text(simulate(TaskSet.read(trace.with_suffix(".toml")), machine, "edf", 720720, "none").text())
    assert printed(capsys, words) == "10 lines, 1 groups, 0 denied under RM, 0 faults\n"
    rows = [line.split("\t") for line in (tmp_path / "sweep" / "own.tsv").read_text().splitlines()]
    assert [row[:5] for row in rows if row[2:4] == ["0.5", "1"] and row[4] == "1.0000"] == [
        ["1 tasks, mine", curve, "0.5", "1", "1.0000"] for curve in ("edf none", "rm none", "edf full", "edf other")]
    (tmp_path / "governor.py").write_text("def full(view): raise ValueError('no speed')\n")
    assert "it has results of" in refusal(capsys, words)
    words[2] = str(tmp_path / "again")
    assert refusal(capsys, words) == (
        "rtdvs: governor full at tick 0: ValueError: no speed\n")


def test_wrong_results_are_printed(tmp_path: Path, capsys: Captured, monkeypatch: pytest.MonkeyPatch) -> None:
    """The bound has 0.36 of the energy of `none`, `static` 0.48, and the others 0.18."""
    monkeypatch.setattr(commandline, "find_engine", lambda *words: High(Path("high")))
    status = cli.main(EVALUATE.replace("OUT", str(tmp_path)).split())
    low = [" ".join(pair) for pair in PAIRS if pair[1] in ("cc", "la")]
    below = "".join(f"5_8_1 table1_idle0 1: {pair}: below the bound\n" for pair in low)
    assert (status, *capsys.readouterr()) == (2, f"{below}8 lines, 1 groups, 0 denied under RM, 3 faults\n", "")


# The program, and the server

@pytest.mark.parametrize("words", [
    f"compare {SET} --ticks 16", f"sensitivity {SET} --test edf", "generate exercise --seed 7 --folder OUT",
    "paper-table --finer 3", f"plot compare {SET} --ticks 16 --output OUT/a.svg"])
def test_the_program_and_its_time(words: str, tmp_path: Path, capsys: Captured,
                                  asked: list[tuple[Path | None, float | None]]) -> None:
    if words.startswith("plot"):
        pytest.importorskip("matplotlib")
    words = words.replace("OUT", str(tmp_path))
    for options, wanted in (("", (None, None)), (" --program a/b --timeout 2.5", (Path("a/b"), 2.5))):
        printed(capsys, f"{words}{options}".split())
        assert {*asked} == {wanted}
        asked.clear()


@pytest.mark.parametrize(("words", "wanted", "engine"), [
    ("serve", PORT, (None, LONGEST_CALL)), ("serve --port 0", 0, (None, LONGEST_CALL)),
    ("serve --port 65535 --program a --timeout 3", 65535, (Path("a"), 3.0))], ids=str)
def test_serve(words: str, wanted: int, engine: tuple[Path | None, float | None], capsys: Captured,
               asked: list[tuple[Path | None, float | None]], monkeypatch: pytest.MonkeyPatch) -> None:
    """It prints its address before it serves."""
    served: list[object] = []

    class Stub:
        def __init__(self, port: int, engine: object) -> None:
            self.address = f"http://127.0.0.1:{port}/"
            served.append((port, engine))

        def __enter__(self) -> "Stub":
            return self

        def __exit__(self, *faults: object) -> None:
            served.append("closed")

        def serve_forever(self) -> None:
            served.append(capsys.readouterr().out)

    monkeypatch.setattr(serve, "PageServer", Stub)
    monkeypatch.setattr("signal.signal", Mock())
    assert printed(capsys, words.split()) == ""
    line = f"http://127.0.0.1:{wanted}/ for browsers on this machine only; Ctrl and C end it\n"
    assert served == [(wanted, SIMULATED), line, "closed"] and asked == [engine]


# What has to be given

@pytest.mark.parametrize(("words", "missing"), [
    ("explain", "--tasks, --machine"),
    ("simulate", "--tasks, --machine, --scheduler, --governor, --ticks"),
    ("statistics", "--tasks, --trace"),
    ("compare", "--tasks, --machine, --ticks"),
    ("sensitivity", "--tasks, --machine"),
    ("generate", "KIND"),
    ("generate uunifast", "--count, --utilisation, --seed"),
    ("generate published", "--count, --tenths, --number"),
    ("generate demands", "--tasks, --ticks"),
    ("generate demands --tasks tasks.toml --ticks 3", None),
    ("generate exercise", "--seed, --folder"),
    ("evaluate", "--folder"),
    ("plot", "PICTURE"),
    ("plot trace", "--trace, --output"),
    ("plot compare", "--tasks, --machine, --ticks, --output"),
    ("plot evaluation", "--table, --output"),
    ("convert", "--to, --trace"),
])
def test_what_has_to_be_given(words: str, missing: str | None, capsys: Captured) -> None:
    line = "one of the arguments --share --seed is required" if missing is None else (
        f"the following arguments are required: {missing}")
    assert refusal(capsys, words.split()).endswith(f": error: {line}\n")


@pytest.mark.parametrize(("words", "line"), [
    pytest.param("page", "a trace or two, or --lesson", id="nothing"),
    pytest.param("page a.trace", "a page of traces needs --tasks", id="no tasks"),
    pytest.param("page a.trace --tasks t.toml", "a page of traces needs --machine", id="no machine"),
    pytest.param("page a.trace b.trace c.trace", "3 traces, at most 2", id="three traces"),
    pytest.param("page a.trace --lesson l.toml", "--lesson names its files, so a trace has no place beside it", id="both"),
])
def test_what_a_page_needs(words: str, line: str, capsys: Captured) -> None:
    assert refusal(capsys, words.split()) == f"rtdvs: {line}\n"


# The options of each command

def option_words(parser: argparse.ArgumentParser, path: tuple[str, ...] = ()) -> Iterator[tuple[str, str]]:
    """The commands, and those below them, with their options."""
    for action in parser._actions:
        if isinstance(action, argparse._SubParsersAction):
            for name, inner in action.choices.items():
                yield from option_words(inner, (*path, name))
        elif action.option_strings and action.dest != "help":
            yield " ".join(path), action.option_strings[-1]


WITH_BOARDS = {"compare", "statistics", "response", "sensitivity", "plot trace", "plot compare", "page"}


def test_each_option_is_in_a_row() -> None:
    """tests/board calls `design`, test_boards.py has those of a board, tests/rules/test_missed.py `--missed`, tests/web `--lesson`."""
    boards = argparse.ArgumentParser()
    add_board(boards)
    called = [*(words for words, _ in PRINTED), *(f"{words} --output" for words, *_ in WRITTEN),
              *(words for words, *_ in EVALUATIONS), GRADES, OWN, *UNCHECKED, "serve --port"]
    shared = {"--program", "--timeout", "--version"}
    of_boards = {"--ms", *(option for _, option in option_words(boards))}
    called.append("response --tasks --machine")    # test_program.py calls the program
    for command, option in option_words(cli.parser()):
        if command in WITH_BOARDS and option in of_boards or option in ("--missed", "--lesson"):
            continue
        assert command == "design" or option in shared or any(
            re.match(f"{command} ", words) and option in words.split() for words in called), (command, option)
