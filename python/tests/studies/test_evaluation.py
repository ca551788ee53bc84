"""The evaluation: what its tables are made of, and a sweep that is stopped."""

import re
import shutil
from concurrent.futures import ThreadPoolExecutor
from dataclasses import replace
from fractions import Fraction
from pathlib import Path
from typing import Any, ClassVar

import pytest
from hypothesis import given
from hypothesis import strategies as st

from rtdvs.cli.main import main
from rtdvs.engine import Answer, Call, Engine, RunTotals
from rtdvs.errors import BadValue, Crashed, Denied
from rtdvs.model import Machine, Task, TaskSet
from rtdvs.studies import (
    CURVES, FIGURES, MACHINES, PAIRS, Record, SetName, Sweep, broken, evaluate, faults, figure_table, finished, measure,
    panels_of, point, published_sets, read_records, recount, shares, summary, units_at_top, units_of,
)
from rtdvs.studies.evaluation import demands_of
from tests.shared.examples import MINE, MY_BOARD, TOP, Captured, machines, printed, task_sets, version_1

NAME = SetName(8, 7, 1)
SMALL = Sweep("published", 1, counts=(5,), tenths=(1, 9))


# Speeds are shares of 100,000 units per tick, voltages those of the publication.
FIRST = ((50_000, 3000), (75_000, 4000), (100_000, 5000))
SECOND = ((50_000, 3000), (75_000, 4000), (83_000, 4500), (100_000, 5000))
THIRD = ((36_000, 1400), (55_000, 1500), (64_000, 1600), (73_000, 1700), (82_000, 1800), (91_000, 1900), (100_000, 2000))


@pytest.mark.parametrize(("name", "points", "idle"), [
    *(pytest.param(f"table1_idle{idle}", FIRST, idle, id=f"idle {idle}") for idle in (0, 10, 100, 1000)),
    pytest.param("table2_idle0", SECOND, 0, id="second"), pytest.param("table3_idle0", THIRD, 0, id="third")])
def test_machines_of_the_publication(name: str, points: tuple[tuple[int, int], ...], idle: int) -> None:
    machine = MACHINES[name]
    assert [(point.speed, point.millivolts) for point in machine.points] == [*points]
    assert (machine.idle, machine.charge, len(MACHINES)) == (idle, 0, 6)


def records(name: SetName = NAME, **energies: Fraction | int | None) -> list[Record]:
    """A whole group of runs: EDF with `none` has 100, the bound 50 and the others 80."""
    usual = dict.fromkeys(CURVES, 80) | {"edf none": 100, "bound": 50}
    given = {curve: energies.get(curve.replace(" ", "_"), energy) for curve, energy in usual.items()}
    return [Record(name, "table1_idle0", "1", curve, None if energy is None else Fraction(energy))
            for curve, energy in given.items()]


def test_right_results_have_no_faults() -> None:
    right = records(rm_static=None)
    assert list(faults(right)) == []
    assert summary(right, []) == "8 lines, 1 groups, 1 denied under RM, 0 faults"


@pytest.mark.parametrize(("wrong", "reason"), [
    pytest.param(records(edf_la=49), "8_7_1 table1_idle0 1: edf la: below the bound", id="below the bound"),
    pytest.param(records(edf_cc=101), "8_7_1 table1_idle0 1: edf cc: above EDF with none", id="above the highest speed"),
    pytest.param(records(edf_cc=None), "8_7_1 table1_idle0 1: edf cc: it is denied", id="denied"),
    pytest.param(records()[1:], "8_7_1 table1_idle0 1: runs are missing", id="missing"),
])
def test_wrong_results(wrong: list[Record], reason: str) -> None:
    assert list(faults(wrong)) == [reason]


def test_an_idle_share_may_take_more_than_none() -> None:
    assert list(faults([replace(record, machine="table1_idle10") for record in records(edf_cc=101)])) == []


def test_a_table_by_hand() -> None:
    """Two sets of 8 tasks at 0.7: RM denies one under `cc`, and `la` has 0.6 and 0.7004 of `none`."""
    both = records(edf_la=60) + records(SetName(8, 7, 2), edf_none=10000, edf_la=7004, rm_cc=None)
    table = figure_table(FIGURES["machines"][:1], shares(both)).splitlines()
    assert table[0].split("\t") == ["panel", "curve", "utilisation", "sets", "mean", "low", "high"]
    lines = {tuple(line.split("\t")[:3]): line.split("\t")[3:] for line in table[1:]}
    assert lines["machine 1", "edf la", "0.7"] == ["2", "0.6502", "0.6000", "0.7004"]
    assert lines["machine 1", "rm cc", "0.7"] == ["1", "0.8000", "0.8000", "0.8000"]
    assert lines["machine 1", "edf la", "0.8"] == ["0", "", "", ""]
    assert len(lines) == 80


@given(st.lists(st.fractions(0, 2, max_denominator=10**9), min_size=1, max_size=25))
def test_ends_of_the_middle(values: list[Fraction]) -> None:
    rising = sorted(values)
    tenth = len(values) // 10
    kept = rising[tenth:len(values) - tenth]
    wanted = [sum(values, Fraction(0)) / len(values), kept[0], kept[-1]]
    number, *fields = point(rising).rstrip("\n").split("\t")
    assert number == str(len(values))
    differences = [abs(Fraction(field) - value) for field, value in zip(fields, wanted, strict=True)]
    assert max(differences) <= Fraction(1, 20000)


@pytest.mark.parametrize("figure", FIGURES)
def test_stored_tables_have_these_panels(figure: str) -> None:
    stored = (TOP / "examples" / "evaluation" / f"{figure}.tsv").read_text().splitlines()
    made = figure_table(FIGURES[figure], {}).splitlines()
    assert [line.split("\t")[:3] for line in stored] == [line.split("\t")[:3] for line in made]


def test_what_is_run_of_a_set() -> None:
    assert panels_of(SetName(5, 1, 1)) == (("table1_idle0", "1"),)
    assert len(panels_of(NAME)) == 10
    assert {kind for kind, _ in panels_of(NAME)} == set(MACHINES)


@pytest.mark.parametrize(("number", "times"), [pytest.param(1, 7, id="first"), pytest.param(2, 0, id="second")])
def test_the_first_set_is_recounted(number: int, times: int, engine: Engine, monkeypatch: pytest.MonkeyPatch) -> None:
    """The trace of each of the seven pairs, on the one machine that the figures have for five tasks."""
    counted: list[str] = []

    def counting(machine: Machine, text: str) -> RunTotals:
        counted.append(text)
        return recount(machine, text)

    monkeypatch.setattr("rtdvs.studies.evaluation.recount", counting)
    measure(engine, SMALL, (SetName(5, 1, number), TaskSet((Task("a", 10010, 10**8),))))
    assert len(counted) == times


def test_uniform_demands_are_by_the_seed_of_the_set() -> None:
    """It is ((2001 * 20 + 8 tasks) * 11 + 7 tenths) * 1000 + 1. The generator's first ten states are left out."""
    modulus = 2**31 - 1
    found = demands_of(NAME, TaskSet((Task("a", 360360, 7),)), "uniform", 2001)
    assert found is not None and dict(found.units) == {
        ("a", job): 440315001 * pow(48271, 10 + job, modulus) % modulus * 8 // modulus for job in (1, 2)}


def test_a_sweep_that_is_stopped_goes_on(engine: Engine, tmp_path: Path) -> None:
    with ThreadPoolExecutor(1) as executor:
        begun = evaluate(engine, tmp_path, SMALL, executor)
        first = next(begun)
        begun.close()
    file = tmp_path / "results" / f"{first}.tsv"
    (tmp_path / "results" / "5_9_1.tsv.part").write_text("half of")
    written = file.stat().st_mtime_ns
    with ThreadPoolExecutor(2) as executor:
        assert sorted(map(str, evaluate(engine, tmp_path, SMALL, executor))) == ["5_1_1", "5_9_1"]
    assert file.stat().st_mtime_ns == written
    found = read_records(tmp_path, [SetName(5, 1, 1), SetName(5, 9, 1)])
    assert len(found) == 16 and list(faults(found)) == []


def test_energies_of_a_set_are_those_of_its_units(engine: Engine, tmp_path: Path) -> None:
    """All pairs run the same units, and EDF with `none` runs them at 5 V and idles for nothing."""
    sweep = replace(SMALL, tenths=(1,))
    with ThreadPoolExecutor(1) as executor:
        names = list(evaluate(engine, tmp_path, sweep, executor))
    tasks = dict(published_sets(1))[names[0]]
    units = sum(task.worst * (720720 // task.period) for task in tasks)
    by_curve = {record.curve: record.energy for record in read_records(tmp_path, names)}
    assert by_curve["edf none"] == by_curve["rm none"] == units * 5000**2 * 1000
    assert by_curve["edf static"] == by_curve["bound"] == units * 3000**2 * 1000


class Asked(Engine):
    """The program, whose calls are noted."""

    calls: ClassVar[list[Call[Any]]] = []

    def answer(self, call: Call[Any]) -> Answer:
        self.calls.append(call)
        return super().answer(call)


@pytest.mark.parametrize(("number", "is_whole"), [
    pytest.param(1, True, id="the first set, which is recounted"), pytest.param(2, False, id="another set")])
def test_whole_traces_are_read_to_be_recounted(number: int, is_whole: bool, program: Path,
                                               monkeypatch: pytest.MonkeyPatch) -> None:
    """The records are those of the whole traces; the bound is that of the units of a whole trace."""
    monkeypatch.setattr(Asked, "calls", [])
    sweep, name = Sweep("published", 2, counts=(5,), tenths=(4,)), SetName(5, 4, number)
    tasks = dict(sweep.sets())[name]
    found = {record.curve: record.energy for record in measure(Asked(program), sweep, (name, tasks))}
    whole = {call.last_bytes is None for call in Asked.calls if call.command == "run"}
    assert whole == {is_whole}
    case = sweep.case(name, tasks, "table1_idle0", "1")
    for scheduler, governor in PAIRS:
        if found[f"{scheduler} {governor}"] is not None:
            trace = Engine(program).run(case.tasks, case.machine, scheduler, governor, case.ticks)
            assert found[f"{scheduler} {governor}"] == trace.energy
            least = Engine(program).least(case.machine, units_of(trace), case.ticks)
            assert found["bound"] == Fraction(least.energy, least.rounds)


@given(tasks=task_sets(3, st.integers(1, 12), st.integers(1, 10), st.integers(0, 4)), machine=machines(3, 30, 2),
       ticks=st.integers(1, 60), scheduler=st.sampled_from(["edf", "rm"]))
def test_units_of_a_run_at_the_highest_speed(program: Path, tasks: TaskSet, machine: Machine, ticks: int,
                                             scheduler: str) -> None:
    """Without a governor the energy has them, also with a charge and with idle time that costs."""
    try:
        trace = Engine(program).run(tasks, machine, scheduler, "none", ticks)
    except Denied:
        return
    assert units_at_top(machine, RunTotals(ticks, trace.run_energy, trace.idle_energy)) == units_of(trace)


def test_a_run_that_was_not_at_the_highest_speed() -> None:
    with pytest.raises(Crashed, match="a run energy of 8000000001, not all at the highest speed"):
        units_at_top(MACHINES["table1_idle0"], RunTotals(8, 8_000_000_001, 0))


def test_a_folder_has_one_sweep(program: Path, tmp_path: Path) -> None:
    (tmp_path / "sweep").write_text("100 uunifast sets a point by seed 2001\n")
    with ThreadPoolExecutor(1) as executor, pytest.raises(BadValue, match="results of 100 uunifast sets"):
        next(evaluate(Engine(program), tmp_path, SMALL, executor))


def test_the_command_writes_tables(program: Path, tmp_path: Path, capsys: Captured) -> None:
    call = ["evaluate", "--program", program, "--folder", tmp_path, "--sets", "1", "--counts", "5",
            "--utilisations", "0.1", "1", "--jobs", "2"]
    assert printed(capsys, call).splitlines()[-1].endswith("2 groups, 3 denied under RM, 0 faults")
    rows = [line.split("\t") for line in (tmp_path / "tasks.tsv").read_text().splitlines()[1:]]
    assert [row[2] for row in rows if row[:2] == ["5 tasks", "edf la"] and row[3] == "1"] == ["0.1", "1.0"]


@pytest.mark.parametrize(("old", "new", "reason"), [
    ("end 2 31000 40", "end 2 31001 40", "running energy 31001, counted 31000"),
    ("end 2 31000 40", "end 2 31000 41", "idle energy 41, counted 40"),
    ("x 1 3 27000", "x 1 4 36000", "running energy 31000, counted 40000"),
    ("done 1:1 x 1 4\n", "", "jobs 1, counted 0"),
    ("idle 1:1 2:0 1 40\nend 2 31000 40", "end 2 31000 0", "units 4, counted 5"),
])
def test_recounted_traces(old: str, new: str, reason: str) -> None:
    right = version_1(MINE)
    recount(MY_BOARD, right)
    with pytest.raises(AssertionError, match=reason):
        recount(MY_BOARD, right.replace(old, new))


# Files of results

def whole(name: SetName) -> list[Record]:
    """A result of a set with all its runs."""
    return [Record(name, *panel, curve, Fraction(50 if curve == "bound" else 100))
            for panel in panels_of(name) for curve in CURVES]


@pytest.fixture
def measured(monkeypatch: pytest.MonkeyPatch) -> list[str]:
    """The sets that are measured, in place of the program's runs."""
    found: list[str] = []

    def measure(engine: Engine, seed: int, named: tuple[SetName, TaskSet]) -> list[Record]:
        found.append(str(named[0]))
        return whole(named[0])

    monkeypatch.setattr("rtdvs.studies.evaluation.measure", measure)
    return found


def swept(folder: Path) -> list[str]:
    with ThreadPoolExecutor(1) as executor:
        return sorted(map(str, evaluate(Engine(Path("absent")), folder, SMALL, executor)))


def test_a_whole_result_is_read_as_it_was_written(tmp_path: Path, measured: list[str]) -> None:
    assert swept(tmp_path) == swept(tmp_path) == measured == ["5_1_1", "5_9_1"]
    assert finished(tmp_path) == [SetName(5, 1, 1), SetName(5, 9, 1)] and broken(tmp_path) == []
    assert read_records(tmp_path, finished(tmp_path)) == whole(SetName(5, 1, 1)) + whole(SetName(5, 9, 1))


@pytest.mark.parametrize(("old", "new"), [
    pytest.param(r"(?s).*", "", id="empty"),
    pytest.param(r"(?s)^(.*)$", r"\1\1", id="doubled"),
    pytest.param(r"^5_1_1\t.*\n", "", id="a line less"),
    pytest.param(r"^(5_1_1\t.*\n)", r"\1\1", id="a line twice"),
    pytest.param("100", "101", id="another energy"),
    pytest.param("100", "100/0", id="an energy that is none"),
    pytest.param("5_1_1", "5_1_2", id="a line of another set"),
    pytest.param("5_1_1", "8_1_1", id="a line of a set of another size"),
    pytest.param("sum\t.*\n", "", id="without its sum"),
    pytest.param("\n$", "", id="without the last byte"),
    pytest.param("edf", "\u00e9df", id="another letter")])
def test_a_result_that_is_not_whole_is_named_and_made_again(old: str, new: str, tmp_path: Path,
                                                            measured: list[str]) -> None:
    swept(tmp_path)
    file = tmp_path / "results" / "5_1_1.tsv"
    right = file.read_text()
    file.write_text(re.sub(old, new, right, count=1, flags=re.MULTILINE))
    assert broken(tmp_path) == [f"{file}: not the whole result of a set"]
    assert finished(tmp_path) == [SetName(5, 9, 1)]
    with pytest.raises(BadValue, match=f"^{file}: not the whole result of a set$"):
        read_records(tmp_path, [SetName(5, 1, 1)])
    assert swept(tmp_path) == ["5_1_1", "5_9_1"] and measured == ["5_1_1", "5_9_1", "5_1_1"]
    assert file.read_text() == right and broken(tmp_path) == []


@pytest.mark.parametrize("name", ["5_1_2", "05_1_1", "5_1_1 (copy)", "8_1_1"])
def test_a_file_of_another_set_is_named(name: str, tmp_path: Path, measured: list[str]) -> None:
    """The result of one set under the name of another isn't counted twice."""
    swept(tmp_path)
    copy = tmp_path / "results" / f"{name}.tsv"
    shutil.copy(tmp_path / "results" / "5_1_1.tsv", copy)
    assert broken(tmp_path) == [f"{copy}: not the whole result of a set"]
    assert finished(tmp_path) == [SetName(5, 1, 1), SetName(5, 9, 1)]


def test_the_command_names_what_is_wrong(tmp_path: Path, measured: list[str], capsys: Captured,
                                         monkeypatch: pytest.MonkeyPatch) -> None:
    monkeypatch.setattr("rtdvs.cli.options.processes_of", lambda args: ThreadPoolExecutor(1))
    words = ["evaluate", "--program", "/bin/true", "--folder", str(tmp_path), "--sets", "1", "--counts", "5",
             "--utilisations", "0.1"]
    printed(capsys, words)
    for name in ("5_1_1", "5_2_1"):
        (tmp_path / "results" / f"{name}.tsv").write_text("")
    status, (out, err) = main(words), capsys.readouterr()
    lines = [f"{tmp_path}/results/{name}.tsv: not the whole result of a set" for name in ("5_1_1", "5_2_1")]
    assert err.splitlines() == [f"{line}; it is made again if the sweep has it" for line in lines]
    assert (status, out) == (2, f"{lines[1]}\n8 lines, 1 groups, 0 denied under RM, 1 faults\n")
    assert measured == ["5_1_1", "5_1_1"]
