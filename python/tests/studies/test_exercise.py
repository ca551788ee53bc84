"""The command that draws, and exercises."""

from fractions import Fraction
from math import lcm
from pathlib import Path

import pytest

from rtdvs.engine import Engine
from rtdvs.model import TaskSet
from rtdvs.rules import check
from rtdvs.studies import BOARD, Listed, SetName, exercise, published_sets, uunifast
from tests.shared.examples import Captured, entry, files, printed, refusal


def test_exercises_are_small_and_different(engine: Engine) -> None:
    drawn = [exercise(engine, seed) for seed in range(1, 21)]
    for one in drawn:
        periods = [task.period for task in one.tasks]
        assert len(set(periods)) == len(periods) in (2, 3) and one.tasks.hyperperiod == lcm(*periods) <= 24
        assert 2 < sum(Fraction(task.worst, task.period) for task in one.tasks) <= 4
        jobs = {(task.name, job) for task in one.tasks for job in range(1, lcm(*periods) // task.period + 1)}
        assert set(one.demands.units) == jobs
        worsts = {task.name: task.worst for task in one.tasks}
        assert all(1 <= units <= worsts[name] for (name, _), units in one.demands.units.items())
    assert len({(one.tasks, tuple(one.demands.units.values())) for one in drawn}) == len(drawn)


@pytest.mark.parametrize(("scheduler", "governor"), [
    ("edf", "cc"), ("edf", "la"), ("rm", "cc"), ("rm", "none")])
def test_a_solution_is_right(engine: Engine, tmp_path: Path, scheduler: str, governor: str) -> None:
    one, folder = exercise(engine, 7, scheduler, governor), tmp_path / "seven"
    one.write(folder)
    assert files(folder) == (one.tasks, BOARD, one.demands)
    with (folder / "solution.trace").open() as lines:
        summary = check(one.tasks, BOARD, lines, one.demands)
    assert one.trace.startswith("trace 1\n") and summary.complete == len(one.demands.units)
    assert ("\n" + (folder / "explanation.txt").read_text()).count("\nline ") == summary.decisions
    question = (folder / "question.md").read_text()
    assert all(f"| `{task.name}` | {task.period} | {task.worst} |" in question for task in one.tasks)
    assert f"{one.tasks.hyperperiod} ticks" in question


@pytest.mark.parametrize("seed", range(1, 6))
def test_what_rm_denies_is_no_exercise(engine: Engine, seed: int) -> None:
    assert engine.admit(exercise(engine, seed, "rm").tasks, BOARD, "rm").scheduler == "rm"


def test_the_exercise_is_printed(program: Path, tmp_path: Path, capsys: Captured) -> None:
    call = ["generate", "exercise", "--program", program, "--folder", tmp_path, "--seed", "3"]
    assert printed(capsys, call) == (tmp_path / "question.md").read_text()
    assert refusal(capsys, [*call, "--scheduler", "rm", "--governor", "la"]) == (
        "rtdvs: words: rm has no governor la\n"
        "  Look-ahead is only for EDF: `--scheduler edf`, or the governor `none`, `static` or `cc`.\n")


def test_uunifast_is_printed_and_written(tmp_path: Path, capsys: Captured) -> None:
    call = "generate uunifast --count 5 --utilisation 0.35 --seed 5 --periods 20 25 40".split()
    tasks = TaskSet.parse(printed(capsys, call))
    assert tasks == uunifast(5, Fraction(35, 100), 5, Listed((20, 25, 40)))
    assert printed(capsys, [*call, "--output", tmp_path / "tasks.toml"]) == ""
    assert TaskSet.read(tmp_path / "tasks.toml") == tasks


def test_a_published_set(capsys: Captured) -> None:
    found = printed(capsys, "generate published --count 5 --tenths 2 --number 3 --sets 4".split())
    assert TaskSet.parse(found) == dict(published_sets(4))[SetName(5, 2, 3)]


def test_demands_of_a_run(tmp_path: Path, capsys: Captured) -> None:
    (tmp_path / "tasks.toml").write_text(entry(period="5", worst="7"))
    call = ["generate", "demands", "--tasks", tmp_path / "tasks.toml", "--ticks", "11"]
    assert printed(capsys, [*call, "--share", "0.5"]) == "task,job,units\na,1,3\na,2,3\na,3,3\n"
    assert printed(capsys, [*call, "--seed", "1"]).count("\n") == 4
