"""A trace of another set or of another machine is refused at its line, wherever one is read."""

from collections.abc import Callable
from dataclasses import replace
from fractions import Fraction
from pathlib import Path
from typing import Any

import pytest

from rtdvs.cli.main import main
from rtdvs.errors import TraceFault
from rtdvs.model import Machine, Point, Task, TaskSet
from rtdvs.rules import simulate
from rtdvs.studies import compare
from rtdvs.trace import Trace, task_statistics
from rtdvs.web import Shown, page_data
from tests.shared.examples import (
    BOARD, DATA, PAPER, TEMPLATE, TRACES, WORKED, Captured, files, path_id, refusal, version_1,
)

CC = WORKED.read_text()


def others(**changes: Any) -> TaskSet:
    """The tasks of the paper, the first one with other numbers."""
    return TaskSet((replace(PAPER["t1"], **changes), *PAPER.tasks[1:]))


@pytest.mark.parametrize("path", TRACES, ids=path_id)
def test_stored_traces_belong_to_their_files(path: Path) -> None:
    folder = path.parent
    if folder.name != "long":
        tasks, machine, _ = files(folder)
        Trace.read(path).belongs_to(tasks, machine)


# Lines 3 to 5 release the three tasks, 6 chooses speed 3, on 7 t1 runs 8 units at 16 * 10^9, 17 idles for 4.
@pytest.mark.parametrize(("tasks", "line", "reason"), [
    pytest.param(others(period=9), 18, "t1 job 2 is released at tick 9", id="a period"),
    pytest.param(others(offset=1), 3, "t1 job 1 is released at tick 1", id="an offset"),
    pytest.param(TaskSet(PAPER.tasks[:2]), 5, "no task t3", id="a task less"),
])
def test_another_set_in_version_1(tasks: TaskSet, line: int, reason: str) -> None:
    trace = Trace.parse(CC)
    readers: list[Callable[[TaskSet], object]] = [
        trace.belongs_to, trace.jobs, lambda own: task_statistics(trace, own)]
    for read in readers:
        with pytest.raises(TraceFault) as found:
            read(tasks)
        assert found.value == TraceFault(line, reason)


def test_a_laxity_of_another_period() -> None:
    """At 4 units a tick a job of 11 has 2.75 ticks: 1.25 are left of a period of 4, and would be 9.25 of 12."""
    own, other = (TaskSet((Task("t", period, 11),)) for period in (4, 12))
    trace = Trace.parse(version_1(simulate(own, Machine((Point(4, 1000),)), "edf", 12, "none").text()))
    assert task_statistics(trace, own)[0].least_laxity == Fraction(5, 4)
    # Lines 3 to 6 release, choose, run and complete the first job, and 7 to 9 idle, with a decision at tick 3.
    with pytest.raises(TraceFault, match="^line 10: t job 2 is released at tick 12$"):
        task_statistics(trace, other)


@pytest.mark.parametrize(("old", "new", "line", "reason"), [
    pytest.param("release 0 t1 1", "release 0 t1 0", 3, "jobs count from 1", id="job 0"),
    pytest.param("done 4:0 t2 1 4", "done 4:0 t4 1 4", 12, "no task t4", id="a done of no task"),
    pytest.param("run 4:0 6:0 t3", "run 4:0 6:0 t4", 14, "no task t4", id="a run of no task"),
])
def test_lines_of_no_job(old: str, new: str, line: int, reason: str) -> None:
    with pytest.raises(TraceFault) as found:
        Trace.parse(CC.replace(old, new)).belongs_to(PAPER)
    assert found.value == TraceFault(line, reason)


FIRST = Task("control", 4, 3)


@pytest.mark.parametrize(("tasks", "line"), [
    pytest.param((FIRST, Task("logger", 8, 7)), 4, id="a worst case"),
    pytest.param((FIRST, Task("logger", 8, 6, 1)), 4, id="an offset"),
    pytest.param((Task("other", 4, 3), Task("logger", 8, 6)), 3, id="a name"),
    pytest.param((FIRST,), 4, id="a task less"),
    pytest.param((FIRST, Task("logger", 8, 6), Task("more", 8, 1)), 5, id="a task more"),
])
def test_another_set_in_version_2(tasks: tuple[Task, ...], line: int) -> None:
    with pytest.raises(TraceFault) as found:
        Trace.read(TEMPLATE).belongs_to(TaskSet(tasks))
    assert found.value == TraceFault(line, "its tasks aren't those of the task file")


def test_a_release_that_isn_t_one_in_version_2() -> None:
    with pytest.raises(TraceFault, match="^line 14: control job 2 is released at tick 4$"):
        Trace.parse(TEMPLATE.read_text().replace("release 4", "release 3")).jobs(files("templates")[0])


OTHER = {"slow": Point(2, 3000), "middle": Point(3, 4000), "fast": Point(4, 5000)}


def board(idle: int = 0, charge: int = 0, **points: Point) -> Machine:
    return Machine(tuple((OTHER | points).values()), idle, charge)


@pytest.mark.parametrize(("tasks", "machine", "line", "reason"), [
    pytest.param(PAPER, Machine((Point(2, 3000), Point(4, 5000))), 6, "the machine has no speed 3", id="a speed"),
    pytest.param(PAPER, board(middle=Point(3, 4001)), 7,
                 "the energy is 8 * 4001 * 4001 * 1000 = 128064008000", id="a voltage"),
    pytest.param(PAPER, board(idle=100), 17, "the energy is 4 * 3000 * 3000 * 100 = 3600000000", id="idle power"),
    pytest.param(others(worst=7), board(), 7, "t1 job 1 has had 8 units, of 0 to 7", id="a worst case"),
    pytest.param(PAPER, board(charge=4), 12, "t2 job 1 has had 4 units, of 8 to 20", id="less than the charge"),
])
def test_another_machine(tasks: TaskSet, machine: Machine, line: int, reason: str) -> None:
    Trace.parse(CC).belongs_to(tasks)
    with pytest.raises(TraceFault) as found:
        Trace.parse(CC).belongs_to(tasks, machine)
    assert found.value == TraceFault(line, reason)


def test_the_charge_may_be_all_that_a_job_has() -> None:
    """The jobs of the example have 4 or 8 units, and 12 + 2 * 2 at most."""
    Trace.parse(CC).belongs_to(PAPER, board(charge=2))
    Trace.parse(CC).belongs_to(others(worst=4), board(charge=2))
    with pytest.raises(TraceFault, match="^line 7: t1 job 1 has had 8 units, of 0 to 7$"):
        Trace.parse(CC).belongs_to(others(worst=3), board(charge=2))


@pytest.mark.parametrize(("end", "says"), [
    pytest.param("end 16 363999999999 0", "364000000000 for runs and 0 for idle units", id="runs"),
    pytest.param("end 16 364000000000 1", "364000000000 for runs and 0 for idle units", id="idle units"),
])
def test_the_sums_of_the_end(end: str, says: str) -> None:
    trace = Trace.parse(CC.replace("end 16 364000000000 0", end))
    trace.belongs_to(PAPER)
    with pytest.raises(TraceFault, match=f"^line 33: the lines add up to {says}$"):
        trace.belongs_to(PAPER, BOARD)


# All that read a trace beside a set or a machine

@pytest.fixture
def wrong(tmp_path: Path) -> Path:
    """A folder with a set and a machine that the example isn't of."""
    others(period=9).write(tmp_path / "tasks.toml")
    board(idle=1).write(tmp_path / "machine.toml")
    return tmp_path


SET, IDLE = "line 18: t1 job 2 is released at tick 9", "line 17: the energy is 4 * 3000 * 3000 * 1 = 36000000"
RIGHT = DATA / "paper/tasks.toml"
DEAR = Machine(tuple(Point(speed, 20_000) for speed in (2, 3, 4)))  # its bound is above the example's energy


@pytest.mark.parametrize("words", [
    ("statistics", "--tasks", "{}/tasks.toml", "--unchecked", "--trace", WORKED),
    ("statistics", "--tasks", "{}/tasks.toml", "--machine", DATA / "paper/machine.toml", "--trace", WORKED),
    ("convert", "--to", "csv", "--tasks", "{}/tasks.toml", "--unchecked", "--trace", WORKED),
    ("convert", "--to", "vcd", "--tasks", "{}/tasks.toml", "--machine", DATA / "paper/machine.toml",
     "--trace", WORKED),
], ids=["statistics unchecked", "statistics", "a table", "waves"])
def test_commands_refuse_another_set(words: tuple[str, ...], wrong: Path, capsys: Captured) -> None:
    assert refusal(capsys, [str(word).format(wrong) for word in words]) == f"rtdvs: {SET}\n"


def test_commands_refuse_another_machine(wrong: Path, capsys: Captured) -> None:
    machine = ["--machine", wrong / "machine.toml", "--trace", WORKED]
    assert refusal(capsys, ["convert", "--to", "csv", "--tasks", RIGHT, *machine]) == f"rtdvs: {IDLE}\n"
    needs = "rtdvs: --machine needs --tasks: a trace of version 1 doesn't name its tasks\n"
    assert refusal(capsys, ["convert", "--to", "csv", *machine]) == needs
    named = ["--machine", wrong / "machine.toml", "--trace", TEMPLATE]
    assert refusal(capsys, ["convert", "--to", "csv", *named]) == (
        "rtdvs: line 8: the energy is 3 * 4000 * 4000 * 1000 = 48000000000\n")


def test_a_machine_s_charge_is_that_of_the_table(capsys: Captured) -> None:
    words = ["convert", "--to", "csv", "--table", "jobs", "--unchecked", "--trace", str(TEMPLATE)]
    for charge in ("--charge=1", f"--machine={DATA / 'templates/machine.toml'}"):
        assert main([*words, charge]) == 0
        assert [line.split(",")[-1] for line in capsys.readouterr().out.splitlines()[1:]] == ["5", "8", "5"]


def test_pictures_refuse_another_set(wrong: Path, capsys: Captured) -> None:
    pytest.importorskip("matplotlib")
    words = ["plot", "trace", "--trace", WORKED, "--output", wrong / "a.svg", "--tasks", wrong / "tasks.toml", "--unchecked"]
    assert refusal(capsys, words) == f"rtdvs: {SET}\n"
    assert not (wrong / "a.svg").exists()


def no_call(*words: object) -> None:
    raise AssertionError("the program is called")


@pytest.mark.parametrize(("tasks", "machine", "line"), [
    pytest.param(others(period=9), BOARD, SET, id="a set"), pytest.param(PAPER, board(idle=1), IDLE, id="a machine"),
    pytest.param(PAPER, DEAR, "line 7: the energy is 8 * 20000 * 20000 * 1000 = 3200000000000", id="a higher voltage"),
])
def test_comparisons_refuse_it(tasks: TaskSet, machine: Machine, line: str, capsys: Captured, tmp_path: Path) -> None:
    """Before the program is called."""
    with pytest.raises(TraceFault) as found:
        compare(no_call, tasks, machine, 16, traces=[Trace.parse(CC)])  # type: ignore[arg-type]
    assert str(found.value) == line
    tasks.write(tmp_path / "tasks.toml")
    machine.write(tmp_path / "machine.toml")
    named = [f"--{kind}={tmp_path}/{kind}.toml" for kind in ("tasks", "machine")]
    words = ["compare", *named, "--ticks", 16, "--trace", WORKED, "--program", "/bin/true"]
    assert refusal(capsys, words) == f"rtdvs: {WORKED}: {line}\n"


def test_a_page_refuses_what_its_explanations_leave_out() -> None:
    """The page has no room for explanations, so the last lines aren't explained."""
    wrong = CC.replace("end 16 364000000000 0", "end 16 364000000000 1")
    with pytest.raises(TraceFault, match="^line 33: the lines add up to"):
        page_data({"": wrong}, Shown(PAPER, BOARD, most=0))
