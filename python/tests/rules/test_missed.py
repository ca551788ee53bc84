"""Missed deadlines: schedules worked out by hand, and by a loop over ticks that is written out here."""

from collections.abc import Callable
from fractions import Fraction
from pathlib import Path
from typing import Any

import pytest
from hypothesis import given
from hypothesis import strategies as st

from rtdvs.cli.main import main
from rtdvs.errors import BadValue, DeadlineMissed, Denied, WrongTrace
from rtdvs.model import PAIRS, Demands, Machine, Point, Task, TaskSet
from rtdvs.rules import View, Walk, check, explain, last_line, simulate
from rtdvs.trace import Miss, Missed, Run, Trace, split_governor, task_statistics
from tests.shared.examples import BOARD, PAPER, Captured, explained, machines, options, refusal, task_sets

SLOW = Machine((Point(2, 3000), Point(3, 4000)))    # the paper's machine without its highest speed
RIVALS = TaskSet((Task("a", 4, 8), Task("b", 5, 9)))    # EDF meets all their deadlines at 4 units a tick
Piece = tuple[str, int, Fraction, Fraction, int]


def pieces(trace: Trace) -> list[Piece]:
    """Each run: its task and job, begin and end in ticks, and units; what a decision cuts is one run."""
    found: list[Piece] = []
    for note, speed in trace.at_speeds():
        if isinstance(note, Run):
            task, job, begin, end, units = note.task, note.job, note.begin.time(speed), note.end.time(speed), note.units
            if found and (*found[-1][:2], found[-1][3]) == (task, job, begin):
                _, _, begin, _, before = found.pop()
                units += before
            found.append((task, job, begin, end, units))
    return found


def ran(trace: Trace) -> list[str]:
    return [f"{task} {job}: {begin} to {end}" for task, job, begin, end, _ in pieces(trace)]


# By hand

# Under RM at 3 units a tick t1 and t2 need 4 ticks for each job. So t3 waits up to 8, for t1's second job up to 12, and
# for t2's second, released at 10, up to 16. Its first job is due at 14.
UP_TO_14 = ["t1 1: 0 to 4", "t2 1: 4 to 8", "t1 2: 8 to 12"]
# t1 has 16 to 20 and 24 to 28, and t2 20 to 24: t3's second job is due at 28. Then a job of t3 takes 4/3 ticks, and t2
# has its fourth job at 30.
UP_TO_28 = [*UP_TO_14, "t2 2: 12 to 16", "t1 3: 16 to 20", "t2 3: 20 to 24", "t1 4: 24 to 28"]
FIRST, SECOND = Miss("t3", 1, due=14, used=0), Miss("t3", 2, due=28, used=0)


@pytest.mark.parametrize(("missed", "runs", "misses"), [
    pytest.param("continue", [*UP_TO_28, "t3 1: 28 to 88/3", "t3 2: 88/3 to 30", "t2 4: 30 to 32"], (FIRST, SECOND),
                 id="continue"),
    pytest.param("drop", [*UP_TO_28, "t3 3: 28 to 88/3", "t2 4: 30 to 32"], (FIRST, SECOND), id="drop"),
    pytest.param("stop", [*UP_TO_14, "t2 2: 12 to 14"], (FIRST,), id="stop"),
])
def test_the_paper_s_example_under_static_rm(missed: str, runs: list[str], misses: tuple[Miss, ...]) -> None:
    trace = simulate(PAPER, SLOW, "rm", 32, "static", missed=missed)
    assert ran(trace) == runs and trace.misses() == misses
    assert (trace.governor, trace.missed) == (f"static-{missed}", missed)
    assert trace.ticks == (14 if missed == "stop" else 32)
    assert Trace.parse(trace.text()) == trace and trace.misses(PAPER) == misses
    assert f"{len(misses)} missed, not a run of the program" in repr(trace)
    statistics = task_statistics(trace, PAPER)
    assert [each.missed for each in statistics] == [0, 0, len(misses)]
    complete = {"continue": 1, "drop": 1, "stop": 0}[missed]  # the second job of t3 that goes on has 2 of its 4 units
    assert [each.complete for each in statistics][2] == complete
    assert statistics[2].least_laxity == {
        "continue": 14 - Fraction(88, 3), "drop": 42 - Fraction(88, 3), "stop": None}[missed]


def test_edf_meets_them() -> None:
    """At speed 3 EDF admits the paper's example: 836/280 is below 3."""
    trace = simulate(PAPER, SLOW, "edf", 280, "static", missed="stop")
    assert trace.misses() == () and trace.ticks == 280
    assert trace.notes == simulate(PAPER, SLOW, "edf", 280, "static", admitted=True).notes


@pytest.mark.parametrize(("missed", "runs", "preemptions"), [
    # At 4 units a tick b has 8 of its 9 units when a has its second job, at 4. a is due at 8, b at 5; RM runs a.
    pytest.param("continue", ["a 1: 0 to 2", "b 1: 2 to 4", "a 2: 4 to 6", "b 1: 6 to 25/4", "b 2: 25/4 to 8",
                              "a 3: 8 to 10"], [0, 1, 0, 1, 0], id="continue"),
    # The second job of b has the ticks 6 and 7, and 8 of its 9 units.
    pytest.param("drop", ["a 1: 0 to 2", "b 1: 2 to 4", "a 2: 4 to 6", "b 2: 6 to 8", "a 3: 8 to 10"],
                 [0, 1, 0, 1, 0], id="drop"),
    pytest.param("stop", ["a 1: 0 to 2", "b 1: 2 to 4", "a 2: 4 to 5"], [0, 1, 0], id="stop"),
])
def test_edf_schedules_what_rm_doesn_t(missed: str, runs: list[str], preemptions: list[int]) -> None:
    trace = simulate(RIVALS, BOARD, "rm", 10, "none", missed=missed)
    assert ran(trace) == runs
    assert trace.misses()[0] == Miss("b", 1, due=5, used=8)
    assert [job.preemptions for job in trace.jobs()] == preemptions
    assert simulate(RIVALS, BOARD, "edf", 200, "none", missed=missed).misses() == ()


def test_a_dropped_job_isn_t_interrupted() -> None:
    """b runs up to its deadline, 2, where it is dropped, and a, which is due at 5, runs on."""
    tasks = TaskSet((Task("a", 5, 1), Task("b", 2, 9)))
    trace = simulate(tasks, Machine((Point(1, 1),)), "edf", 4, "none", missed="drop")
    assert ran(trace) == ["b 1: 0 to 2", "b 2: 2 to 4"]
    assert [job.preemptions for job in trace.jobs()] == [0, 0, 0]


def test_what_a_late_job_had_by_its_deadline() -> None:
    """Of 9 units 8 fit into 4 ticks; the last one ends at 4:1, and leaves 7 for the second job."""
    trace = simulate(TaskSet((Task("a", 4, 9),)), Machine((Point(2, 1000),)), "edf", 8, "none", missed="continue")
    assert trace.misses() == (Miss("a", 1, due=4, used=8), Miss("a", 2, due=8, used=7))


def test_look_ahead_puts_off_no_less_than_nothing() -> None:
    """Rates of 40 and 8 units in 8 ticks are above 32: nothing can be put off past tick 4, and 20 + 8 units are open."""
    trace = simulate(TaskSet((Task("a", 4, 20), Task("b", 8, 8))), BOARD, "edf", 4, "la", missed="continue")
    assert (trace.decisions[0].num, trace.decisions[0].den) == (28, 4)


def test_what_a_governor_sees() -> None:
    """At 1 unit a tick a's first job has 4 of its 5 units at tick 4, its deadline, and the last one at 5."""
    seen: list[tuple[int, list[tuple[int, int, int]], list[int]]] = []

    def keep(view: View) -> int:
        seen.append((view.now, [(job.number, job.absolute_deadline, job.remaining_wcet) for job in view.ready],
                     [job.number for job in view.jobs]))
        return 1

    simulate(TaskSet((Task("a", 4, 5),)), Machine((Point(1, 1),)), "edf", 6, keep, missed="continue")
    assert seen == [(0, [(1, 4, 5)], [1]), (4, [(1, 4, 1), (2, 8, 5)], [2]), (5, [(2, 8, 5)], [2])]


def test_a_job_that_needs_nothing_waits() -> None:
    """a's first job has its fifth unit at 5, and the second, which needs none, is complete only then."""
    tasks, demands = TaskSet((Task("a", 4, 5),)), Demands({("a", 2): 0})
    trace = simulate(tasks, Machine((Point(1, 1),)), "edf", 7, "none", demands, missed="continue")
    assert [line for line in trace.text().splitlines() if line[:4] == "done"] == ["done 5:0 a 1 5", "done 5:0 a 2 0"]
    assert trace.jobs()[1].completion == 5 and trace.misses() == (Miss("a", 1, 4, 4),)


# By a loop over ticks

def unit_loop(tasks: TaskSet, speed: int, ticks: int, scheduler: str, missed: str,
              demands: dict[tuple[str, int], int]) -> tuple[list[Piece], list[tuple[str, int, int, int]]]:
    """The runs, unit by unit, and the misses: task, job, deadline and units by then."""
    jobs: list[list[Any]] = []  # place, number, due, need, had
    runs: list[Piece] = []
    late: list[tuple[str, int, int, int]] = []
    for tick in range(ticks + 1):
        now = [(tasks[job[0]].name, job[1], job[2], job[4]) for job in sorted(jobs) if job[2] == tick]
        late += now
        if tick == ticks or now and missed == "stop":
            break
        jobs = [job for job in jobs if missed == "continue" or job[2] > tick]
        for place, task in enumerate(tasks):
            number, rest = divmod(tick - task.offset, task.period)
            if tick >= task.offset and not rest:
                jobs.append([place, number + 1, tick + task.period, demands.get((task.name, number + 1), task.worst), 0])
        for unit in range(speed):
            if not (jobs := without_complete(jobs)):
                break
            oldest = [min(job for job in jobs if job[0] == place) for place in {job[0] for job in jobs}]
            key: Callable[[list[Any]], Any] = (
                (lambda job: (job[2], job[0])) if scheduler == "edf" else (lambda job: (tasks[job[0]].period, job[0])))
            job = min(oldest, key=key)
            job[4] += 1
            at, name = Fraction(tick * speed + unit, speed), tasks[job[0]].name
            if runs and runs[-1][:2] == (name, job[1]) and runs[-1][3] == at:
                _, _, begin, _, units = runs.pop()
                runs.append((name, job[1], begin, at + Fraction(1, speed), units + 1))
            else:
                runs.append((name, job[1], at, at + Fraction(1, speed), 1))
        jobs = without_complete(jobs)
    return runs, late


def without_complete(jobs: list[list[Any]]) -> list[list[Any]]:
    """Jobs without those that have all of their units; a task's jobs are complete in their order."""
    while done := [job for job in jobs if job[4] == job[3] and not any(
            older[0] == job[0] and older[1] < job[1] for older in jobs)]:
        jobs = [job for job in jobs if job not in done]
    return jobs


CASES = st.tuples(task_sets(4, st.integers(1, 8), st.integers(1, 9), st.integers(0, 5)), st.integers(1, 4),
                  st.integers(1, 40), st.sampled_from(["edf", "rm"]), st.sampled_from([*map(str, Missed)]))


@given(CASES, st.randoms(use_true_random=False))
def test_runs_of_the_highest_speed(case: tuple[TaskSet, int, int, str, str], random: Any) -> None:
    tasks, speed, ticks, scheduler, missed = case
    demands = {(task.name, number): random.randrange(task.worst + 1) for task in tasks for number in range(1, 41)
               if random.random() < 0.5}
    trace = simulate(tasks, Machine((Point(speed, 1000),)), scheduler, ticks, "none", Demands(demands), missed=missed)
    runs, late = unit_loop(tasks, speed, ticks, scheduler, missed, demands)
    assert pieces(trace) == runs
    assert sorted((miss.task, miss.job, miss.due, miss.used) for miss in trace.misses()) == sorted(late)
    assert Trace.parse(trace.text()) == trace


@given(task_sets(4, st.integers(1, 12), st.integers(1, 20), st.integers(0, 5)), machines(3, 8, 2),
       st.sampled_from(PAIRS), st.sampled_from([*map(str, Missed)]), st.integers(1, 60), st.booleans())
def test_each_pair_is_followed(tasks: TaskSet, machine: Machine, pair: tuple[str, str], missed: str, ticks: int,
                               is_any: bool) -> None:
    """What `simulate` makes `check` follows; without a miss it is the run of an admitted set."""
    trace = simulate(tasks, machine, pair[0], ticks, pair[1], missed=missed)
    text = trace.text().splitlines(keepends=True)
    summary = check(tasks, machine, text, any_governor=is_any)
    assert summary.missed == len(trace.misses())
    assert len(explained(tasks, machine, None, trace.text())) == len(trace.decisions)
    if not trace.misses():
        assert trace.notes == simulate(tasks, machine, pair[0], ticks, pair[1]).notes
    else:
        with pytest.raises(DeadlineMissed) as found:
            simulate(tasks, machine, pair[0], ticks, pair[1])
        assert found.value.due == trace.misses()[0].due


# What is said and refused

def test_the_reasons_of_a_decision() -> None:
    text = simulate(PAPER, SLOW, "rm", 32, "static", missed="continue").text()
    boards = {board.split(", ")[1]: board.splitlines() for board in explained(PAPER, SLOW, None, text)}
    assert boards["tick 14"][1] == "    t3 job 1 was due at 14 and is not complete: it has had 0 units"
    assert boards["tick 28"][-1] == "    t3 job 1 runs: of 3 open it has the shortest period, 14"
    assert sum("was due" in line for board in boards.values() for line in board) == 2
    summary = explain(Walk(PAPER, SLOW, text.splitlines(keepends=True)))
    assert ", 2 deadlines missed, energy " in summary.text()
    assert last_line(summary, any_governor=False, named=False).endswith("; not a run of the program")


@pytest.mark.parametrize(("old", "new", "fault"), [
    ("static-continue", "static", "denied rm t2 36 30"),
    ("static-continue", "static-drop", "line 42: t3 job 1 was dropped at 14"),
    ("static-continue", "static-stop", "line 24: the run stops at 14:0: t3 job 1 was due at 14 and is not complete: "
                                       "it has had 0 units"),
    ("t3 1 4 64000000000", "t3 2 4 64000000000", "line 42: t3 job 1 comes first: it is not complete, and its period "
                                                 "is 14"),
    ("done 29:1 t3 1 4", "done 29:1 t3 2 4", "line 43: the line before isn't the last one of t3 job 2"),
])
def test_wrong_traces(old: str, new: str, fault: str) -> None:
    text = simulate(PAPER, SLOW, "rm", 32, "static", missed="continue").text()
    assert text.count(old) == 1
    with pytest.raises((WrongTrace, Denied)) as found:
        check(PAPER, SLOW, text.replace(old, new).splitlines(keepends=True))
    assert str(found.value) == fault


def test_a_run_that_stops_says_its_ticks() -> None:
    text = simulate(PAPER, SLOW, "rm", 32, "static", missed="stop").text()
    check(PAPER, SLOW, text.splitlines(keepends=True))
    with pytest.raises(WrongTrace, match="the run stops at a missed deadline, and the plan line says 15 ticks"):
        check(PAPER, SLOW, text.replace("static-stop 14", "static-stop 15").splitlines(keepends=True))


def test_what_is_refused() -> None:
    with pytest.raises(Denied, match="^denied rm t2 36 30$"):
        simulate(PAPER, SLOW, "rm", 32, "static", admitted=True, missed="stop")
    with pytest.raises(DeadlineMissed, match="^t3 job 1 was due at 14 "):
        simulate(PAPER, SLOW, "rm", 32, "static", admitted=False)
    with pytest.raises(BadValue, match="^a missed deadline is continue, drop, stop, not skip$"):
        simulate(PAPER, SLOW, "rm", 32, "static", missed="skip")
    with pytest.raises(BadValue, match="^a governor's name doesn't end with -drop$"):
        simulate(PAPER, SLOW, "rm", 32, lambda view: 3, name="own-drop")
    with pytest.raises(BadValue, match="^bad name$"):
        simulate(PAPER, SLOW, "rm", 32, lambda view: 3, name="x" * 30, missed="drop")


def test_the_command(tmp_path: Path, capsys: Captured) -> None:
    """It prints what `simulate` gives, and notes on standard error; without the option the test is made."""
    PAPER.write(tmp_path / "tasks.toml")
    SLOW.write(tmp_path / "machine.toml")
    words = ["simulate", *options(tmp_path), "--scheduler", "rm", "--governor", "static", "--ticks", "32", "--format", "2"]
    assert main([*words, "--missed", "drop"]) == 0
    assert capsys.readouterr() == (simulate(PAPER, SLOW, "rm", 32, "static", missed="drop").text(), "".join(
        f"note: {line}\n" for line in ("not a run of the program", FIRST.text(), SECOND.text())))
    assert refusal(capsys, words).splitlines()[0] == "rtdvs: denied rm t2 36 30"


@pytest.mark.parametrize(("word", "governor", "missed"), [
    ("own-rule", "own-rule", None), ("own-rule-stop", "own-rule", Missed.STOP), ("drop", "drop", None)])
def test_the_governor_of_a_word(word: str, governor: str, missed: Missed | None) -> None:
    assert split_governor(word) == (governor, missed)


def test_names() -> None:
    trace = simulate(PAPER, BOARD, lambda job: job.task.period, 4, lambda view: 4, name="own", missed="stop")
    assert trace.text().splitlines()[1] == "plan mine own-stop 4"
