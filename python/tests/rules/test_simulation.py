"""Simulations with governors and schedulers of one's own: what is refused, and schedules worked out by hand."""

from collections.abc import Callable
from dataclasses import FrozenInstanceError
from fractions import Fraction
from typing import Any

import pytest

from rtdvs.errors import BadValue, DeadlineMissed, Denied, FileRefused, OverWorst, WrongTrace
from rtdvs.model import PAIRS, Deadlines, Demands, Machine, Point, Scheduler, Task, TaskSet
from rtdvs.rules import GOVERNORS, JobView, Plan, Priority, View, Walk, check, explain, simulate
from rtdvs.trace import Done, Run, Trace
from tests.shared.examples import BOARD
from tests.shared.model import Model, random_case

TASKS = TaskSet((Task("a", 4, 4), Task("b", 6, 9)))
ONE = Machine((Point(1, 1000),))


def runs(trace: Trace) -> list[tuple[str, int, int]]:
    """Each run's task, and the ticks from and to which it runs; what a decision cuts is one run."""
    found: list[tuple[str, int, int]] = []
    for note in trace.notes:
        if isinstance(note, Run):
            whose = (note.task, note.begin.tick)
            begin = found.pop()[1] if found and (found[-1][0], found[-1][2]) == whose else note.begin.tick
            found.append((note.task, begin, note.end.tick))
    return found


# What is refused

@pytest.mark.parametrize("scheduler", ["EDF", "fifo", "", None, 1, b"edf"])
def test_unknown_schedulers(scheduler: Any) -> None:
    with pytest.raises(BadValue, match=f"^a scheduler is edf or rm, not {scheduler}$"):
        simulate(TASKS, BOARD, scheduler, 12, "none")
    with pytest.raises(BadValue, match=f"^a scheduler is edf or rm, not {scheduler}$"):
        Plan(TASKS, BOARD, scheduler)


@pytest.mark.parametrize("scheduler", ["rm", lambda job: 0], ids=["rm", "a function"])
def test_governors_that_a_scheduler_doesn_t_have(scheduler: str | Priority) -> None:
    with pytest.raises(BadValue, match=" has no governor la$"):
        simulate(TASKS, BOARD, scheduler, 12, "la")


def test_a_function_has_no_admission_test() -> None:
    """A worst case of 99 in 4 ticks would be denied by both tests."""
    plan = Plan(TaskSet((Task("a", 4, 99),)), ONE, lambda job: job.number)
    with pytest.raises(BadValue, match="^a scheduler that is a function has no admission test"):
        plan.admit()
    with pytest.raises(BadValue, match="^a scheduler that is a function has no admission test"):
        plan.static


ANSWERS = [0.8, float("nan"), True, (True, True), None, (), (1,), (1, 2, 3), (1.5, 1), (1, 1.0), (-1, 1), -1, (1, 0),
           (1, -1), 2**128, (2**128, 1), (1, 2**128), Fraction(-1, 2), (Fraction(1), 1), "2", [1, 2]]


@pytest.mark.parametrize("answer", ANSWERS, ids=repr)
def test_answers_that_are_no_demand(answer: Any) -> None:
    """At tick 4 the second job of a is released; the governor's first answer is right."""
    answers: dict[int, int] = {0: 4, 1: 4, 3: 4, 4: answer}
    with pytest.raises(BadValue) as found:
        simulate(TASKS, BOARD, "edf", 12, lambda view: answers[view.now], name="odd")
    assert str(found.value) == ("governor odd at tick 4: a whole number, a fraction or a pair of whole numbers, "
                                f"from 0 and below 2^128, not {answer!r}")


@pytest.mark.parametrize(("answer", "pair"), [
    (4, (4, 1)), (Fraction(7, 2), (7, 2)), ((14, 4), (14, 4)), (2**128 - 1, (2**128 - 1, 1)), ((0, 1), (0, 1)),
    ((7, 2**128 - 1), (7, 2**128 - 1))], ids=str)
def test_answers_that_are_demands(answer: Any, pair: tuple[int, int]) -> None:
    demand: int = answer
    trace = simulate(TASKS, BOARD, "edf", 1, lambda view: demand)
    assert [(note.num, note.den) for note in trace.decisions] == [pair]
    assert Trace.parse(trace.text()) == trace


@pytest.mark.parametrize(("units", "line"), [
    pytest.param({("a", 1): 5}, "over worst: a 1 5 4", id="over the worst case"),
    pytest.param({("c", 1): 1}, "demands: row 1: unknown task c", id="of no task"),
    pytest.param({("a", 1): 4, ("a", 0): 1}, "demands: row 2: job 0", id="of job 0"),
    pytest.param({("a", 1): -1}, "demands: row 1: bad units", id="negative"),
    pytest.param({("a", 1): 1.5}, "demands: row 1: bad units", id="not whole"),
])
def test_demands_of_another_set(units: Any, line: str) -> None:
    with pytest.raises((OverWorst, FileRefused)) as found:
        simulate(TASKS, BOARD, "edf", 12, "none", Demands(units))
    assert str(found.value) == line


@pytest.mark.parametrize(("ticks", "line"), [
    *((ticks, "ticks out of range") for ticks in (0, -1, 2**40 + 1)),
    *((ticks, "wrong kind of ticks") for ticks in (2.5, 4.0, True, None))])
def test_ticks_that_no_run_has(ticks: Any, line: str) -> None:
    with pytest.raises(BadValue, match=f"^{line}$"):
        simulate(TASKS, BOARD, "edf", ticks, "none")


@pytest.mark.parametrize("name", ["my governor", "my\n", "é", "x" * 33])
def test_names_that_no_trace_has(name: str) -> None:
    with pytest.raises(BadValue, match="^bad name$"):
        simulate(TASKS, BOARD, "edf", 12, lambda view: 4, name=name)


def test_names_in_the_trace() -> None:
    def shortest(job: JobView) -> int:
        return job.task.period

    def edf(job: JobView) -> int:
        return job.absolute_deadline

    assert simulate(TASKS, BOARD, edf, 1, "none").text().splitlines()[1] == "plan mine none 1"
    assert simulate(TASKS, BOARD, "edf", 1, lambda view: 4).text().splitlines()[1] == "plan edf mine 1"
    assert simulate(TASKS, BOARD, "edf", 1, "cc").text().splitlines()[1] == "plan edf cc 1"
    assert simulate(TASKS, BOARD, shortest, 1, "none", name="fast").text().splitlines()[1] == "plan shortest fast 1"


def test_deadline_missed() -> None:
    """At 2 units a tick a has its 4, and b 2 * 6 - 4 = 8 of its 9."""
    with pytest.raises(DeadlineMissed) as found:
        simulate(TASKS, BOARD, "edf", 12, lambda view: 0)
    assert found.value == DeadlineMissed("b", 1, due=6, used=8)


# What a governor sees

def test_views_are_frozen_and_new() -> None:
    """At 4 units a tick a has 3 units of tick 0, and b 1 + 4 + 4 up to tick 3; at 4 a has its next job."""
    views: list[View] = []

    def keep(view: View) -> int:
        views.append(view)
        return 4

    simulate(TASKS, BOARD, "edf", 5, keep, Demands({("a", 1): 3}))
    assert [(view.now, view.speed, view.earliest_deadline) for view in views] == [
        (0, 0, 4), (1, 4, 4), (3, 4, 4), (4, 4, 6)]
    a, b = TASKS
    assert views[0].ready == (JobView(a, 1, 0, 0, 4, 0, 4), JobView(b, 1, 0, 0, 6, 0, 9)) == views[0].jobs
    # a was complete with 3 units in tick 0, whose last unit b had.
    assert views[1].ready == (JobView(b, 1, 1, 0, 6, 1, 8),)
    assert views[1].jobs[0] == JobView(a, 1, 1, 0, 4, 3, 0, is_complete=True)
    assert views[2].ready == () and views[2].jobs[1] == JobView(b, 1, 3, 0, 6, 9, 0, is_complete=True)
    assert views[3].ready == (JobView(a, 2, 4, 4, 8, 0, 4),) and views[3].jobs[1].wcet == 9
    for view in views:
        with pytest.raises(FrozenInstanceError):
            view.now = 5  # type: ignore[misc]
        with pytest.raises(FrozenInstanceError):
            view.jobs[0].executed = 5  # type: ignore[misc]


def test_the_charge_is_in_what_a_governor_sees() -> None:
    def what_is_left(view: View) -> int:
        return view.ready[0].remaining_wcet

    trace = simulate(TASKS, Machine((Point(8, 1000),), charge=1), "edf", 1, what_is_left)
    assert trace.decisions[0].num == 4 + 2


# Schedulers of one's own

def by_names(*names: str) -> Priority:
    return lambda job: names.index(job.task.name)


def test_fixed_priorities() -> None:
    """b before a, at 1 unit a tick: b has the ticks 0 to 3 and 6 to 9, and a those before and after that it needs."""
    tasks = TaskSet((Task("a", 4, 1), Task("b", 6, 3)))
    assert runs(simulate(tasks, ONE, by_names("b", "a"), 12, "none")) == [
        ("b", 0, 3), ("a", 3, 5), ("b", 6, 9), ("a", 9, 10)]
    assert runs(simulate(tasks, ONE, by_names("a", "b"), 12, "none")) == [
        ("a", 0, 1), ("b", 1, 4), ("a", 4, 5), ("b", 6, 8), ("a", 8, 9), ("b", 9, 10)]


def test_deadline_monotonic() -> None:
    """b's deadline is 3 ticks after its release, a's 8: at tick 10 b takes the processor from a's second job."""
    tasks, deadlines = TaskSet((Task("a", 8, 4), Task("b", 10, 2))), Deadlines({"b": 3})

    def deadline_monotonic(job: JobView) -> int:
        return deadlines.ticks.get(job.task.name, job.task.period)

    trace = simulate(tasks, ONE, deadline_monotonic, 16, "none")
    assert runs(trace) == [("b", 0, 2), ("a", 2, 6), ("a", 8, 10), ("b", 10, 12), ("a", 12, 14)]
    assert [f"{job.task}: {job.response}, {job.preemptions}" for job in trace.jobs()] == [
        "a: 6, 0", "b: 2, 0", "a: 6, 1", "b: 2, 0"]
    assert runs(simulate(tasks, ONE, "rm", 16, "none"))[:2] == [("a", 0, 4), ("b", 4, 6)]


def least_laxity(job: JobView) -> int:
    """The ticks that a job could wait, at 1 unit a tick."""
    return job.absolute_deadline - job.now - job.remaining_wcet


def test_least_laxity() -> None:
    """a has 4 units by tick 10, b 6 by tick 12: both could wait for 6 ticks, and a is the first in the file.

    At tick 1 b could wait for 5 ticks and a for 6, at 2 both for 5, at 3 b for 4 and a for 5, at 4 both for 4, at 5 b
    for 3 and a for 4, at 6 both for 3. Then a is complete, and b has the rest.
    """
    tasks = TaskSet((Task("a", 10, 4), Task("b", 12, 6)))
    assert runs(simulate(tasks, ONE, least_laxity, 10, "none")) == [
        ("a", 0, 1), ("b", 1, 2), ("a", 2, 3), ("b", 3, 4), ("a", 4, 5), ("b", 5, 6), ("a", 6, 7), ("b", 7, 10)]


def test_the_next_job_in_a_tick_is_by_that_tick() -> None:
    """At 2 units a tick a is complete in the middle of tick 2; what is asked there is asked for tick 2."""
    asked: list[tuple[str, int]] = []

    def first_come(job: JobView) -> int:
        asked.append((job.task.name, job.now))
        return {"a": 0, "b": 2, "c": 1 if job.now == 2 else 3}[job.task.name]

    tasks = TaskSet((Task("a", 12, 5), Task("b", 12, 4), Task("c", 12, 4)))
    trace = simulate(tasks, Machine((Point(2, 1000),)), first_come, 12, "none")
    begins = [(note.task, str(note.begin), str(note.end)) for note in trace.notes if isinstance(note, Run)]
    assert begins == [("a", "0:0", "2:1"), ("c", "2:1", "3:0"), ("b", "3:0", "5:0"), ("c", "5:0", "6:1")]
    assert {now for _, now in asked} == {0, 1, 2, 3, 4, 5}


OWN: list[tuple[Scheduler, Callable[[JobView], int]]] = [
    (Scheduler.EDF, lambda job: job.absolute_deadline), (Scheduler.RM, lambda job: job.task.period)]


@pytest.mark.parametrize(("scheduler", "own"), OWN, ids=["edf", "rm"])
def test_the_two_schedulers_as_functions(scheduler: Scheduler, own: Priority) -> None:
    """Random plans have the same notes, and pass the same checks."""
    for seed in range(40):
        tasks, machine, demands, ticks = random_case(seed)
        if not Model(tasks, machine, (scheduler, "none"), demands).admitted():
            continue
        trace = simulate(tasks, machine, own, min(ticks, 40), "none", demands)
        assert trace.notes == simulate(tasks, machine, scheduler, min(ticks, 40), "none", demands).notes
        assert (trace.scheduler, trace.governor) == ("mine", "none")
        lines = trace.text().splitlines(keepends=True)
        explain(Walk(tasks, machine, lines, demands, scheduler=own))


def test_a_trace_of_a_function_is_checked_by_it() -> None:
    tasks = TaskSet((Task("a", 10, 4), Task("b", 12, 6)))
    trace = simulate(tasks, ONE, least_laxity, 10, "none")
    lines = trace.text().splitlines(keepends=True)
    assert trace.scheduler == "least_laxity" and Trace.parse(trace.text()) == trace
    assert explain(Walk(tasks, ONE, lines, scheduler=least_laxity)).complete == 2
    with pytest.raises(WrongTrace, match="^line 2: no scheduler least_laxity$"):
        check(tasks, ONE, lines, any_governor=True)
    wrong = [*lines[:8], "run 1:0 2:0 a 1 1 1000000000\n"]
    with pytest.raises(WrongTrace, match="^line 9: b job 1 comes first: it is not complete, and its priority is 5$"):
        explain(Walk(tasks, ONE, wrong, scheduler=least_laxity))
    late = [*lines[:7], "run 0:0 2:0 a 1 2 2000000000\n"]
    reason = "2 units: at speed 1 there are 1 up to another job's turn at tick 1"
    with pytest.raises(WrongTrace, match=f"^line 8: {reason}$"):
        explain(Walk(tasks, ONE, late, scheduler=least_laxity))


def test_one_table_of_pairs() -> None:
    assert tuple(GOVERNORS) == PAIRS


# Missed deadlines

LATE = TaskSet((Task("a", 4, 8), Task("b", 5, 9)))
"""EDF needs 8/4 + 9/5 units a tick, of 4. Under RM b has only the 8 units that a leaves it in ticks 2 to 4."""


def test_a_job_is_given_up_at_its_deadline() -> None:
    """Under RM at speed 4: a runs 2 of each 4 ticks, so b's jobs have 8 units by tick 5, and 8 from 5 to 10; its third
    one has tick 10 to 12 and a unit more in tick 14."""
    trace = simulate(LATE, BOARD, "rm", 15, "none", missed="drop")
    assert [(note.job, str(note.at)) for note in trace.notes if isinstance(note, Done) and note.task == "b"] == [
        (3, "14:1")]
    assert [run for run in runs(trace) if run[0] == "b"] == [("b", 2, 4), ("b", 6, 8), ("b", 10, 12), ("b", 14, 14)]
    with pytest.raises(DeadlineMissed, match="^b job 1 was due at 5 and is not complete: it has had 8 units$"):
        simulate(LATE, BOARD, "rm", 15, "none")
    with pytest.raises(BadValue, match="^a missed deadline is continue, drop, stop, not go on$"):
        simulate(LATE, BOARD, "rm", 15, "none", missed="go on")


def test_a_run_with_missed_deadlines_is_explained() -> None:
    """Its plan line says that jobs are dropped; without that word the set is denied: 25 units in 5 ticks, of 20."""
    text = simulate(LATE, BOARD, "rm", 15, "none", missed="drop").text()
    boards: list[str] = []
    summary = explain(Walk(LATE, BOARD, text.splitlines(keepends=True)), boards.append)
    assert (summary.released, summary.complete) == (7, 5) and len(boards) == summary.decisions
    with pytest.raises(Denied, match="^denied rm b 25 20$"):
        explain(Walk(LATE, BOARD, text.replace("none-drop", "none").splitlines(keepends=True)))


@pytest.mark.parametrize("pair", PAIRS, ids=" ".join)
def test_nothing_is_given_up_of_a_set_that_is_admitted(pair: tuple[str, str]) -> None:
    scheduler, governor = pair
    stopped, dropped = (simulate(TASKS, BOARD, scheduler, 24, governor, missed=word) for word in ("stop", "drop"))
    assert stopped.notes == dropped.notes and dropped.misses() == ()


def test_a_missed_deadline_is_said_before_a_missing_energy_line() -> None:
    """At speed 1 the job has 4 of its 5 units by tick 4, where the run ends without the energy line of a."""
    lines = ["trace 2", "plan edf mine 4", "task a 4 0 5", "release 0 a 1", "speed 0 1 1/1",
             "run 0:0 4:0 a 1 4 4000000000", "end 4 4000000000 0"]
    walk = Walk(TaskSet((Task("a", 4, 5),)), Machine((Point(1, 1000), Point(2, 1000))),
                [f"{line}\n" for line in lines], any_governor=True)
    with pytest.raises(WrongTrace, match="^line 7: a job 1 was due at 4 and is not complete: it has had 4 units$"):
        explain(walk)


def test_what_is_handed_out_is_never_less_than_nothing() -> None:
    """cc under RM hands out 20 units up to tick 2: 18 to a, 2 to b. In tick 0 a needs one unit, and b has the other 9,
    so at tick 1 nothing is left of either."""
    tasks = TaskSet((Task("a", 2, 18), Task("b", 100, 50)))
    machine = Machine((Point(1, 1000), Point(10, 1000)))
    trace = simulate(tasks, machine, "rm", 2, "cc", Demands({("a", 1): 1}))
    assert [(note.tick, note.speed, note.num, note.den) for note in trace.decisions] == [(0, 10, 20, 2), (1, 1, 0, 1)]
