"""Simulates a schedule under a governor, and under a scheduler, that may be Python functions.

A governor gets what a run has come to at a decision, and returns the demand in work units per tick; the
speed is then the lowest of the machine that meets it. A scheduler gets a job, and returns its priority. The
trace is drawn, compared and checked as any other.
"""

import re

from rtdvs.errors import NAME, BadValue
from rtdvs.model import Demands, Machine, Scheduler, TaskSet, checked_name, checked_number
from rtdvs.rules.governors import Chooser, rule_of
from rtdvs.rules.plan import Plan, Priority
from rtdvs.rules.state import State
from rtdvs.rules.step import END, Step, note_of
from rtdvs.trace import Missed, Note, Trace, split_governor


def simulate(tasks: TaskSet, machine: Machine, scheduler: str | Priority, ticks: int, governor: str | Chooser,
             demands: Demands | None = None, name: str = "", *, admitted: bool = False,
             missed: str | None = None) -> Trace:
    """The trace, in version 2, of a run of that many ticks.

    The scheduler is "edf", "rm" or a function, the priority of a job: the open job with the least value runs,
    of equal ones the first in the file. It is asked at each tick. The governor is "none", "static", "cc",
    "la" or a function of a View, which returns an int, a Fraction or a pair of ints. `name` is the governor's
    in the trace, which is "mine" for a function without one; a scheduler's is its own. A job whose demand
    isn't named needs its worst case.

    No admission test is made, unless the set has to be `admitted`. At a deadline that is `missed` the job goes on
    ("continue") or ends ("drop"), or the run ends ("stop"). A task's jobs run in their order; a governor of the
    program counts the latest ones. The word is at the end of the governor's in the trace, which is none of the program.

    Raises DeadlineMissed without such a word, Denied, FileRefused and OverWorst for demands that aren't of the
    tasks, and BadValue for another wrong value, also if it is a governor's.

    >>> from fractions import Fraction
    >>> from rtdvs.model import Point, Task
    >>> tasks, machine = TaskSet((Task("t", 4, 4),)), Machine((Point(2, 1000), Point(4, 2000)))
    >>> def open_work(view):
    ...     return Fraction(sum(job.remaining_wcet for job in view.ready), view.earliest_deadline - view.now)
    >>> simulate(tasks, machine, "edf", 4, open_work).decisions
    (Decision(tick=0, speed=2, num=1, den=1), Decision(tick=2, speed=2, num=0, den=1))
    >>> simulate(tasks, machine, "EDF", 4, "none")
    Traceback (most recent call last):
    rtdvs.errors.BadValue: a scheduler is edf or rm, not EDF
    >>> simulate(TaskSet((Task("t", 4, 20),)), machine, "edf", 8, "none", missed="stop").misses()
    (Miss(task='t', job=1, due=4, used=16),)
    """
    plan, length, demands = Plan(tasks, machine, scheduler), checked_number("ticks", ticks), demands or Demands({})
    demands.belong_to(tasks)
    policy = None if missed is None else Missed(missed)
    called = governor_name(governor, name, policy)
    if admitted:
        plan.admit()
    step = Step(State.begin(plan, policy), length, rule_of(plan, governor, called), plan.needs(demands))
    found = notes(step)
    return Trace(2, scheduler_name(scheduler), called, step.summary.ticks, tuple(tasks), found)


def governor_name(governor: str | Chooser, name: str, missed: Missed | None) -> str:
    """What a trace calls a governor, and what is done at a missed deadline; raises BadValue for no name of a trace.

    >>> governor_name("cc", "", None), governor_name(lambda view: 0, "", Missed.DROP)
    ('cc', 'mine-drop')
    """
    called = checked_name(name or (str(governor) if isinstance(governor, str) else "mine"))
    if word := split_governor(called)[1]:
        raise BadValue(f"a governor's name doesn't end with -{word}")
    return called if missed is None else checked_name(f"{called}-{missed}")


def notes(step: Step) -> tuple[Note, ...]:
    """All notes of a run from its step on. Raises as `simulate` does.

    >>> from rtdvs.rules.governors import full
    >>> from rtdvs.rules.plan import EXAMPLE
    >>> [note.text() for note in notes(Step(State.begin(EXAMPLE), 4, full, {}))][-3:]
    ['energy a 100000000000', 'energy b 225000000000', 'end 4 325000000000 0']
    """
    found, form = list[Note](), ""
    while form is not END:
        form, fields = step.next()
        step.take(form, fields)
        found.append(note_of(form, fields))
    return tuple(found)


def scheduler_name(scheduler: str | Priority) -> str:
    """What a trace calls a scheduler: its word, or the function's name, if that can be one and is no such word.

    >>> scheduler_name("edf"), scheduler_name(lambda job: 0)
    ('edf', 'mine')
    """
    if not callable(scheduler):
        return str(scheduler)
    name = getattr(scheduler, "__name__", "")
    return name if re.fullmatch(NAME, name) and name not in [*Scheduler] else "mine"
