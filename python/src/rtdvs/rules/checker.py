"""Holds a trace's lines against the right ones, up to the first other one."""

from collections.abc import Iterable, Iterator
from dataclasses import dataclass

from rtdvs.errors import DeadlineMissed, TraceFault, Wrong, WrongTrace
from rtdvs.model import MOST_LINES, Demands, Machine, Scheduler, TaskSet
from rtdvs.rules import governors, reasons, state
from rtdvs.rules.plan import Plan, Priority
from rtdvs.rules.step import DECISION, DONE, END, RUN, Fields, Step
from rtdvs.trace import Decision, Head, Line, Reader, Release, split_governor, task_text


class Checker:
    """Takes the lines of a run as long as they are right.

    Without a rule the decisions may be at any tick, with any demand and speed of the machine, and cut a
    segment. Without needs a job needs what its `done` line says, or its worst case without one.

    >>> from rtdvs.rules.governors import full
    >>> from rtdvs.rules.plan import EXAMPLE
    >>> checker = Checker(Step(state.State.begin(EXAMPLE), 4, full, None), version=1)
    >>> checker.passes("release 0 a 1\\n"), checker.passes("release 0 b 2\\n")
    (True, False)
    >>> checker.judge(Release(0, "b", 2))
    Traceback (most recent call last):
    rtdvs.errors.Wrong: wanted job 1
    """

    def __init__(self, step: Step, version: int) -> None:
        self.step, self.reasons = step, reasons.Reasons(step, version)
        if version == 1:
            step.closing.clear()
        self.is_free, self.learns = step.rule is None, step.needs is None
        self.least = 2 * step.state.plan.machine.charge
        self.form, self.fields = "", Fields()  # what is right

    def passes(self, line: str) -> bool:
        """Whether a line is the right one, past which it then goes. Raises DeadlineMissed."""
        step = self.step
        most = self._most(line) if self.is_free or self.learns else 0
        self.form, self.fields = form, fields = step.next(most)
        if line != form % fields or form is DONE and fields[-1] < self.least:
            return False
        step.take(form, fields)
        if self.learns and form is RUN and step.job and not self.is_free and most < step.whole:
            step.job.need = step.job.used
        return True

    def _most(self, line: str) -> int:
        """The units that a line says of a segment, if it may be shorter; a `done` line says a job's need."""
        word, step = line[:4], self.step
        if word == "done" and self.learns and step.last:
            step.last.need = step.last.used
        if word == "run " or word == "idle" and self.is_free:
            units = "".join(line.rsplit(" ", 2)[-2:-1])
            return int(units) if units.isdecimal() else 0
        return 0

    def judge(self, item: Line) -> None:
        """For a line that doesn't pass: raises Wrong, unless it is a decision that is free."""
        if reason := self.reasons.of(item):
            raise Wrong(reason)
        if not self.is_free or not isinstance(item, Decision):
            raise Wrong(f"wanted {(self.form % self.fields).rstrip()}")
        self.form, self.fields = DECISION, (item.tick, item.speed, item.num, item.den)
        self.step.decide(self.reasons.points[item.speed])


@dataclass(frozen=True, slots=True)
class Walk:
    """A trace's lines and what they are checked against. With `any_governor` its demands are its own.

    `scheduler` is the one whose function the trace is made by, if it isn't one of the two.

    >>> from rtdvs.rules.plan import EXAMPLE
    >>> lines = ["trace 1\\n", "plan edf none 1\\n", "release 0 a 1\\n", "release 0 c 1\\n"]
    >>> [*Walk(EXAMPLE.tasks, EXAMPLE.machine, lines).steps()]
    Traceback (most recent call last):
    rtdvs.errors.WrongTrace: line 4: no task c
    """

    tasks: TaskSet
    machine: Machine
    lines: Iterable[str]
    demands: Demands | None = None
    any_governor: bool = False
    scheduler: Priority | None = None

    def steps(self) -> Iterator[tuple[int, Checker]]:
        """Each line's number, after it was checked, and the checker. Raises WrongTrace, Denied.

        The form and the fields of the line are those that the checker has.

        >>> from rtdvs.rules.plan import EXAMPLE
        >>> lines = ["trace 1\\n", "plan edf none 1\\n", "release 0 a 1\\n"]
        >>> number, checker = next(Walk(EXAMPLE.tasks, EXAMPLE.machine, lines).steps())
        >>> number, checker.fields
        (3, (0, 'a', 1))
        """
        number, wanted = 2, list[str]()
        try:
            reader = Reader(self.lines)
            checker = self._checker(reader.head)
            if reader.head.version == 2:
                wanted = [*map(task_text, self.tasks)][::-1]
            for line in reader.lines():
                number = reader.number
                if wanted:
                    if line != f"{wanted[-1]}\n":
                        raise Wrong("")
                    wanted.pop()
                    continue
                if number > MOST_LINES or not checker.passes(line):
                    checker.judge(reader.spelled(line))
                reader.has_ended = checker.form is END
                if reader.has_ended and checker.step.summary.ticks != reader.head.ticks:
                    raise Wrong(f"the run stops at a missed deadline, and the plan line says {reader.head.ticks} ticks")
                yield number, checker
        except TraceFault as fault:
            raise WrongTrace(fault.line, f"wanted {wanted[-1]}" if wanted else fault.reason) from None
        except (Wrong, DeadlineMissed) as wrong:
            raise WrongTrace(number, f"wanted {wanted[-1]}" if wanted else str(wrong)) from None

    def _checker(self, head: Head) -> Checker:
        governor, missed = split_governor(head.governor)
        pair, rule = (head.scheduler, governor), None
        if self.scheduler is None and head.scheduler not in [*Scheduler]:
            raise Wrong(f"no scheduler {head.scheduler}")
        plan = Plan(self.tasks, self.machine, self.scheduler or head.scheduler)
        if not self.any_governor and self.scheduler is None:
            if pair not in governors.GOVERNORS:
                raise Wrong(f"no scheduler and governor {' '.join(pair)}")
            rule = governors.GOVERNORS[pair]
            if missed is None:
                plan.admit()
        needs = None if self.demands is None else plan.needs(self.demands)
        return Checker(Step(state.State.begin(plan, missed), head.ticks, rule, needs), head.version)
