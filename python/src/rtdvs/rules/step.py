"""The one stepper: the right next line of a run, and the state after it."""

from collections.abc import Callable
from dataclasses import dataclass
from typing import Any

from rtdvs.model import Point
from rtdvs.rules.governors import Rule, rm_cycle
from rtdvs.rules.plan import Needs
from rtdvs.rules.state import Latest, State
from rtdvs.trace import Decision, Done, End, Idle, Note, Position, Release, Run, TaskEnergy

Fields = tuple[Any, ...]
RELEASE, DECISION, DONE = "release %d %s %d\n", "speed %d %d %d/%d\n", "done %d:%d %s %d %d\n"
RUN, IDLE = "run %d:%d %d:%d %s %d %d %d\n", "idle %d:%d %d:%d %d %d\n"
ENERGY, END, UNKNOWN = "energy %s %d\n", "end %d %d %d\n", ""
_NOTES: dict[str, Callable[..., Note]] = {
    RELEASE: Release, DECISION: Decision, ENERGY: TaskEnergy, END: End,
    RUN: lambda a, b, c, d, *fields: Run(Position(a, b), Position(c, d), *fields),
    IDLE: lambda a, b, c, d, *fields: Idle(Position(a, b), Position(c, d), *fields),
    DONE: lambda a, b, *fields: Done(Position(a, b), *fields),
}


def note_of(form: str, fields: Fields) -> Note:
    """A line that is a form with its fields, as a value.

    >>> note_of(DONE, (2, 2, "t1", 1, 8)), DONE % (2, 2, "t1", 1, 8)
    (Done(at=Position(tick=2, offset=2), task='t1', job=1, used=8), 'done 2:2 t1 1 8\\n')
    """
    return _NOTES[form](*fields)


@dataclass(slots=True)
class Summary:
    """What the notes of a run of some ticks add up to.

    >>> Summary(ticks=2, released=1).complete
    0
    """

    ticks: int
    released: int = 0
    complete: int = 0
    decisions: int = 0
    run_energy: int = 0
    idle_energy: int = 0
    missed: int = 0

    def text(self) -> str:
        """The numbers on one line.

        >>> Summary(2, 1, 1, 2, 6000).text()
        '2 ticks, 1 jobs released, 1 complete, 2 decisions, energy 6000 running and 0 idle'
        """
        jobs = f"{self.released} jobs released, {self.complete} complete, {self.decisions} decisions"
        jobs += f", {self.missed} deadlines missed" if self.missed else ""
        return f"{self.ticks} ticks, {jobs}, energy {self.run_energy} running and {self.idle_energy} idle"


class Step:
    """A run up to a position: `next` has the line that is right there, and `take` goes past it.

    Without a rule the decisions are made by `decide`. Without `needs` each job needs its worst case, until
    someone sets the job's `need`.

    >>> from rtdvs.rules.governors import full
    >>> from rtdvs.rules.plan import EXAMPLE
    >>> step = Step(State.begin(EXAMPLE), 4, full, {})
    >>> form, fields = step.next()
    >>> form % fields
    'release 0 a 1\\n'
    >>> step.take(form, fields)
    >>> [job.number for job in step.state.jobs]
    [1, 0]
    """

    def __init__(self, state: State, ticks: int, rule: Rule | None, needs: Needs | None) -> None:
        self.state, self.rule, self.needs = state, rule, needs
        self.summary = Summary(ticks)
        self.energies = {job.task.name: 0 for job in state.jobs}
        self.closing = [*self.energies]  # the tasks whose energy lines are to come, in version 2
        self.last: Latest | None = None  # released or run by the last line: its completion may be next
        # Of the line that is right next: its job, and its units if nothing cuts it.
        self.job: Latest | None = None
        self.whole = 0

    def next(self, most: int = 0) -> tuple[str, Fields]:
        """The form and the fields of the line that is right next; UNKNOWN if only `decide` can say more.

        A segment has at most that many units, if they aren't 0. Raises DeadlineMissed, and BadValue if a
        function's answer is no demand.
        """
        state, job = self.state, self.last
        now, behind = state.now, state.behind
        if job and job.used == job.need:
            self.job = job
            return DONE, (now, behind, job.task.name, job.number, job.used)
        if not behind:
            if now == self.summary.ticks:
                return self._close()
            due, place = state.deadlines[0]
            if due == now:
                state.all_met()
                if state.late.has_stopped:
                    self.summary.ticks = now
                    return self._close()
                self.job = job = state.jobs[place]
                return RELEASE, (now, job.task.name, job.number + 1)
            if self.rule and state.is_decision:
                return self._decision(self.rule)
        return (UNKNOWN, ()) if state.point is None else self._segment(state.point, most)

    def _decision(self, rule: Rule) -> tuple[str, Fields]:
        state = self.state
        if callable(state.plan.scheduler):
            state.reorder()
        if rule is rm_cycle:
            state.hand_out()
        num, den = rule(state)
        return DECISION, (state.now, state.plan.lowest(num, den).speed, num, den)

    def _segment(self, point: Point, most: int) -> tuple[str, Fields]:
        """The units of one job, or the idle ones, up to the next event."""
        state, speed = self.state, point.speed
        if callable(state.plan.scheduler):
            state.reorder()
        self.job = job = state.first
        units = self.room()[0]
        if job:
            units = min(units, job.need - job.used)
        self.whole = units
        if most and most < units:
            units = most
        ticks, behind = divmod(state.behind + units, speed)
        place = state.now, state.behind, state.now + ticks, behind
        price = units * point.millivolts * point.millivolts
        if job is None:
            return IDLE, (*place, units, price * state.plan.machine.idle)
        return RUN, (*place, job.task.name, job.number, units, price * 1000)

    def room(self) -> tuple[int, int]:
        """The units that there are for a segment, and the tick up to which."""
        state, speed = self.state, self.state.point.speed if self.state.point else 0
        end = min(state.deadlines[0][0], self.summary.ticks)
        if self.rule and state.now < state.last.seen < end:
            end = state.last.seen  # the decision after a completion
        if len(state.open) > 1 and callable(state.plan.scheduler):
            end = state.first_until(end, speed)
        return (end - state.now) * speed - state.behind, end

    def _close(self) -> tuple[str, Fields]:
        if self.closing:
            return ENERGY, (self.closing[0], self.energies[self.closing[0]])
        self.state.all_met()
        self.summary.missed = len(self.state.late.misses)
        return END, (self.summary.ticks, self.summary.run_energy, self.summary.idle_energy)

    def take(self, form: str, fields: Fields) -> None:
        """Goes past the line that `next` said last."""
        state, job, summary = self.state, self.job, self.summary
        if form is RUN and job:
            _, _, state.now, state.behind, name, _, units, energy = fields
            job.used += units
            job.left -= units
            summary.run_energy += energy
            self.energies[name] += energy
            self.last = job
            return
        self.last = None
        if form is DONE and job:
            self.last = state.complete(job)
            summary.complete += 1
        elif form is DECISION:
            self.decide(state.plan.lowest(*fields[2:]))
        elif form is RELEASE and job:
            self._release(job)
        elif form is IDLE:
            _, _, state.now, state.behind, _, energy = fields
            summary.idle_energy += energy
        elif form is ENERGY:
            self.closing.pop(0)

    def decide(self, point: Point) -> None:
        """Takes a decision for a point."""
        self.state.point, self.state.last.decided, self.last = point, self.state.now, None
        self.summary.decisions += 1

    def _release(self, job: Latest) -> None:
        self.state.release(job)
        self.summary.released += 1
        self.last = job if self.state.oldest(job.place) is job else None
        if self.needs is not None:
            job.need = self.needs.get((job.task.name, job.number), job.worst)
