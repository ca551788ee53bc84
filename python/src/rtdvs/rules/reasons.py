"""Why a line of a trace isn't the right one."""

from collections.abc import Callable, Mapping
from typing import Any

from rtdvs import trace
from rtdvs.model import Task
from rtdvs.rules.state import Latest, State
from rtdvs.rules.step import DECISION, Step
from rtdvs.rules.terms import TERMS, speeds


class Reasons:
    """Says why a line isn't right where a run is; the run's step doesn't move.

    >>> from rtdvs.rules.governors import full
    >>> from rtdvs.rules.plan import EXAMPLE
    >>> Reasons(Step(State.begin(EXAMPLE), 4, full, None), version=1).of(trace.Release(0, "a", 2))
    'wanted job 1'
    """

    def __init__(self, step: Step, version: int) -> None:
        self.step, self.state, self.version, self.ticks = step, step.state, version, step.summary.ticks
        self.named = {job.task.name: job for job in step.state.jobs}
        self.points = {point.speed: point for point in step.state.plan.machine.points}
        self.of_kind: Mapping[type[trace.Line], Callable[[Any], str]] = {
            Task: lambda task: f"the task {task.name} is not in the task file", trace.Release: self._release,
            trace.Decision: self._decision, trace.Run: self._run, trace.Idle: self._idle, trace.Done: self._done,
            trace.TaskEnergy: self._energy, trace.End: self._end}

    def of(self, item: trace.Line) -> str:
        """The reason; empty for a decision that is free, and for a line that is wrong by its place only."""
        job = self.step.last
        if job and job.used == job.need and not isinstance(item, trace.Done):
            return self._must(job)
        return self.of_kind[type(item)](item)

    def _must(self, job: Latest) -> str:
        if not job.need:
            return f"{job} needs nothing, and its done line is missing"
        if self.step.needs is None and job.need < job.worst:
            return f"{job} has no done line here, so it is not complete and gets {self.step.whole} units"
        return f"{job} has had all of its {job.used} units, and its done line is missing"

    # Why a line isn't the right one

    def _is_elsewhere(self, tick: int) -> str:
        if self.state.late.has_stopped:
            return f"the run stops at {self.state.position}: {self.state.late.misses[0].text()}"
        if self.state.now != tick or self.state.behind:
            return f"the trace is at {self.state.position}"
        return ""

    def _missing_release(self) -> str:
        due, place = self.state.deadlines[0]
        if self.state.now != due or due >= self.ticks or self.state.behind:
            return ""
        job = self.state.jobs[place]
        return f"the release of {job.task.name} job {job.number + 1} at tick {due} is missing"

    def _job(self, note: trace.Run | trace.Done) -> Latest:
        """The job of a note if it is late and goes on; otherwise the latest of its task."""
        latest = self.named[note.task]
        late = self.state.late.jobs.get(latest.place, [])
        return next((job for job in late if job.number == note.job), latest)

    def _unknown(self, task: str) -> str:
        return "" if task in self.named else f"no task {task}"

    def _release(self, note: trace.Release) -> str:
        if fault := self._unknown(note.task) or self._is_elsewhere(note.tick):
            return fault
        state, job = self.state, self.named[note.task]
        if job.due != state.now or state.now >= self.ticks:
            return f"{note.task} is released next at tick {job.due}"
        first = state.jobs[state.deadlines[0][1]]
        if first is not job:
            return f"the release of {first.task.name} comes first, by its place in the file"
        return f"wanted job {job.number + 1}"

    def _decision(self, note: trace.Decision) -> str:
        state = self.state
        if fault := self._is_elsewhere(note.tick) or self._missing_release():
            return fault
        if state.now >= self.ticks or state.last.decided == state.now:
            return "no decision is made here"
        if note.speed not in self.points or not note.den:
            return f"the machine has no speed {note.speed}" if note.speed and note.den else trace.NO_FRACTION
        if self.step.rule is None:
            return ""
        form, fields = self.step.next()
        if form is not DECISION:
            return "no decision is made here"
        _, lowest, num, den = fields
        points = state.plan.machine.points
        if (note.num, note.den) != (num, den):
            return f"the demand is {num}/{den}: {'; '.join(TERMS[self.step.rule](state))}"
        return f"speed {lowest} is the lowest that meets {num}/{den}: {'; '.join(speeds(points, num, den))}"

    def _not_running(self) -> str:
        """Why no segment can begin, or an empty text."""
        state = self.state
        if (fault := self._missing_release()) or state.now >= self.ticks:
            return fault or f"the run ends at tick {self.ticks}"
        is_decided = state.point is not None and not (self.step.rule and state.is_decision)
        return "" if is_decided else f"the decision at tick {state.now} is missing"

    def _segment(self, note: trace.Run | trace.Idle) -> str:
        """Why the place or the energy of a segment is wrong, or an empty text."""
        state, units, point = self.state, note.units, self.state.point
        assert point is not None
        if note.begin != (state.now, state.behind):
            return f"the trace is at {state.position}"
        room, end = self.step.room()
        if not 1 <= units <= room:
            events = {state.last.seen: "a decision", self.ticks: "the end", state.first_deadline: "a release"}
            event = events.get(end, "another job's turn")
            return f"{units} units: at speed {point.speed} there are {room} up to {event} at tick {end}"
        after = state.after(units, point.speed)
        if note.end != after:
            return f"{units} units at speed {point.speed} end at {after}"
        factor = 1000 if isinstance(note, trace.Run) else state.plan.machine.idle
        return trace.wrong_energy(note, point.millivolts, factor)

    def _not_next(self, note: trace.Run, job: Latest) -> str:
        """Why the job of a run isn't the open one of the highest priority."""
        first, scheduler = self.state.first, self.state.plan.scheduler
        if note.job > job.number:
            tick = job.task.offset + (note.job - 1) * job.task.period
            return f"{note.task} job {note.job} is released at tick {tick}"
        late = self.state.late
        if dropped := [miss for miss in late.misses if (miss.task, miss.job) == (note.task, note.job)]:
            if late.missed is trace.Missed.DROP:
                return f"{note.task} job {note.job} was dropped at {dropped[0].due}"
        if note.job < job.number or job.complete or first is None:
            return f"{note.task} job {note.job} is complete"
        why = f"due at {first.due}" if scheduler == "edf" else f"its period is {first.task.period}"
        why = f"its priority is {self.state.open[0][0]}" if callable(scheduler) else why
        return f"{first} comes first: it is not complete, and {why}"

    def _run(self, note: trace.Run) -> str:
        if fault := self._not_running() or self._unknown(note.task):
            return fault
        job = self._job(note)
        if job is not self.state.first or note.job != job.number:
            return self._not_next(note, job)
        if note.units > job.need - job.used:
            return f"{job} has {job.need - job.used} units left"
        return self._segment(note) or f"{job} gets {self.step.whole} units here"

    def _idle(self, note: trace.Idle) -> str:
        if fault := self._not_running():
            return fault
        if job := self.state.first:
            return f"{job} is not complete: it has had {job.used} units"
        return self._segment(note) or f"{self.step.whole} units are idle here"

    def _done(self, note: trace.Done) -> str:
        if fault := self._unknown(note.task):
            return fault
        state, job = self.state, self._job(note)
        if self.step.last is not job or job.complete:
            return f"the line before isn't the last one of {note.task} job {note.job}"
        if note.at != (state.now, state.behind) or note.job != job.number or note.used != job.used:
            return f"{job} is at {state.position} and has had {job.used} units"
        if job.used != job.need:
            return f"{job} needs {job.need} units"
        return f"{job} needs at least {2 * self.state.plan.machine.charge} units"

    def _energy(self, note: trace.TaskEnergy) -> str:
        if self.state.now < self.ticks:
            return f"the energy lines are after the last tick, and the trace is at {self.state.position}"
        name = next(iter(self.step.closing), "")
        return trace.closing_fault(note, self.version, name, self.step.energies.get(name, 0))

    def _end(self, note: trace.End) -> str:
        if fault := self._is_elsewhere(self.ticks):
            return fault
        self.state.all_met()
        if note.ticks != self.ticks:
            return f"the run has {self.ticks} ticks"
        return (trace.wrong_sums(note, self.step.summary.run_energy, self.step.summary.idle_energy)
                or trace.closing_fault(note, self.version, next(iter(self.step.closing), ""), 0))
