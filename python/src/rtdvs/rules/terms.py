"""The terms of each published demand, and of the speed that meets it, as text."""

from collections.abc import Callable, Sequence

from rtdvs.model import Point
from rtdvs.rules.governors import Rule, edf_ahead, edf_cycle, full, rm_cycle, static
from rtdvs.rules.plan import Plan, ceiling
from rtdvs.rules.state import Latest, State


def total(terms: Sequence[int]) -> str:
    """A sum with its terms.

    >>> total([420, 336, 80])
    '420 + 336 + 80 = 836'
    """
    return f"{' + '.join(map(str, terms))} = {sum(terms)}"


def rounded(num: int, den: int, value: int) -> str:
    """A quotient, and the whole number to which it is rounded.

    >>> rounded(2184, 280, 7), rounded(1120, 6, 187), rounded(560, 280, 2)
    ('2184/280, down to 7', '1120/6, up to 187', '560/280 = 2')
    """
    if num % den == 0:
        return f"{num}/{den} = {value}"
    return f"{num}/{den}, {'up' if value * den > num else 'down'} to {value}"


def _rates(plan: Plan) -> list[str]:
    hyper = plan.hyperperiod
    return [f"{task.name}: worst case {worst} * {hyper}/{task.period} = {worst * (hyper // task.period)}"
            for task, worst in zip(plan.tasks, plan.worsts, strict=True)]


def _static(state: State) -> list[str]:
    """The terms of `static`; under RM the first of the levels with the most work per tick is named.

    >>> from rtdvs.rules.plan import EXAMPLE
    >>> from rtdvs.model import Task, TaskSet
    >>> tie = TaskSet((Task("a", 4, 4), Task("b", 5, 2), Task("c", 8, 4)))
    >>> _static(State.begin(Plan(tie, EXAMPLE.machine, "rm")))[2:]  # doctest: +NORMALIZE_WHITESPACE
    ['c and those before it in 8 ticks: 2 * 4 + 2 * 2 + 1 * 4 = 16',
     'the most work per tick is that of b: 10/5']
    """
    plan, lines = state.plan, []
    if plan.scheduler == "edf":
        return [*_rates(plan), f"{total(plan.rates)}, over the hyperperiod {plan.hyperperiod}"]
    for rank in range(len(plan.tasks)):
        task, work = plan.level(rank)
        terms = [f"{ceiling(task.period, plan.tasks[place].period)} * {plan.worsts[place]}"
                 for place in plan.by_period[:rank + 1]]
        lines.append(f"{task.name} and those before it in {task.period} ticks: {' + '.join(terms)} = {work}")
    first = next(name for work, ticks, name in plan.levels() if (work, ticks) == plan.static)
    return [*lines, f"the most work per tick is that of {first}: {plan.static[0]}/{plan.static[1]}"]


def _edf_cycle(state: State) -> list[str]:
    hyper, parts, lines = state.plan.hyperperiod, [], []
    for job in state.jobs:
        units = job.used if job.complete else job.worst
        parts.append(units * (hyper // job.task.period))
        why = f"complete with {units}" if job.complete else f"not complete, worst case {units}"
        lines.append(f"{job} is {why}: {units} * {hyper}/{job.task.period} = {parts[-1]}")
    return [*lines, f"{total(parts)}, over the hyperperiod {hyper}"]


def _rm_cycle(state: State) -> list[str]:
    (start, handed), end, speed = state.last.handed, state.first_deadline, state.plan.static_speed
    room = (end - start) * speed
    lines = [f"handed out at tick {start}, up to the earliest deadline {end}, at the static speed {speed}: "
             f"{end - start} * {speed} = {room}"]
    might, parts = {job.place: units for job, units in handed}, []
    for place in state.plan.by_period:
        job, units = state.jobs[place], might.get(place, 0)
        allotted = min(units, room)
        room -= allotted
        had = units - job.left
        parts.append(0 if job.complete else max(0, allotted - had))
        why = "is complete" if job.complete else f"has had {had} since"
        lines.append(f"{job} might need {units}, is allotted {allotted} and {why}: {parts[-1]} left")
    return [*lines, f"{total(parts)}, over the time {end} - {state.now} = {end - state.now}"]


def _edf_ahead(state: State) -> list[str]:
    plan, first = state.plan, state.first_deadline
    most = plan.machine.top_speed * plan.hyperperiod
    lines = [*(_rates(plan) if state.now == 0 else []),
             f"rates {total(plan.rates)}, of {plan.machine.top_speed} * {plan.hyperperiod} = {most}; "
             f"the earliest deadline is {first}", "from the last deadline to the first:"]
    kept, before = sum(plan.rates), []
    for due, place in reversed(state.deadlines):
        job = state.jobs[place]
        now, line = job.left, (f"{job}, due at {due}, may need {job.left} more: "
                               f"due first, it puts off nothing, {job.left} before {first}")
        if due > first:
            kept, now, line = _put_off(job, kept, state)
        before.append(now)
        lines.append(line)
    return [*lines, f"{total(before)}, over the time {first} - {state.now} = {first - state.now}"]


def _put_off(job: Latest, kept: int, state: State) -> tuple[int, int, str]:
    """For a job that may put off work: the rates that are then kept, its units before, and the line."""
    plan, name, first = state.plan, job.task.name, state.first_deadline
    hyper, span, rate = plan.hyperperiod, job.due - first, plan.rates[job.place]
    without = kept - rate
    rates = f"rates without {name}: {kept} - {rate} = {without}"
    if job.complete:
        return without, 0, f"{job}, due at {job.due}, is complete: {rates}"
    most = plan.machine.top_speed * hyper
    spare = (most - without) * span
    room = spare // hyper
    put_off = max(0, min(job.left, room))
    need = ceiling(put_off * hyper, span)
    return without + need, job.left - put_off, (
        f"{job}, due at {job.due}, may need {job.left} more: {rates}; "
        f"room from {first} to {job.due}: ({most} - {without}) * {span} / {hyper} = {rounded(spare, hyper, room)}; "
        f"{put_off} of {job.left} put off, {job.left - put_off} before {first}; "
        f"{name} then needs {put_off} * {hyper} / {span} = {rounded(put_off * hyper, span, need)}: "
        f"rates {without} + {need} = {without + need}")


TERMS: dict[Rule | None, Callable[[State], list[str]]] = {
    full: lambda state: [f"always the highest speed, {state.plan.machine.top_speed}"],
    static: _static, edf_cycle: _edf_cycle, rm_cycle: _rm_cycle, edf_ahead: _edf_ahead,
}


def speeds(points: tuple[Point, ...], num: int, den: int) -> list[str]:
    """Why a speed is the first that meets a demand: the speed before it, and itself.

    >>> speeds((Point(2, 3000), Point(3, 4000)), 696, 280)
    ['speed 2: 2 * 280 = 560, less than 696', 'speed 3: 3 * 280 = 840, enough']
    """
    lines: list[str] = []
    for point in points:
        product = f"speed {point.speed}: {point.speed} * {den} = {point.speed * den}"
        if num <= point.speed * den:
            return [*lines[-1:], f"{product}, enough"]
        lines.append(f"{product}, less than {num}")
    return [*lines[-2:], "no speed meets it: the highest is used"]
