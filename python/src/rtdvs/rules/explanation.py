"""Explains each decision of a trace, and checks the whole trace.

For each decision: why it is made, what each task counts in the published demand, the sum, the first speed
that meets it, and the job that then runs. All of it is computed from the lines before by docs/RULES.md. Each
line is checked on the way: releases, legal ticks, decisions, demands, speeds, energies, completions,
deadlines and totals.

Without the demand file a job needs what its `done` line says, or its worst case without one. A run that ends
too early is then found one line later than `replay` finds it, at the line that is there instead of the `done`
line.
"""

from collections import deque
from collections.abc import Callable, Iterable, Sequence

from rtdvs.model import Demands, Machine, TaskSet
from rtdvs.rules.checker import Walk
from rtdvs.rules.governors import full, static
from rtdvs.rules.state import State
from rtdvs.rules.step import DECISION, DONE, RELEASE, Step, Summary, note_of
from rtdvs.rules.terms import TERMS, speeds
from rtdvs.trace import Decision, Done, Release


def _listed(words: Sequence[str]) -> str:
    """Words in a row.

    >>> _listed(["a"]), _listed(["a", "b", "c"])
    ('a', 'a, b and c')
    """
    return " and ".join([", ".join(words[:-1]), words[-1]] if len(words) > 1 else words)


def cause(tick: int, events: Sequence[Release | Done]) -> str:
    """Why there is a decision at a tick, by the releases and completions since the decision before.

    >>> from rtdvs.trace import Position
    >>> cause(3, [Done(Position(2, 2), "t1", 1, 8)])
    'since t1 job 1 was complete in tick 2'
    """
    released = [(note.task, note.job) for note in events if isinstance(note, Release)]
    done = [(note.task, note.job) for note in events if isinstance(note, Done)]
    causes = ["the start"] if tick == 0 and not released else []
    if released:
        words = [f"{task} job {job}" + " (it needs nothing)" * ((task, job) in done) for task, job in released]
        causes.append(f"release of {_listed(words)}")
    if words := [f"{task} job {job}" for task, job in done if (task, job) not in released]:
        verb = "was" if len(words) == 1 else "were"
        causes.append(f"since {_listed(words)} {verb} complete in tick {tick - 1}")
    return ", ".join(causes)


def _next_job(state: State) -> str:
    """Which job runs after a decision, and why."""
    if not state.open:
        return "no job is open: idle units follow"
    key = state.open[0][0]
    others = [state.jobs[other].task.name for value, other in state.open[1:] if value == key]
    why = "is due first, at" if state.plan.scheduler == "edf" else "has the shortest period,"
    tie = f", and is before {_listed(others)} in the file" if others else ""
    return f"{state.first} runs: of {len(state.open) + state.late.waiting} open it {why} {key}{tie}"


def board(number: int, decision: Decision, events: Sequence[Release | Done], step: Step) -> str:
    """The lines for a decision: its place in the trace, its cause, the terms of its demand, who then runs.

    >>> from rtdvs.rules.plan import EXAMPLE
    >>> print(board(4, Decision(0, 4, 4, 1), [], Step(State.begin(EXAMPLE), 4, full, None)))
    line 4, tick 0, the start: 4/1, speed 4
        always the highest speed, 4
        speed 2: 2 * 1 = 2, less than 4
        speed 4: 4 * 1 = 4, enough
        no job is open: idle units follow
    """
    state, rule, lines = step.state, step.rule, ["as at tick 0"]
    if rule and (decision.tick == 0 or rule not in (full, static)):
        lines = TERMS[rule](state) + speeds(state.plan.machine.points, decision.num, decision.den)
    place, why = f"line {number}, tick {decision.tick}", cause(decision.tick, events)
    head = f"{place}, {why}: {decision.num}/{decision.den}, speed {decision.speed}"
    late = [miss.text() for miss in state.late.misses if miss.due == decision.tick]
    return "\n    ".join([head, *late, *lines, _next_job(state)])


def explain(walk: Walk, show: Callable[[str], object] | None = None) -> Summary:
    """Checks a trace, and gives the text for each decision to `show`; without `show` no text is made.

    It ends early, after a decision for which `show` gives False.

    Raises WrongTrace for the first wrong line, and Denied if the scheduler's test fails.

    >>> from rtdvs.model import Point, Task
    >>> lines = ["trace 1\\n", "plan edf none 1\\n", "release 0 t 1\\n", "speed 0 2 2/1\\n",
    ...          "run 0:0 1:0 t 1 2 2000000000\\n", "end 1 2000000000 0\\n"]
    >>> explain(Walk(TaskSet((Task("t", 2, 4),)), Machine((Point(2, 1000),)), lines), print).decisions
    line 4, tick 0, release of t job 1: 2/1, speed 2
        always the highest speed, 2
        speed 2: 2 * 1 = 2, enough
        t job 1 runs: of 1 open it is due first, at 2
    1
    """
    steps = walk.steps()
    if show is None or walk.any_governor or walk.scheduler:
        return deque(steps, maxlen=1)[0][1].step.summary
    events: list[Release | Done] = []
    for number, checker in steps:
        if checker.form in (RELEASE, DONE, DECISION):
            note = note_of(checker.form, checker.fields)
            if isinstance(note, Decision):
                if show(board(number, note, events, checker.step)) is False:
                    break
                events.clear()
            elif isinstance(note, Release | Done):
                events.append(note)
    return checker.step.summary


def check(tasks: TaskSet, machine: Machine, lines: Iterable[str], demands: Demands | None = None,
          any_governor: bool = False) -> Summary:
    """Checks a trace, whose lines have their line feeds, and gives its totals.

    Raises WrongTrace for the first wrong line, and Denied if the scheduler's test fails. With
    `any_governor` a decision may be at any tick, with any demand and any speed of the machine.

    >>> from rtdvs.model import Point, Task
    >>> tasks, machine = TaskSet((Task("t", 2, 4),)), Machine((Point(2, 1000), Point(3, 1500)))
    >>> lines = ["trace 1\\n", "plan edf none 1\\n", "release 0 t 1\\n", "speed 0 2 4/2\\n"]
    >>> check(tasks, machine, lines)
    Traceback (most recent call last):
    rtdvs.errors.WrongTrace: line 4: the demand is 3/1: always the highest speed, 3
    """
    return explain(Walk(tasks, machine, lines, demands, any_governor))


def last_line(summary: Summary, any_governor: bool, named: bool) -> str:
    """The line for a right trace, which says whether the demands are those of a file.

    >>> last_line(Summary(2, 1, 1, 2, 6000), any_governor=True, named=False)[-27:]
    'legal, with its own demands'
    """
    verdict = "legal" if any_governor else "all as the rules say"
    own = "; not a run of the program" if summary.missed else ""
    return f"{summary.text()}: {verdict}, with {'the demands of the file' if named else 'its own demands'}{own}"
