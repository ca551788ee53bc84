"""Demands, schedules and boards of random plans against a model that goes tick by tick."""

import re
from collections import Counter
from collections.abc import Iterator
from fractions import Fraction
from itertools import accumulate, pairwise

import pytest

from rtdvs.errors import Denied
from rtdvs.model import Demands, Task, TaskSet
from rtdvs.rules import GOVERNORS, Plan, View, Walk, explain, simulate
from rtdvs.studies import PAIRS
from rtdvs.trace import Decision, Done, Release, Run, Trace
from tests.shared.examples import BOARD, DATA, TEMPLATE, Captured, explained, options, printed, refusal, value
from tests.shared.model import Model, random_case

def cases(pair: tuple[str, str], most: int = 40) -> Iterator[tuple[Model, Trace]]:
    """Random plans of at most `most` ticks that are admitted, and their simulated traces."""
    for seed in range(60):
        tasks, machine, demands, ticks = random_case(seed)
        model, plan = Model(tasks, machine, pair, demands), Plan(tasks, machine, pair[0])
        if model.admitted():
            plan.admit()
            yield model, simulate(tasks, machine, pair[0], min(ticks, most), pair[1], demands)
        else:
            with pytest.raises(Denied, match=f"denied {pair[0]} "):
                plan.admit()


@pytest.mark.parametrize("pair", PAIRS, ids="-".join)
def test_schedule(pair: tuple[str, str]) -> None:
    for model, trace in cases(pair):
        found = [(note.tick, Fraction(note.num, note.den), note.speed) for note in trace.decisions]
        assert found == list(model.decisions(trace.ticks))
        volts = {point.speed: point.millivolts for point in model.machine.points}
        units = {task.name: sum(share[place] for share in model.shares)
                 for place, task in enumerate(model.tasks)}
        assert units == {task.name: sum(note.units for note in trace.notes if isinstance(note, Run)
                                        and note.task == task.name) for task in model.tasks}
        chosen = {tick: speed for tick, _, speed in found}
        speeds = [*accumulate(range(trace.ticks), lambda speed, tick: chosen.get(tick, speed), initial=0)][1:]
        run, idle = 0, 0
        for speed, share in zip(speeds, model.shares, strict=True):
            run += sum(share) * volts[speed] ** 2 * 1000
            idle += (speed - sum(share)) * volts[speed] ** 2 * model.machine.idle
        assert (trace.run_energy, trace.idle_energy) == (run, idle)


@pytest.mark.parametrize("pair", GOVERNORS, ids="-".join)
def test_few_decisions_and_notes(pair: tuple[str, str]) -> None:
    for model, trace in cases(pair, 60):
        kinds = Counter(type(note) for note in trace.notes)
        assert len(trace.decisions) <= kinds[Release] + kinds[Done] + 1
        assert len(trace.notes) - len(model.tasks) <= 7 * kinds[Release] + 3


# The board

ARITHMETIC = re.compile(r"[\d(][\d+\-*/() ]*$")


def assert_arithmetic(line: str) -> None:
    """All sides of each equation are equal; what is rounded is rounded down or up."""
    for part in re.split(r"[:;,] ", line):
        sides = [found[0] for side in part.split(" = ") if (found := ARITHMETIC.search(side))]
        assert all(value(one) == value(two) for one, two in pairwise(sides)), line
    for num, den, way, rounded in re.findall(r"= (\d+)/(\d+), (up|down) to (\d+)", line):
        exact = Fraction(int(num), int(den))
        assert exact.denominator > 1 and int(rounded) == exact.__ceil__() - (way == "down"), line


def facts(model: Model, tick: int) -> set[str]:
    """What the lines for a decision have to say, by the model."""
    names = [f"{task.name} job {model.number(place, tick)}" for place, task in enumerate(model.tasks)]
    done = [model.complete(place, model.number(place, tick), tick) for place in model.places()]
    if model.pair == ("edf", "cc"):
        why = ["complete with" if complete else "not complete, worst case" for complete in done]
        return {f"{names[place]} is {why[place]} {model.charged(place, tick)}:" for place in model.places()}
    if model.pair == ("rm", "cc"):
        mark, rows = model.handed(tick)
        end, speed = model.first_deadline(tick), model.lowest(model.static())
        jobs = [model.number(place, tick) for place in model.places()]
        had = [model.had(place, job, tick) - model.had(place, job, mark) for place, job in enumerate(jobs)]
        head = f"handed out at tick {mark}, up to the earliest deadline {end}, at the static speed {speed}:"
        return {head} | {
            f"{names[place]} might need {might}, is allotted {allotted} and "
            f"{'is complete' if done[place] else f'has had {had[place]} since'}: {left} left"
            for place, might, allotted, left in rows}
    if model.pair == ("edf", "la"):
        first, wanted = model.first_deadline(tick), {f"the earliest deadline is {model.first_deadline(tick)}"}
        for place, might, before in model.put_off(tick):
            due = model.due(place, model.number(place, tick))
            last = due == first
            wanted.add(f"{names[place]}, due at {due}, " + ("is complete:" if done[place] and not last else
                                                           f"may need {might} more:"))
            if not done[place] or last:
                wanted.add(f"due first, it puts off nothing, {might} before {first}" if last else
                           f"{might - before} of {might} put off, {before} before {first};")
        return wanted
    return set()


def first_line(model: Model, tick: int, demand: Fraction, speed: int) -> str:
    """A pattern for the first line of a decision: its cause, and the demand."""
    names = [task.name for task in model.tasks]
    released = [f"{names[place]} job {model.number(place, tick)}" + (
        " (it needs nothing)" if model.need(place, model.number(place, tick)) == 0 else "")
        for place in model.released(tick)]
    completed = [f"{names[place]} job {model.number(place, tick - 1)}" for place in model.completed(tick)]
    causes = [f"release of {' and '.join(', '.join(released).rsplit(', ', 1))}"] if released else []
    if completed:
        listed = " and ".join(", ".join(completed).rsplit(", ", 1))
        verb = "was" if len(completed) == 1 else "were"
        causes.append(f"since {listed} {verb} complete in tick {tick - 1}")
    return f", tick {tick}, {', '.join(causes) or 'the start'}: "


def next_line(model: Model, tick: int) -> str:
    """Which job runs after a decision."""
    if not model.open(tick):
        return "no job is open: idle units follow"
    first, *others = model.open(tick)
    edf = model.pair[0] == "edf"
    keys = {place: model.due(place, model.number(place, tick)) if edf else model.tasks.tasks[place].period
            for place in [first, *others]}
    ties = [model.tasks.tasks[place].name for place in others if keys[place] == keys[first]]
    tie = f", and is before {' and '.join(', '.join(ties).rsplit(', ', 1))} in the file" if ties else ""
    why = "is due first, at" if edf else "has the shortest period,"
    name = f"{model.tasks.tasks[first].name} job {model.number(first, tick)}"
    return f"{name} runs: of {1 + len(others)} open it {why} {keys[first]}{tie}"


@pytest.mark.parametrize("pair", PAIRS, ids="-".join)
def test_board(pair: tuple[str, str]) -> None:
    for model, trace in cases(pair):
        lines = trace.text().splitlines(True)
        boards = explained(model.tasks, model.machine, model.demands, trace.text())
        for board, (tick, demand, speed) in zip(boards, model.decisions(trace.ticks), strict=True):
            head, *body, last = board.split("\n    ")
            number, rest = head.removeprefix("line ").split(first_line(model, tick, demand, speed))
            num, den = map(int, rest.removesuffix(f", speed {speed}").split("/"))
            assert Fraction(num, den) == demand
            assert lines[int(number) - 1] == f"speed {tick} {speed} {num}/{den}\n"
            assert last == next_line(model, tick)
            for line in body:
                assert_arithmetic(line)
            for fact in facts(model, tick):
                assert any(fact in line for line in body), (fact, board)
            assert_speeds(model, body, num, den)


def assert_speeds(model: Model, body: list[str], num: int, den: int) -> None:
    """The last lines are about the speed before the chosen one, and the chosen one."""
    if body == ["as at tick 0"]:
        return
    speeds = [point.speed for point in model.machine.points]
    enough = [speed for speed in speeds if speed * den >= num]
    too_slow = [f"speed {speed}: {speed} * {den} = {speed * den}, less than {num}" for speed in speeds
                if speed * den < num]
    wanted = [*too_slow[-2:], "no speed meets it: the highest is used"]
    if enough:
        wanted = [*too_slow[-1:], f"speed {enough[0]}: {enough[0]} * {den} = {enough[0] * den}, enough"]
    assert body[-len(wanted):] == wanted
    terms = body[:-len(wanted)]
    assert re.search(rf"(= |: |speed, ){num}(, over the .*\b{den}|/{den}|)$", terms[-1]), terms[-1]
    assert f"speed {enough[0] if enough else speeds[-1]}:" in body[-1] or not enough


# The command, against a trace of the program

def test_simulate_command(capsys: Captured) -> None:
    words = ["simulate", *options(DATA / "templates", "demands"), "--ticks", "8", "--format", "2", "--governor"]
    assert printed(capsys, [*words, "cc", "--scheduler", "edf"]) == TEMPLATE.read_text()
    assert refusal(capsys, [*words, "la", "--scheduler", "rm"]) == "rtdvs: rm has no governor la\n"


# Your own governors

TASKS = TaskSet((Task("a", 4, 4), Task("b", 6, 9)))


def test_own_governor() -> None:
    def careful(view: View) -> tuple[int, int]:
        """What is open, over the time to the earliest deadline."""
        return sum(job.remaining_wcet for job in view.ready), view.earliest_deadline - view.now

    trace = simulate(TASKS, BOARD, "edf", 12, careful, Demands({("a", 1): 2}))
    lines = trace.text().splitlines(True)
    summary = explain(Walk(TASKS, BOARD, lines, Demands({("a", 1): 2}), any_governor=True))
    # a needs 2 + 4 + 4 units and b 9 + 9; all are complete.
    assert (summary.released, summary.complete) == (5, 5)
    assert sum(note.units for note in trace.notes if isinstance(note, Run)) == 28
    assert trace.decisions[0] == Decision(0, 4, 13, 4)
