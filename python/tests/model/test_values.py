"""Values that are refused where they are made: lines by hand, and the program's for random values."""

import json
import math
import random
from collections.abc import Callable, Mapping
from decimal import Decimal
from fractions import Fraction
from functools import partial
from typing import Any

import pytest

from rtdvs.engine import Engine
from rtdvs.errors import BadValue
from rtdvs.model import (
    PAIRS, Deadlines, Demands, Governor, Machine, Point, Request, Requests, Scheduler, Task, TaskSet, checked_name,
    checked_number, pair_of,
)
from tests.shared.refusals import CALLS, TASKS, line_of, program_lines

SET = TaskSet.parse(TASKS)  # a: period 4, worst case 2; b_2: period 6, worst case 3
NO_MULTIPLE = "tasks: periods have no common multiple up to 281474976710656"


# By hand

KINDS_OF_VALUES: dict[str, tuple[Callable[..., object], dict[str, object], dict[str, tuple[int, int]]]] = {
    "task": (Task, {"name": "t"}, {"period": (1, 2**40), "worst": (1, 2**60), "offset": (0, 2**40)}),
    "point": (Point, {}, {"speed": (1, 10**6), "millivolts": (1, 20_000)}),
    "machine": (Machine, {"points": [Point(1, 1)]}, {"idle": (0, 1000), "charge": (0, 10**6)}),
}
"""What makes a value, its fields that aren't numbers, and the least and greatest of the others."""


@pytest.mark.parametrize(("kind", "key"), [
    pytest.param(kind, key, id=key) for kind, (_, _, limits) in KINDS_OF_VALUES.items() for key in limits])
def test_numbers(kind: str, key: str) -> None:
    """Each number at its limits, beyond them, and of another kind."""
    make, others, limits = KINDS_OF_VALUES[kind]
    least, most = limits[key]
    lines = {least: None, most: None} | dict.fromkeys((least - 1, most + 1, 10**5000, -10**5000), "out of range")
    for value, reason in lines.items():
        found: dict[str, Any] = others | {name: at_least for name, (at_least, _) in limits.items()} | {key: value}
        assert line_of(partial(make, **found)) == (reason and f"{kind}: {key} {reason}"), value.bit_length()
    for wrong in (True, False, 4.0, math.nan, math.inf, Fraction(4), Decimal(4), "4", b"4", None, [4], 4j):
        assert line_of(partial(make, **found | {key: wrong})) == f"{kind}: wrong kind of {key}", wrong


def tasks(*periods: int, names: str = "abcdefghij") -> list[Task]:
    return [Task(name, period, 1) for name, period in zip(names, periods)]


BY_HAND = [
    pytest.param(lambda: Task("a b", 4, 2), "task: bad name", id="a name with a blank"),
    pytest.param(lambda: Task("", 4, 2), "task: bad name", id="no name"),
    pytest.param(lambda: Task("x" * 33, 4, 2), "task: bad name", id="a long name"),
    pytest.param(lambda: Task("a\n", 4, 2), "task: bad name", id="a line feed"),
    pytest.param(lambda: Task("\u00e4", 4, 2), "task: bad name", id="an umlaut"),
    pytest.param(lambda: Task("a b", 0, 0), "task: bad name", id="the name is first"),
    pytest.param(lambda: Task("a", 0, True), "task: period out of range", id="the period is second"),
    pytest.param(lambda: Task(7, 4, 2), "task: wrong kind of name", id="a number as a name"),  # type: ignore[arg-type]
    pytest.param(lambda: Task(b"a", 4, 2), "task: wrong kind of name", id="bytes"),  # type: ignore[arg-type]
    pytest.param(lambda: TaskSet([]), "tasks: no tasks", id="no tasks"),
    pytest.param(lambda: TaskSet(None), "tasks: wrong kind of task", id="None"),  # type: ignore[arg-type]
    pytest.param(lambda: TaskSet([("a", 4, 2)]), "tasks: task 1: wrong kind of entry", id="a row"),  # type: ignore[list-item]
    pytest.param(lambda: TaskSet("a"), "tasks: task 1: wrong kind of entry", id="a text"),  # type: ignore[arg-type]
    pytest.param(lambda: TaskSet([*tasks(1), *tasks(1)]), "tasks: tasks 1 and 2 have one name", id="one name"),
    pytest.param(lambda: TaskSet(tasks(1, 2, 3, 4, names="abcb")), "tasks: tasks 2 and 4 have one name", id="names"),
    pytest.param(lambda: TaskSet([Task(f"t{n}", 1, 1) for n in range(64)]), None, id="64 tasks"),
    pytest.param(lambda: TaskSet([Task(f"t{n}", 1, 1) for n in range(65)]), "tasks: 65 tasks, at most 64", id="65 tasks"),
    pytest.param(lambda: TaskSet([Task("a", 1, 1)] * 65), "tasks: 65 tasks, at most 64", id="the number is first"),
    pytest.param(lambda: TaskSet(tasks(2**24 - 1, 2**24)), None, id="a hyperperiod of 2^48 - 2^24"),
    pytest.param(lambda: TaskSet(tasks(2**24 + 1, 2**24)), NO_MULTIPLE, id="a hyperperiod of 2^48 + 2^24"),
    pytest.param(lambda: TaskSet.of([("a", 4, 2), ("b", 4)]), "tasks: task 2: missing worst", id="a short row"),
    pytest.param(lambda: TaskSet.of([()]), "tasks: task 1: missing name", id="an empty row"),
    pytest.param(lambda: TaskSet.of([("a", 4, 2, 0, 0)]), "tasks: task 1: wrong kind of entry", id="a long row"),
    pytest.param(lambda: TaskSet.of(["a42"]), "tasks: task 1: wrong kind of entry", id="a text as a row"),
    pytest.param(lambda: TaskSet.of([{"name": "a", "wcet": 2}]), "tasks: task 1: unknown key wcet", id="a key"),
    pytest.param(lambda: TaskSet.of([("a", 4, 2), ("a", 4, 2), ()]), "tasks: tasks 1 and 2 have one name", id="row by row"),
    pytest.param(lambda: Machine([]), "machine: no points", id="no points"),
    pytest.param(lambda: Machine([], idle=1001), "machine: idle out of range", id="idle is first"),
    pytest.param(lambda: Machine([], 0, -1), "machine: charge out of range", id="then charge"),
    pytest.param(lambda: Machine([(1, 2)]), "machine: point 1: wrong kind of entry", id="a pair"),  # type: ignore[list-item]
    pytest.param(lambda: Machine.of((n, n) for n in range(1, 33)), None, id="32 points"),
    pytest.param(lambda: Machine.of((n, n) for n in range(1, 34)), "machine: 33 points, at most 32", id="33 points"),
    pytest.param(lambda: Machine.of([(2, 2), (2, 2)]), "machine: point 2: not rising", id="one speed twice"),
    pytest.param(lambda: Machine.of([(2, 2), (3, 1)]), "machine: point 2: not rising", id="a lower voltage"),
    pytest.param(lambda: Machine.of([(2, 2), (3, 2)]), None, id="the same voltage"),
    pytest.param(lambda: Machine.of([(2, 2), (1, 1), (0, 0)]), "machine: point 2: not rising", id="point by point"),
    pytest.param(lambda: Machine.of([(2, 2), (0, 0)]), "machine: point 2: speed out of range", id="a range first"),
    pytest.param(lambda: Demands({("a", 1): 0, ("a", 2**64 - 1): 2**64 - 1}), None, id="demands at the limits"),
    pytest.param(lambda: Demands({("a", 1): -1}), "demands: row 1: bad units", id="units below 0"),
    pytest.param(lambda: Demands({("a", 1): 2**64}), "demands: row 1: bad units", id="units of 2^64"),
    pytest.param(lambda: Demands({("a", 1): True}), "demands: row 1: bad units", id="units of True"),
    pytest.param(lambda: Demands({("a", 1): 1.0}), "demands: row 1: bad units", id="a float"),  # type: ignore[dict-item]
    pytest.param(lambda: Demands({("a", 1): "1"}), "demands: row 1: bad units", id="a text"),  # type: ignore[dict-item]
    pytest.param(lambda: Demands({("a", 1): 1, ("a", 0): 1}), "demands: row 2: job 0", id="job 0"),
    pytest.param(lambda: Demands({("a", -1): 1}), "demands: row 1: bad job", id="a job below 0"),
    pytest.param(lambda: Demands({("a", 2**64): 1}), "demands: row 1: bad job", id="a job of 2^64"),
    pytest.param(lambda: Demands({("a", True): 1}), "demands: row 1: bad job", id="a job of True"),
    pytest.param(lambda: Demands({("a b", 1): 1}), "demands: row 1: unknown task a?b", id="a blank"),
    pytest.param(lambda: Demands({("\ud800", 1): 1}), "demands: row 1: unknown task ?", id="a half character"),
    pytest.param(lambda: Demands({(7, 1): 1}), "demands: row 1: unknown task 7", id="a number"),  # type: ignore[dict-item]
    pytest.param(lambda: Demands({"a": 1}), "demands: row 1: 2 fields", id="no job"),  # type: ignore[dict-item]
    pytest.param(lambda: Demands([1]), "demands: wrong kind of units", id="a list"),  # type: ignore[arg-type]
    pytest.param(lambda: Demands({("b", 1): 1}).belong_to(SET), "demands: row 1: unknown task b", id="another task"),
    pytest.param(lambda: Demands({("a", 9): 2, ("b_2", 1): 3}).belong_to(SET), None, id="the worst case"),
    pytest.param(lambda: Demands({("a", 9): 3}).belong_to(SET), "over worst: a 9 3 2", id="over the worst case"),
    pytest.param(lambda: Deadlines({"a": 1, "b_2": 2**40}), None, id="deadlines at the limits"),
    pytest.param(lambda: Deadlines({"a": 0}), "deadlines: row 1: deadline out of range", id="a deadline of 0"),
    pytest.param(lambda: Deadlines({"a": 2**40 + 1}), "deadlines: row 1: deadline out of range", id="a long deadline"),
    pytest.param(lambda: Deadlines({"a": -1}), "deadlines: row 1: bad deadline", id="a deadline below 0"),
    pytest.param(lambda: Deadlines({"a": True}), "deadlines: row 1: bad deadline", id="a deadline of True"),
    pytest.param(lambda: Deadlines({"": 1}), "deadlines: row 1: unknown task ", id="no task"),
    pytest.param(lambda: Deadlines(None), "deadlines: wrong kind of ticks", id="no deadlines"),  # type: ignore[arg-type]
    pytest.param(lambda: Deadlines({"b": 1}).belong_to(SET), "deadlines: row 1: unknown task b", id="no such task"),
    pytest.param(lambda: Deadlines({"b_2": 6}).belong_to(SET), None, id="a deadline of the period"),
    pytest.param(lambda: Deadlines({"b_2": 7}).belong_to(SET), "deadlines: row 1: deadline out of range", id="after it"),
    pytest.param(lambda: Request(2**64 - 1, 2**60), None, id="a request at the limits"),
    pytest.param(lambda: Request(2**64, 1), "request: bad arrival", id="an arrival of 2^64"),
    pytest.param(lambda: Request(-1, 0), "request: bad arrival", id="an arrival below 0"),
    pytest.param(lambda: Request(0, 0), "request: units out of range", id="no units"),
    pytest.param(lambda: Request(0, 2**60 + 1), "request: units out of range", id="too many units"),
    pytest.param(lambda: Request(0, 2**64), "request: bad units", id="2^64 units"),
    pytest.param(lambda: Request(0, True), "request: bad units", id="True units"),
    pytest.param(lambda: Requests([]), None, id="no requests"),
    pytest.param(lambda: Requests([Request(1, 1)] * 100_001), "requests: 100001 rows, at most 100000", id="requests"),
    pytest.param(lambda: Requests([Request(1, 1), Request(0, 1)]), "requests: row 2: too early", id="too early"),
    pytest.param(lambda: Requests.of([(0, 1), (1, 0)]), "requests: row 2: units out of range", id="the second row"),
    pytest.param(lambda: Requests([(0, 1)]), "requests: row 1: wrong kind of entry", id="no request"),  # type: ignore[list-item]
    pytest.param(lambda: Scheduler("EDF"), "a scheduler is edf or rm, not EDF", id="EDF"),
    pytest.param(lambda: Scheduler(""), "a scheduler is edf or rm, not ", id="no scheduler"),
    pytest.param(lambda: Governor("ccc"), "a governor is none, static, cc, la, not ccc", id="a governor"),
    pytest.param(lambda: pair_of("rm", "la"), "rm has no governor la", id="no pair"),
    pytest.param(lambda: pair_of("llf", "la"), "a scheduler is edf or rm, not llf", id="no scheduler of a pair"),
    pytest.param(lambda: checked_number("ticks", 2**40), None, id="most ticks"),
    pytest.param(lambda: checked_number("ticks", 2**40 + 1), "ticks out of range", id="too many ticks"),
    pytest.param(lambda: checked_number("ticks", 2.5), "wrong kind of ticks", id="half ticks"),
    pytest.param(lambda: checked_name("my governor"), "bad name", id="a governor's name"),
]


@pytest.mark.parametrize(("make", "line"), BY_HAND)
def test_by_hand(make: Callable[[], object], line: str | None) -> None:
    assert line_of(make) == line


def test_pairs() -> None:
    assert [" ".join(pair) for pair in PAIRS] == [
        "edf none", "edf static", "edf cc", "edf la", "rm none", "rm static", "rm cc"]
    assert all(pair_of(*map(str, pair)) == pair for pair in PAIRS)


def test_integers_of_numpy() -> None:
    """They become ints; its floats and its True are refused."""
    numpy = pytest.importorskip("numpy")
    eight = numpy.int64(8)
    values = (Task("a", eight, numpy.uint8(4), eight).period, Point(eight, eight).speed,
              Machine([Point(1, 1)], eight).idle, Demands({("a", eight): eight}).units["a", 8],
              Deadlines({"a": eight}).ticks["a"], Request(eight, eight).units)
    assert [*map(type, values)] == [int] * 6 and values == (8,) * 6
    demands, job = Demands({("a", eight): eight}), next(iter(Demands({("a", eight): eight}).units))
    assert type(job[1]) is int and demands.text() == "task,job,units\na,8,8\n"
    for wrong in (numpy.float64(8), numpy.bool_(True), numpy.array([8, 9])):
        assert line_of(lambda: Task("a", wrong, 1)) == "task: wrong kind of period"


# Against the program

NAMES = ["a", "b_2", "C-3", "x" * 32, "a b", "", "x" * 33, "\u00e4", "a\n", 5, True, 1.5]
WRONG: list[Any] = [4.0, True, False, "4", [4], math.nan, math.inf, -0.0, {}]


def near(draw: random.Random, least: int, most: int) -> Any:
    """A number at a limit or beside one, or now and then something else."""
    if draw.random() < 0.1:
        return draw.choice(WRONG)
    return draw.choice([least, most, least + 1, most - 1, least, most, draw.randint(least, most), least - 1, most + 1])


def changed(draw: random.Random, right: dict[str, Any], limits: Mapping[str, tuple[int, int]]) -> dict[str, Any]:
    """An entry with, mostly, one other value, a value less, or another key."""
    entry = dict(right)
    for key, bounds in limits.items():
        if draw.random() < 0.25:
            entry[key] = near(draw, *bounds)
    if "name" in entry and draw.random() < 0.15:
        entry["name"] = draw.choice(NAMES)
    if draw.random() < 0.05:
        del entry[draw.choice([*entry])]
    if draw.random() < 0.03:
        entry[draw.choice(["wcet", "Name", "volts", "\u00e9"])] = 1
    return entry


def toml(value: Any) -> str:
    return str(value).lower() if isinstance(value, (bool, float)) else json.dumps(value)


def toml_tables(kind: str, entries: list[dict[str, Any]]) -> str:
    return "".join(f"[[{kind}]]\n" + "".join(f"{json.dumps(key)} = {toml(value)}\n" for key, value in entry.items())
                   for entry in entries)


def csv_row(*fields: Any) -> str:
    return ",".join('"' + str(field).replace('"', '""') + '"' for field in fields)


Made = tuple[str, Callable[[], object]]
"""The text of a file, and what makes the same values in Python."""


def random_tasks(draw: random.Random) -> Made:
    limits = {"period": (1, 2**40), "worst": (1, 2**60), "offset": (0, 2**40)}
    count = draw.choice([1, 1, 1, 2, 2, 3, 64, 65])
    periods = draw.choice([[1, 2, 4], [2**24, 2**24 - 1], [2**24, 2**24 + 1], [2**40]])
    names = [f"t{draw.randrange(40)}" if count < 5 else f"t{place}" for place in range(count)]
    rows = [{"name": name, "period": draw.choice(periods), "worst": 1, "offset": 0} for name in names]
    place = draw.randrange(count)
    rows[place] = changed(draw, rows[place], limits)
    return toml_tables("task", rows), lambda: TaskSet.of(rows)


def random_machine(draw: random.Random) -> Made:
    limits = {"speed": (1, 10**6), "millivolts": (1, 20_000)}
    count = draw.choice([1, 1, 2, 3, 32, 33])
    rows = [{"speed": 2 + 2 * place, "millivolts": 2 + place // 2} for place in range(count)]
    place = draw.randrange(count)
    rows[place] = changed(draw, rows[place], limits)
    if draw.random() < 0.3:
        place = draw.randrange(count)
        rows[place] |= {draw.choice(["speed", "millivolts"]): 1 + place + draw.randint(-2, 2)}
    settings = {key: near(draw, 0, most) for key, most in (("idle", 1000), ("charge", 10**6)) if draw.random() < 0.2}
    text = "".join(f"{key} = {toml(value)}\n" for key, value in settings.items()) + toml_tables("point", rows)
    return text, lambda: Machine.of(rows, **settings)


def field(draw: random.Random, least: int, most: int) -> Any:
    value = near(draw, least, most)
    return 1 if value in ("4", {}, [4]) else value  # in a CSV file "4" is a number, and Python has no such key


def random_demands(draw: random.Random) -> Made:
    rows: list[list[Any]] = [["a", 1, 2], ["b_2", 2, 3], ["a", 3, 0]]
    row = draw.choice(rows)
    match draw.randrange(4):
        case 0:
            row[0] = draw.choice(["a", "b_2", "c", *NAMES])
        case 1:
            row[1] = field(draw, 1, 2**64 - 1)
        case 2:
            row[2] = field(draw, 0, draw.choice([2, 3, 2**60, 2**64 - 1]))
    units = {(task, job): number for task, job, number in rows}
    text = "\n".join(["task,job,units", *(csv_row(*job, number) for job, number in units.items())])
    return text, lambda: Demands(units).belong_to(SET)


def random_deadlines(draw: random.Random) -> Made:
    rows: list[list[Any]] = [["a", 4], ["b_2", 6]]
    row = draw.choice(rows)
    if draw.random() < 0.3:
        row[0] = draw.choice(["a", "c", *NAMES])
    else:
        row[1] = field(draw, 1, draw.choice([4, 6, 2**40, 2**64 - 1]))
    ticks = {task: number for task, number in rows}
    text = "\n".join(["task,deadline", *(csv_row(*row) for row in ticks.items())])
    return text, lambda: Deadlines(ticks).belong_to(SET)


def random_requests(draw: random.Random) -> Made:
    rows: list[list[Any]] = [[arrival, 1] for arrival in sorted(draw.randrange(9) for _ in range(3))]
    for row in draw.sample(rows, draw.randrange(3)):
        row[draw.randrange(2)] = field(draw, 1, draw.choice([9, 2**60, 2**64 - 1]))
    return "\n".join(["arrival,units", *(csv_row(*row) for row in rows)]), lambda: Requests.of(rows)


KINDS = {"tasks": random_tasks, "machine": random_machine, "demands": random_demands, "deadlines": random_deadlines,
         "requests": random_requests}


READERS: dict[str, Callable[[str], object]] = {
    "tasks": TaskSet.parse, "machine": Machine.parse, "demands": lambda text: Demands.parse(text, SET),
    "deadlines": lambda text: Deadlines.parse(text, SET), "requests": Requests.parse}


def values_of(kind: str) -> list[Made]:
    """Random values, by a fixed seed; of each kind there are 400, so 2,000 in all."""
    draw = random.Random(kind)
    return [KINDS[kind](draw) for _ in range(400)]


@pytest.mark.parametrize("kind", KINDS)
def test_random_values(kind: str) -> None:
    """What is made in Python is refused as the same values in a file; a quarter to three quarters are refused."""
    lines = []
    for text, make in values_of(kind):
        lines.append(line_of(make))
        assert lines[-1] == line_of(lambda: READERS[kind](text)), text
    assert 100 < lines.count(None) < 300 and len({*lines}) > 10


@pytest.mark.parametrize("kind", KINDS)
def test_the_program_refuses_the_same(kind: str, engine: Engine) -> None:
    values = values_of(kind)
    lines = program_lines(engine, [CALLS[kind](text.encode()) for text, _ in values])
    for (text, make), line in zip(values, lines, strict=True):
        assert line_of(make) == line, text


def test_a_bad_argument_is_no_file() -> None:
    with pytest.raises(BadValue):
        checked_number("ticks", 0)
