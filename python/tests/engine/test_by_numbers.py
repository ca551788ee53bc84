"""Calls of the library with numbers: what it is given, and that it answers as by text."""

from collections.abc import Callable
from pathlib import Path

import pytest
from hypothesis import example, given
from hypothesis import strategies as st

from rtdvs.engine import (
    Admitted, Constrained, Engine, Least, LibraryEngine, admit_call, constrain_call, least_call, response_call,
)
from rtdvs.errors import Denied, OutOfMemory, RtdvsError, TooManyJobs
from rtdvs.model import Deadlines, Machine, Point, Task, TaskSet
from tests.shared.examples import BOARD, PAPER, machines, task_sets

TASKS = TaskSet((Task("b", 8, 12), Task("a", 10, 2**60)))
TWO = Machine((Point(2, 3000), Point(4, 5000)), idle=7, charge=9)
ONE = TaskSet((Task("a", 1, 1),))


# What the library is given, by a stand-in that answers it

def test_numbers_of_an_admission(stand_in: Path) -> None:
    engine = LibraryEngine(stand_in)
    assert engine.admit(TASKS, TWO, "edf") == Admitted("edf", num=2**60 + 2**65, den=10 + 2**65, speed=4)
    with pytest.raises(Denied) as refused:
        engine.admit(TASKS, TWO, "rm")
    assert refused.value == Denied("rm", asked=2**60 + 2**64, capacity=4, task="a")


def test_numbers_of_responses(stand_in: Path) -> None:
    engine = LibraryEngine(stand_in)
    assert engine.respond(TASKS, TWO) == {"b": 8 + 9 + 2, "a": 10 + 9 + 2}
    with pytest.raises(Denied) as refused:
        engine.respond(TaskSet((*TASKS, Task("late", 4, 1, offset=2))), TWO)
    assert refused.value == Denied("offset", task="late")


def test_numbers_of_deadlines(stand_in: Path) -> None:
    """A task that has none has its period."""
    engine = LibraryEngine(stand_in)
    assert engine.constrain(TASKS, TWO, Deadlines({"a": 3})) == Constrained(8 + (3 << 64), 10 + (9 << 64), speed=4)
    with pytest.raises(TooManyJobs) as many:
        engine.constrain(TaskSet((*TASKS, Task("c", 2, 1))), TWO, Deadlines({}))
    assert many.value == TooManyJobs(100001, most=100000)
    with pytest.raises(Denied) as refused:
        engine.constrain(TaskSet((*TASKS, Task("c", 3, 5))), TWO, Deadlines({"c": 2}))
    assert refused.value == Denied("demand", asked=5 + 2**64, capacity=1, ticks=2)


@pytest.mark.parametrize("deadlines", [Deadlines({"c": 3}), b"task,deadline\n"], ids=["of no task", "a text"])
def test_deadlines_that_are_asked_by_text(deadlines: Deadlines | bytes, stand_in: Path) -> None:
    assert LibraryEngine(stand_in).constrain(TASKS, TWO, deadlines) == Constrained(1, 1, 1)


@pytest.mark.parametrize(("units", "price"), [(2**64 - 2, 3), (2**64 - 1, -3)], ids=["plus", "minus"])
def test_numbers_of_the_least_energy(units: int, price: int, stand_in: Path) -> None:
    found = LibraryEngine(stand_in).least(TWO, units, 16)
    assert found == Least(16, 2, 7, 5000, 9, energy=1 + (units << 64), unit_price=2, tick_price=price)


TEXT = b"[[task]]"


@pytest.mark.parametrize("ask", [
    pytest.param(lambda engine: engine.admit(Path("tasks.toml"), TWO, "edf"), id="a path"),
    pytest.param(lambda engine: engine.admit(TASKS, b"[[point]]", "edf"), id="a text"),
    pytest.param(lambda engine: engine.admit(TASKS, TWO, "dm"), id="a scheduler that is none"),
    pytest.param(lambda engine: engine.admit(ONE, TWO, "edf"), id="a refusal that isn't a denial"),
])
def test_what_is_asked_by_text(ask: Callable[[Engine], object], stand_in: Path) -> None:
    """The stand-in runs out of memory then."""
    with pytest.raises(OutOfMemory):
        ask(LibraryEngine(stand_in))


@pytest.mark.parametrize("work", [(2**64, 16), (-1, 16), (3, 2**64), (True, 16)], ids=str)
def test_work_that_is_no_number_of_64_bits(work: tuple[int, int], stand_in: Path) -> None:
    """The stand-in answers a text with its words, which is no answer of `least`."""
    with pytest.raises(RtdvsError, match="an unknown answer: '[0-9]+ least --units"):
        LibraryEngine(stand_in).least(TWO, *work)


def test_a_time_limit_is_kept(stand_in: Path) -> None:
    """With one the call is by text, in a process of its own."""
    with pytest.raises(OutOfMemory):
        LibraryEngine(stand_in, 60).admit(TASKS, TWO, "edf")


# The library answers as by text

def outcome(ask: Callable[[], object]) -> object:
    """An answer, or the exception's kind, data and text."""
    try:
        return ask()
    except RtdvsError as refused:
        return type(refused), refused.args, str(refused)


@given(tasks=task_sets(5, st.integers(1, 12), st.integers(1, 10), st.sampled_from([0, 0, 0, 3])),
       machine=machines(3, 30, 2), deadline=st.integers(1, 12), units=st.integers(0, 400), ticks=st.integers(0, 20))
@example(PAPER, BOARD, 9, 28, 16)
@example(TaskSet((Task("a", 2**40, 2**60), Task("b", 4, 1))), BOARD, 2**40, 2**64 - 1, 2**40)
@example(TaskSet((Task("a", 2**40, 2**60, 2**40),)), BOARD, 5, 2**64, 2**40 + 1)
def test_equal_answers_by_text_and_by_numbers(library: Path, tasks: TaskSet, machine: Machine, deadline: int,
                                              units: int, ticks: int) -> None:
    """Also for a deadline above the period, and for one of a task that is none."""
    engine = LibraryEngine(library)
    for scheduler in ("edf", "rm", "dm"):
        assert outcome(lambda: engine.admit(tasks, machine, scheduler)) == outcome(
            lambda: engine.value(admit_call(tasks, machine, scheduler)))
    assert outcome(lambda: engine.respond(tasks, machine)) == outcome(
        lambda: engine.value(response_call(tasks, machine)))
    for deadlines in (Deadlines({tasks.names[0]: deadline}), Deadlines({"none": deadline})):
        assert outcome(lambda: engine.constrain(tasks, machine, deadlines)) == outcome(
            lambda: engine.value(constrain_call(tasks, machine, deadlines)))
    assert outcome(lambda: engine.least(machine, units, ticks)) == outcome(
        lambda: engine.value(least_call(machine, units, ticks)))


def test_no_text_is_written(library: Path, monkeypatch: pytest.MonkeyPatch) -> None:
    """Of an answer, and of each denial."""
    def refuse(*_: object) -> str:
        raise AssertionError("a text")

    for kind in (TaskSet, Machine, Deadlines):
        monkeypatch.setattr(kind, "text", refuse)
    engine = LibraryEngine(library)
    over, late = TaskSet((Task("a", 4, 9), Task("b", 4, 9))), TaskSet((Task("a", 4, 2, offset=1),))
    assert engine.admit(PAPER, BOARD, "edf").speed == 3
    assert engine.respond(PAPER, BOARD) == {"t1": 3, "t2": 6, "t3": 7}
    assert engine.constrain(PAPER, BOARD, Deadlines({"t1": 3})) == Constrained(12, 3, speed=4)
    found = engine.least(BOARD, 28, 16)
    assert found.energy == found.rounds * 28 * 3000**2 * 1000
    asks: dict[str, Callable[[], object]] = {
        "edf": lambda: engine.admit(over, BOARD, "edf"), "rm": lambda: engine.admit(over, BOARD, "rm"),
        "misses": lambda: engine.respond(over, BOARD), "offset": lambda: engine.respond(late, BOARD),
        "units": lambda: engine.least(BOARD, 65, 16),
        "demand": lambda: engine.constrain(PAPER, BOARD, Deadlines({"t1": 2})),
    }
    for test, ask in asks.items():
        with pytest.raises(Denied) as refused:
            ask()
        assert refused.value.test == test
