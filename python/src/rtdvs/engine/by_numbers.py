"""Calls with numbers, by the shared library: of values, with values as answers, and no text between.

The structures are those of rtdvs.h. Each call gives None where only a call with texts can say what is refused.
"""

import ctypes
from array import array
from collections.abc import Callable, Iterable, Mapping
from ctypes import POINTER, byref, c_size_t, c_uint64, c_void_p
from itertools import chain
from types import MappingProxyType
from typing import Any, TypeVar

from rtdvs.engine.answers import Admitted, Constrained, Least
from rtdvs.errors import Denied, TooManyJobs
from rtdvs.model import GREATEST, MOST_TASKS, Deadlines, Machine, TaskSet

SCHEDULERS = {"edf": 0, "rm": 1}
TESTS = {15: "edf", 16: "rm", 17: "offset", 18: "misses", 19: "demand", 20: "units"}
"""The causes of the refusals that are denials, each with the word of its test."""

JOBS = 23
"""The cause of too many jobs in a hyperperiod."""


class Wide(ctypes.Structure):
    """A number below 2^128.

    >>> number(Wide(low=1, high=2)) == 2**65 + 1
    True
    """

    _fields_ = [("low", c_uint64), ("high", c_uint64)]


class Settings(ctypes.Structure):
    """The idle cost, the charge, and the scheduler's number."""

    _fields_ = [("idle", c_uint64), ("charge", c_uint64), ("scheduler", c_uint64)]


class Refusal(ctypes.Structure):
    """A cause, the number of its task from 1 on or its ticks, and a test's two numbers of work units, or of jobs."""

    _fields_ = [("cause", c_uint64), ("place", c_uint64), ("num", Wide), ("cap", Wide)]


class Admission(ctypes.Structure):
    """The static or the constrained demand, and the lowest speed that meets it."""

    _fields_ = [("num", Wide), ("den", Wide), ("speed", c_uint64), ("refusal", Refusal)]


class Responses(ctypes.Structure):
    """Each task's response in ticks."""

    _fields_ = [("ticks", c_uint64 * MOST_TASKS), ("refusal", Refusal)]


class Work(ctypes.Structure):
    """So many units in so many ticks."""

    _fields_ = [("units", c_uint64), ("ticks", c_uint64)]


class LeastEnergy(ctypes.Structure):
    """The least energy, with its certificate."""

    _fields_ = [("rounds", c_uint64), ("low", c_uint64), ("low_ticks", c_uint64), ("high", c_uint64),
                ("high_ticks", c_uint64), ("energy", Wide), ("unit_price", Wide), ("tick_price", Wide),
                ("tick_minus", c_uint64), ("refusal", Refusal)]


Found = TypeVar("Found", Admission, Responses, LeastEnergy)
ARRAY: list[Any] = [c_void_p, c_size_t]
CALLS: dict[str, list[Any]] = {
    "rtdvs_admit": [*ARRAY, *ARRAY, POINTER(Settings), POINTER(Admission)],
    "rtdvs_constrain": [*ARRAY, *ARRAY, POINTER(Settings), POINTER(Admission)],
    "rtdvs_response": [*ARRAY, *ARRAY, POINTER(Settings), POINTER(Responses)],
    "rtdvs_least": [*ARRAY, POINTER(Settings), POINTER(Work), POINTER(LeastEnergy)],
}
"""The parameters of each call."""


def number(wide: Wide) -> int:
    """The number of two halves.

    >>> number(Wide(low=3))
    3
    """
    low, high = int(wide.low), int(wide.high)
    return low + (high << 64)


def admitted(library: ctypes.CDLL, machine: Machine, tasks: TaskSet, scheduler: str) -> Admitted | None:
    """The answer of `admit`; raises Denied."""
    if scheduler not in SCHEDULERS:
        return None
    found = _answer(library.rtdvs_admit, Admission(), tasks, *_set(machine, tasks, scheduler))
    return None if found is None else Admitted(scheduler, number(found.num), number(found.den), found.speed)


def responses(library: ctypes.CDLL, machine: Machine, tasks: TaskSet) -> dict[str, int] | None:
    """The answer of `response`, in ticks by task; raises Denied."""
    found = _answer(library.rtdvs_response, Responses(), tasks, *_set(machine, tasks))
    return None if found is None else dict(zip(tasks.names, found.ticks))


def constrained(library: ctypes.CDLL, machine: Machine, tasks: TaskSet, deadlines: Deadlines) -> Constrained | None:
    """The answer of `constrain`; raises Denied and TooManyJobs."""
    if not deadlines.ticks.keys() <= set(tasks.names):
        return None
    found = _answer(library.rtdvs_constrain, Admission(), tasks, *_set(machine, tasks, deadlines=deadlines.ticks))
    return None if found is None else Constrained(number(found.num), number(found.den), found.speed)


def least(library: ctypes.CDLL, machine: Machine, units: int, ticks: int) -> Least | None:
    """The answer of `least` for that many work units in those ticks; raises Denied."""
    if not (type(units) is type(ticks) is int and 0 <= units <= GREATEST and 0 <= ticks <= GREATEST):
        return None
    found = _answer(library.rtdvs_least, LeastEnergy(), None, *_points(machine), byref(Work(units, ticks)))
    if found is None:
        return None
    price = number(found.tick_price)
    return Least(found.rounds, found.low, found.low_ticks, found.high, found.high_ticks, number(found.energy),
                 number(found.unit_price), -price if found.tick_minus else price)


def _answer(call: Callable[..., int], found: Found, tasks: TaskSet | None, *arguments: Any) -> Found | None:
    """The structure, which the call has filled in; raises Denied and TooManyJobs, and any other refusal is None."""
    if not call(*arguments, byref(found)):
        return found
    raise_denial(found.refusal, tasks)
    return None


def _set(machine: Machine, tasks: TaskSet, scheduler: str = "edf",
         deadlines: Mapping[str, int] = MappingProxyType({})) -> list[Any]:
    """The tasks, the points and the settings, as a call has them."""
    rows = ((task.period, task.worst, task.offset, deadlines.get(task.name, task.period)) for task in tasks)
    return [_array(rows), len(tasks), *_points(machine, scheduler)]


def _points(machine: Machine, scheduler: str = "edf") -> list[Any]:
    rows = ((point.speed, point.millivolts) for point in machine.points)
    settings = Settings(machine.idle, machine.charge, SCHEDULERS[scheduler])
    return [_array(rows), len(machine.points), byref(settings)]


def _array(rows: Iterable[tuple[int, ...]]) -> Any:
    """The numbers of the rows in memory, as an argument that keeps them."""
    numbers = array("Q", chain.from_iterable(rows))
    return (c_uint64 * len(numbers)).from_buffer(numbers)


def raise_denial(refusal: Refusal, tasks: TaskSet | None = None) -> None:
    """Raises the Denied of a refusal that is one, or TooManyJobs; the task is named by its place.

    >>> raise_denial(Refusal(20, 0, Wide(65), Wide(64)))
    Traceback (most recent call last):
    rtdvs.errors.Denied: denied units 65 64
    >>> raise_denial(Refusal(cause=3, place=1))
    """
    if refusal.cause == JOBS:
        raise TooManyJobs(number(refusal.num), number(refusal.cap))
    if test := TESTS.get(refusal.cause):
        ticks = refusal.place if test == "demand" else None
        name = tasks[refusal.place - 1].name if tasks is not None and refusal.place and ticks is None else None
        asked, capacity = (None, None) if test == "offset" else (number(refusal.num), number(refusal.cap))
        raise Denied(test, asked, capacity, name, ticks)
