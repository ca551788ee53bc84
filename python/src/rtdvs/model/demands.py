"""The files of single jobs: demands, deadlines and requests."""

from collections.abc import Iterable, Iterator, Mapping, Sequence
from dataclasses import dataclass
from functools import partial
from pathlib import Path
from typing import Any, Self, TypeVar

from rtdvs import _display, errors
from rtdvs.model import _checks, _formats, limits
from rtdvs.model.tasks import TaskSet

Key = TypeVar("Key")
Value = TypeVar("Value", covariant=True)
DEMANDS, DEADLINES, REQUESTS = ("task", "job", "units"), ("task", "deadline"), ("arrival", "units")


class Frozen(Mapping[Key, Value]):
    """The values of another mapping as they are now; it has a hash.

    >>> frozen = Frozen({"a": 1})
    >>> frozen, frozen["a"], hash(frozen) == hash(Frozen({"a": 1}))
    ({'a': 1}, 1, True)
    """

    __slots__ = ("_values",)

    def __init__(self, values: Mapping[Key, Value]) -> None:
        self._values = dict(values)

    def __getitem__(self, key: Key) -> Value:
        return self._values[key]

    def __iter__(self) -> Iterator[Key]:
        return iter(self._values)

    def __len__(self) -> int:
        return len(self._values)

    def __hash__(self) -> int:
        return hash(frozenset(self._values.items()))

    def __repr__(self) -> str:
        return repr(self._values)


@dataclass(frozen=True, slots=True)
class Demands(_formats.File):
    """The work units, without the charge, of named jobs: (task, job) to units. Jobs count from 1.

    Raises FileRefused for what no demand file can have; `belong_to` compares with the tasks.

    >>> Demands({("a", 1): 2}).units
    {('a', 1): 2}
    >>> Demands({("a", 0): 2})
    Traceback (most recent call last):
    rtdvs.errors.FileRefused: demands: row 1: job 0
    """

    _kinds = {"task": "object", "job": "int64", "units": "int64"}

    units: Mapping[tuple[str, int], int]

    def __post_init__(self) -> None:
        if not isinstance(self.units, Mapping):
            raise errors.FileRefused("demands", "wrong kind of units")
        object.__setattr__(self, "units", Frozen(_units(_formats.rows("demands", DEMANDS, self._records()))))

    def _records(self) -> Iterator[tuple[object, ...]]:
        return ((*job, units) if isinstance(job, tuple) else (job, units) for job, units in self.units.items())

    def belong_to(self, tasks: TaskSet) -> None:
        """Raises FileRefused or OverWorst, as the program does, if the demands aren't of these tasks.

        >>> from rtdvs.model import Task
        >>> Demands({("a", 1): 3}).belong_to(TaskSet([Task("a", 4, 2)]))
        Traceback (most recent call last):
        rtdvs.errors.OverWorst: over worst: a 1 3 2
        """
        _units(_formats.rows("demands", DEMANDS, self._records()), tasks)

    @classmethod
    def parse(cls, text: str | bytes, tasks: TaskSet) -> Self:
        """The demands of a demand file's text for these tasks; raises FileRefused and OverWorst.

        >>> from rtdvs.model import Task
        >>> Demands.parse("task,job,units\\nb,1,3\\n", TaskSet([Task("a", 4, 2)]))
        Traceback (most recent call last):
        rtdvs.errors.FileRefused: demands: row 1: unknown task b
        >>> text = '"task",job,"units"\\r"a",1,"2"\\r\\n\\n\\r\\na,7,"0"'
        >>> Demands.parse(text, TaskSet([Task("a", 4, 2)])).units
        {('a', 1): 2, ('a', 7): 0}
        """
        return cls(_units(_formats.read_rows(text, "demands", DEMANDS), tasks))

    @classmethod
    def read(cls, path: Path, tasks: TaskSet) -> Self:
        """The demands of a file for these tasks; raises FileRefused, OverWorst and OSError.

        >>> from rtdvs.model import Task
        >>> Demands.read(Path("/"), TaskSet([Task("a", 4, 2)]))
        Traceback (most recent call last):
        IsADirectoryError: [Errno 21] Is a directory: '/'
        """
        return cls.parse(_formats.load(path), tasks)

    def text(self) -> str:
        """The demand file.

        >>> Demands({("a", 1): 2}).text()
        'task,job,units\\na,1,2\\n'
        """
        return _formats.table_text([DEMANDS, *((task, job, units) for (task, job), units in self.units.items())])

    def _rows(self) -> Iterable[Sequence[_display.Cell]]:
        return ((*job, units) for job, units in self.units.items())


def _units(found: Iterable[_formats.Row], tasks: TaskSet | None = None) -> dict[tuple[str, int], int]:
    """The units of each row's job; without tasks any name is one, with any worst case."""
    worsts = {task.name: task.worst for task in tasks} if tasks else None
    demands: dict[tuple[str, int], int] = {}
    for fault, (name, number, work) in found:
        task, job = _checks.checked_task(name, worsts, fault), _checks.checked_count("job", number, fault)
        if job == 0:
            raise fault("job 0")
        units = _checks.checked_count("units", work, fault)
        if (task, job) in demands:
            raise fault(f"task {task} job {job} stands twice")
        if worsts and units > worsts[task]:
            raise errors.OverWorst(task, job, units, worsts[task])
        demands[task, job] = units
    return demands


@dataclass(frozen=True, slots=True)
class Deadlines(_formats.File):
    """Relative deadlines in ticks from the release, for the tasks whose deadline isn't their period.

    Raises FileRefused for what no deadline file can have; `belong_to` compares with the tasks.

    >>> Deadlines({"a": 3}).ticks
    {'a': 3}
    """

    _kinds = {"task": "object", "deadline": "int64"}

    ticks: Mapping[str, int]

    def __post_init__(self) -> None:
        if not isinstance(self.ticks, Mapping):
            raise errors.FileRefused("deadlines", "wrong kind of ticks")
        found = _ticks(_formats.rows("deadlines", DEADLINES, [*self.ticks.items()]))
        object.__setattr__(self, "ticks", Frozen(found))

    def belong_to(self, tasks: TaskSet) -> None:
        """Raises FileRefused, as the program does, if the deadlines aren't of these tasks.

        >>> from rtdvs.model import Task
        >>> Deadlines({"a": 5}).belong_to(TaskSet([Task("a", 4, 2)]))
        Traceback (most recent call last):
        rtdvs.errors.FileRefused: deadlines: row 1: deadline out of range
        """
        _ticks(_formats.rows("deadlines", DEADLINES, [*self.ticks.items()]), tasks)

    @classmethod
    def parse(cls, text: str | bytes, tasks: TaskSet) -> Self:
        """The deadlines of a deadline file's text for these tasks; raises FileRefused.

        >>> from rtdvs.model import Task
        >>> Deadlines.parse("task,deadline\\na,3\\n", TaskSet([Task("a", 4, 2)]))
        Deadlines(ticks={'a': 3})
        """
        return cls(_ticks(_formats.read_rows(text, "deadlines", DEADLINES), tasks))

    @classmethod
    def read(cls, path: Path, tasks: TaskSet) -> Self:
        """The deadlines of a file for these tasks; raises FileRefused and OSError.

        >>> from rtdvs.model import Task
        >>> Deadlines.read(Path("/"), TaskSet([Task("a", 4, 2)]))
        Traceback (most recent call last):
        IsADirectoryError: [Errno 21] Is a directory: '/'
        """
        return cls.parse(_formats.load(path), tasks)

    def text(self) -> str:
        """The deadline file.

        >>> Deadlines({"a": 3}).text()
        'task,deadline\\na,3\\n'
        """
        return _formats.table_text([DEADLINES, *self.ticks.items()])

    def _rows(self) -> Iterable[Sequence[_display.Cell]]:
        return self.ticks.items()


def _ticks(found: Iterable[_formats.Row], tasks: TaskSet | None = None) -> dict[str, int]:
    """The deadline of each row's task; without tasks any name is one, with the longest period."""
    periods = {task.name: task.period for task in tasks} if tasks else None
    deadlines: dict[str, int] = {}
    for fault, (name, ticks) in found:
        task, deadline = _checks.checked_task(name, periods, fault), _checks.checked_count("deadline", ticks, fault)
        if not 1 <= deadline <= (periods[task] if periods else limits.LONGEST_TIME):
            raise fault("deadline out of range")
        if task in deadlines:
            raise fault(f"task {task} stands twice")
        deadlines[task] = deadline
    return deadlines


@dataclass(frozen=True, slots=True)
class Request:
    """A request to a polling server: its tick of arrival, and its work units; raises FileRefused.

    >>> Request(arrival=0, units=3).units
    3
    >>> Request(arrival=0, units=0)
    Traceback (most recent call last):
    rtdvs.errors.FileRefused: request: units out of range
    """

    arrival: int
    units: int

    def __post_init__(self) -> None:
        fault = partial(errors.FileRefused, "request")
        object.__setattr__(self, "arrival", _checks.checked_count("arrival", self.arrival, fault))
        object.__setattr__(self, "units", _checks.checked_count("units", self.units, fault))
        if not 1 <= self.units <= limits.MOST_WORK:
            raise fault("units out of range")


@dataclass(frozen=True, slots=True, init=False)
class Requests(_formats.Listed[Request]):
    """The requests of a request file, no arrival before the one above it; raises FileRefused.

    Iteration gives the requests.

    >>> Requests.parse("\\ufeffarrival,units\\r\\n0,3\\r\\n1,6\\r\\n").requests[1]
    Request(arrival=1, units=6)
    >>> Requests([Request(2, 1), Request(1, 1)])
    Traceback (most recent call last):
    rtdvs.errors.FileRefused: requests: row 2: too early
    """

    _field, _kinds = "requests", {"arrival": "int64", "units": "int64"}

    requests: tuple[Request, ...]

    def __init__(self, requests: Iterable[Request]) -> None:
        found = _checks.entries("requests", requests, Request, limits.MOST_REQUESTS, least=0)
        object.__setattr__(self, "requests", tuple(_in_order(found)))

    @classmethod
    def of(cls, rows: Iterable[Request | Iterable[object] | Mapping[str, object]]) -> Self:
        """The requests of rows: requests, pairs of an arrival and its units, or these by their names.

        Raises FileRefused with the place of the row.

        >>> Requests.of([(0, 3), (1, 6)]).requests[1]
        Request(arrival=1, units=6)
        """
        return cls(_in_order(_checks.made("requests", rows, Request, limits.MOST_REQUESTS, least=0)))

    @classmethod
    def parse(cls, text: str | bytes) -> Self:
        """The requests of a request file's text; raises FileRefused.

        >>> Requests.parse("arrival,units\\n0,-1\\n")
        Traceback (most recent call last):
        rtdvs.errors.FileRefused: requests: row 1: bad units
        """
        rows = _formats.read_rows(text, "requests", REQUESTS, limits.MOST_REQUESTS)
        return cls(_in_order(_request(*row) for row in rows))

    def text(self) -> str:
        """The request file.

        >>> Requests([Request(0, 3)]).text()
        'arrival,units\\n0,3\\n'
        """
        return _formats.table_text([REQUESTS, *((each.arrival, each.units) for each in self.requests)])


def _request(fault: _checks.Fault, record: Sequence[Any]) -> Request:
    try:
        return Request(*record)
    except errors.FileRefused as refused:
        raise fault(refused.reason) from None


def _in_order(requests: Iterable[Request]) -> Iterator[Request]:
    """The requests, of which none may arrive before the last one."""
    before = 0
    for place, request in enumerate(requests, 1):
        if request.arrival < before:
            raise errors.FileRefused("requests", "too early", place)
        before = request.arrival
        yield request
