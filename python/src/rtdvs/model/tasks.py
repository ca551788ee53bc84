"""Tasks, and the files of task sets."""

from collections.abc import Iterable, Iterator, Mapping, Sequence
from dataclasses import dataclass
from fractions import Fraction
from math import lcm
from typing import Self, SupportsIndex, overload

from rtdvs import errors
from rtdvs.model import _checks, _formats, limits


@dataclass(frozen=True, slots=True)
class Task:
    """A periodic task: period and offset in ticks, worst case in work units; raises FileRefused.

    A number is an int, or an integer of numpy, and in the limits of a task file.

    >>> Task("t1", period=8, worst=12).offset
    0
    >>> Task("t1", period=0, worst=12)
    Traceback (most recent call last):
    rtdvs.errors.FileRefused: task: period out of range
    """

    name: str
    period: int
    worst: int
    offset: int = 0

    def __post_init__(self) -> None:
        _checks.check_fields(self, "task")


@dataclass(frozen=True, slots=True, init=False)
class TaskSet(_formats.Listed[Task], Sequence[Task]):
    """The tasks of a task file, in its order: a sequence, in which a name is as good as a place.

    A slice is a task set too. Raises FileRefused for what a task file can't have.

    >>> tasks = TaskSet([Task("a", 4, 2), Task("b", 6, 3)])
    >>> tasks[0].period, tasks["b"].period, "a" in tasks, Task("a", 4, 1) in tasks, tasks[1:].names
    (4, 6, True, False, ('b',))
    >>> TaskSet([Task("a", 4, 2), Task("a", 6, 3)])
    Traceback (most recent call last):
    rtdvs.errors.FileRefused: tasks: tasks 1 and 2 have one name
    """

    _field, _kinds = "tasks", {"name": "object", "period": "int64", "worst": "int64", "offset": "int64"}

    tasks: tuple[Task, ...]

    def __init__(self, tasks: Iterable[Task]) -> None:
        object.__setattr__(self, "tasks", tuple(_different(_checks.entries("tasks", tasks, Task, limits.MOST_TASKS))))
        if self.hyperperiod > limits.LONGEST_HYPERPERIOD:
            raise errors.FileRefused("tasks", f"periods have no common multiple up to {limits.LONGEST_HYPERPERIOD}")

    @overload
    def __getitem__(self, place: SupportsIndex | str) -> Task: ...

    @overload
    def __getitem__(self, place: slice) -> Self: ...

    def __getitem__(self, place: SupportsIndex | str | slice) -> Task | Self:
        if isinstance(place, slice):
            return type(self)(self.tasks[place])
        return self.named(place) if isinstance(place, str) else self.tasks[place]

    def __contains__(self, value: object) -> bool:
        return value in self.tasks or value in self.names

    @property
    def names(self) -> tuple[str, ...]:
        """The names in file order.

        >>> TaskSet([Task("b", 4, 1), Task("a", 6, 1)]).names
        ('b', 'a')
        """
        return tuple(task.name for task in self.tasks)

    @property
    def hyperperiod(self) -> int:
        """The least common multiple of the periods, in ticks.

        >>> TaskSet([Task("a", 4, 1), Task("b", 6, 1)]).hyperperiod
        12
        """
        return lcm(*(task.period for task in self.tasks))

    @property
    def utilisation(self) -> Fraction:
        """The work units of a tick, all jobs at their worst cases and without a charge.

        >>> TaskSet([Task("a", 4, 1), Task("b", 6, 1)]).utilisation
        Fraction(5, 12)
        """
        return sum((Fraction(task.worst, task.period) for task in self.tasks), Fraction(0))

    def named(self, name: str) -> Task:
        """The task with that name; raises KeyError if there is none.

        >>> TaskSet([Task("a", 4, 1)]).named("a").period
        4
        >>> TaskSet([Task("a", 4, 1)]).named("c")
        Traceback (most recent call last):
        KeyError: 'c'
        """
        return {task.name: task for task in self.tasks}[name]

    @classmethod
    def of(cls, rows: Iterable[Task | Iterable[object] | Mapping[str, object]]) -> Self:
        """The task set of rows: tasks, values in the order of a task's fields, or values by their names.

        Raises FileRefused with the place of the row.

        >>> TaskSet.of([("a", 4, 2), {"name": "b", "period": 6, "worst": 3}]).names
        ('a', 'b')
        >>> TaskSet.of([("a", 4, 2), ("b", 6.0, 3)])
        Traceback (most recent call last):
        rtdvs.errors.FileRefused: tasks: task 2: wrong kind of period
        """
        return cls(_different(_checks.made("tasks", rows, Task, limits.MOST_TASKS)))

    @classmethod
    def parse(cls, text: str | bytes) -> Self:
        """The task set of a task file's text; raises FileRefused.

        >>> TaskSet.parse('task = [{ name = "a", period = 4, worst = 2, ofset = 1 }]')
        Traceback (most recent call last):
        rtdvs.errors.FileRefused: tasks: task 1: unknown key ofset
        >>> text = b'\\xef\\xbb\\xbf[[task]]\\nname = "a"\\nperiod = 4\\nworst = 2'
        >>> TaskSet.parse(text) == TaskSet.parse(text.decode())
        True
        """
        found = _formats.document(text, "tasks", "task").array(limits.MOST_TASKS)
        return cls(_different(entry.read(Task) for entry in found))

    def text(self) -> str:
        """The task file.

        >>> print(TaskSet([Task("a", 4, 2, offset=1)]).text(), end="")
        [[task]]
        name = "a"
        period = 4
        worst = 2
        offset = 1
        """
        return "\n".join(_formats.entry_text("task", task) for task in self.tasks)


def _different(tasks: Iterable[Task]) -> Iterator[Task]:
    """The tasks, of which each has to have another name."""
    places: dict[str, int] = {}
    for place, task in enumerate(tasks, 1):
        first = places.setdefault(task.name, place)
        if first != place:
            raise errors.FileRefused("tasks", f"tasks {first} and {place} have one name")
        yield task


def jobs_of(tasks: TaskSet, ticks: int) -> Iterator[tuple[Task, int]]:
    """The jobs that are released in a run: each task in the order of the file, with its jobs' numbers.

    >>> tasks = TaskSet([Task("a", 5, 7, offset=1), Task("b", 5, 7, offset=9)])
    >>> [(task.name, job) for task, job in jobs_of(tasks, 9)]
    [('a', 1), ('a', 2)]
    """
    return ((task, job) for task in tasks for job in range(1, -(-(ticks - task.offset) // task.period) + 1))
