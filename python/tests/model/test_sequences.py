"""Task sets as sequences, and what is equal, has a hash, and can't be changed."""

import copy
import pickle
from collections.abc import Callable, Iterable
from dataclasses import FrozenInstanceError, replace
from fractions import Fraction
from typing import Any

import pytest
from hypothesis import given
from hypothesis import strategies as st

from rtdvs.errors import FileRefused
from rtdvs.model import Deadlines, Demands, Machine, Point, Request, Requests, Task, TaskSet
from tests.shared.examples import BOARD, PAPER

A, B, C = Task("a", 4, 2), Task("b", 6, 3, 1), Task("c", 12, 1)
SET = TaskSet([A, B, C])
VALUES = [A, SET, Point(2, 3000), BOARD, Demands({("a", 1): 2}), Deadlines({"a": 3}), Request(0, 3),
          Requests([Request(0, 3)])]


@given(st.permutations([A, B, C]), st.integers(-3, 2), st.slices(3))
def test_a_sequence(tasks: list[Task], place: int, part: slice) -> None:
    found = TaskSet(tasks)
    assert found[place] is tasks[place] and found[tasks[place].name] is tasks[place]
    assert [*found] == tasks and [*reversed(found)] == tasks[::-1] and len(found) == 3
    assert [*map(found.index, tasks)] == [0, 1, 2] and found.count(A) == 1
    if tasks[part]:
        assert found[part] == TaskSet(tasks[part])
    else:
        with pytest.raises(FileRefused, match="^tasks: no tasks$"):
            found[part]


@pytest.mark.parametrize(("value", "is_in"), [
    pytest.param(A, True, id="a task"), pytest.param("c", True, id="a name"), pytest.param("d", False, id="no name"),
    pytest.param(Task("a", 4, 1), False, id="another task of that name"), pytest.param(0, False, id="a place"),
    pytest.param(None, False, id="None"), pytest.param([], False, id="a list")])
def test_in(value: object, is_in: bool) -> None:
    assert (value in SET) is is_in


@pytest.mark.parametrize(("place", "kind"), [
    pytest.param(3, IndexError, id="a place too far"), pytest.param("d", KeyError, id="no such name"),
    pytest.param(1.0, TypeError, id="a float"), pytest.param(A, TypeError, id="a task")])
def test_not_in(place: object, kind: type[Exception]) -> None:
    with pytest.raises(kind):
        SET[place]  # type: ignore[call-overload]


@pytest.mark.parametrize("of", [list, tuple, iter, TaskSet, lambda tasks: (task for task in tasks)],
                         ids=["list", "tuple", "iterator", "task set", "generator"])
def test_equal_for_each_kind_of_source(of: Callable[[list[Task]], Iterable[Task]]) -> None:
    made = TaskSet(of([A, B, C]))
    assert made == SET == TaskSet.parse(SET.text()) and hash(made) == hash(SET) and made.tasks == (A, B, C)
    machine = Machine(iter([*BOARD]), BOARD.idle)
    assert machine == BOARD and hash(machine) == hash(BOARD)
    assert Requests(request for request in [Request(0, 3)]) == Requests((Request(0, 3),))


def test_rows() -> None:
    rows: list[Any] = [A, ("b", 6, 3, 1), {"worst": 1, "name": "c", "period": 12}]
    assert TaskSet.of(rows) == SET == TaskSet.of(iter(rows)) == TaskSet.of(SET)
    assert Machine.of([(2, 3000), [3, 4000], {"millivolts": 5000, "speed": 4}], idle=7) == replace(BOARD, idle=7)
    assert Requests.of([(0, 3), Request(1, 6)]) == Requests([Request(0, 3), Request(1, 6)])


def test_rows_of_a_frame() -> None:
    """A frame's rows as tuples and as dictionaries, with integers of numpy."""
    pandas = pytest.importorskip("pandas")
    frame = pandas.DataFrame({"name": ["a", "b"], "period": [4, 6], "worst": [2, 3], "offset": [0, 1]})
    for rows in (frame.itertuples(index=False), frame.to_dict("records"), frame.to_numpy()):
        assert TaskSet.of(rows) == TaskSet([A, B])


def test_utilisation() -> None:
    """12/8 + 12/10 + 4/14 units a tick: 836/280, as the program's `admit` prints."""
    assert PAPER.utilisation == Fraction(836, 280)
    assert TaskSet([A, B]).utilisation == 1 and type(TaskSet([A, B]).utilisation) is Fraction


@pytest.mark.parametrize("value", VALUES, ids=lambda value: type(value).__name__)
def test_a_value(value: object) -> None:
    """It has a hash, is the same after a copy, and can't be changed."""
    for again in (pickle.loads(pickle.dumps(value)), copy.copy(value), copy.deepcopy(value)):
        assert again == value and hash(again) == hash(value) and repr(again) == repr(value)
        assert len({again, value}) == 1
    name = value.__dataclass_fields__.copy().popitem()[0]  # type: ignore[attr-defined]
    with pytest.raises(FrozenInstanceError):
        setattr(value, name, 1)


def test_mappings_are_kept() -> None:
    """A dictionary that is changed later changes nothing, and the order of rows is none of the value."""
    units = {("a", 1): 2, ("b", 1): 3}
    demands, other = Demands(units), Demands(dict(reversed(units.items())))
    units["a", 1] = 0
    assert demands.units["a", 1] == 2 and repr(demands) == "Demands(units={('a', 1): 2, ('b', 1): 3})"
    assert demands == other and hash(demands) == hash(other) and demands != Demands(units)
    assert demands.text() == "task,job,units\na,1,2\nb,1,3\n"
    with pytest.raises(TypeError):
        demands.units["a", 1] = 1  # type: ignore[index]


def test_iteration() -> None:
    assert [point.speed for point in BOARD] == [2, 3, 4] and len(BOARD) == 3
    requests = Requests([Request(0, 3), Request(1, 6)])
    assert [request.units for request in requests] == [3, 6] and len(requests) == 2


def test_a_changed_copy_is_checked() -> None:
    with pytest.raises(FileRefused, match="^task: period out of range$"):
        replace(A, period=0)
    with pytest.raises(FileRefused, match="^machine: idle out of range$"):
        replace(BOARD, idle=1001)
