"""Typed answers of lists of calls, refusals as values, and arguments that are exchanged."""

from collections.abc import Iterator
from concurrent.futures import Executor, ProcessPoolExecutor, ThreadPoolExecutor
from itertools import pairwise
from pathlib import Path
from types import UnionType
from typing import get_args, get_type_hints

import pytest

from rtdvs.engine import Admitted, Call, Engine, admit_call, run_call
from rtdvs.errors import BadValue, Crashed, Denied, Refused, TimedOut
from rtdvs.model import Machine, Point, Task, TaskSet
from rtdvs.trace import SAMPLE, Trace
from tests.shared.examples import fake

MACHINE = Machine((Point(1, 1000),))
# As the program: it admits a worst case up to the period, 4, and prints the stored trace for a run.
PROGRAM = f"""if [ "$1" = run ]; then cat <<'END'
{SAMPLE}END
exit
fi
worst=$(sed -n 's/worst = //p' "$5")
if [ "$worst" -gt 4 ]; then echo "denied edf $worst 4" >&2; exit 1; fi
[ "$worst" -gt 1 ] || sleep 0.2
echo "admitted edf $worst/4 1\""""


def calls(*worsts: int) -> list[Call[Admitted]]:
    return [admit_call(TaskSet((Task("a", 4, worst),)), MACHINE, "edf") for worst in worsts]


@pytest.fixture(params=[None, ThreadPoolExecutor, ProcessPoolExecutor])
def executor(request: pytest.FixtureRequest) -> Iterator[Executor | None]:
    if request.param is None:
        yield None
        return
    with request.param(2) as executor:
        yield executor


def test_answers_in_order(executor: Executor | None, tmp_path: Path) -> None:
    """The first call is the slowest; the third is refused."""
    found = [*Engine(fake(tmp_path, PROGRAM)).map(calls(1, 2, 5, 3), executor)]
    assert found == [Admitted("edf", 1, 4, 1), Admitted("edf", 2, 4, 1), Denied("edf", 5, 4), Admitted("edf", 3, 4, 1)]
    assert isinstance(found[2], Refused)


def test_a_trace_is_an_answer(tmp_path: Path) -> None:
    """A run's answer is a trace with its text; one call of another kind may be among them."""
    engine = Engine(fake(tmp_path, PROGRAM))
    run = run_call(Path("t.toml"), Path("m.toml"), "edf", "cc", 2)
    assert [*engine.map([run])] == [Trace.parse(SAMPLE)]
    assert engine.run(Path("t.toml"), Path("m.toml"), "edf", "cc", 2).text() == SAMPLE
    mixed: list[Call[object]] = [run, *calls(2)]
    assert [type(answer) for answer in engine.map(mixed)] == [Trace, Admitted]


def test_calls_are_made_one_by_one(tmp_path: Path) -> None:
    def endless() -> Iterator[Call[Admitted]]:
        while True:
            yield from calls(2)

    assert next(Engine(fake(tmp_path, PROGRAM)).map(endless())) == Admitted("edf", 2, 4, 1)


@pytest.mark.parametrize(("body", "timeout", "fault"), [
    pytest.param("sleep 60", 0.3, TimedOut, id="too late"), pytest.param("echo trace 2", 60.0, Crashed, id="no trace"),
    pytest.param("exit 42", 60.0, Crashed, id="another status")])
def test_what_is_no_refusal_is_raised(body: str, timeout: float, fault: type[Exception], tmp_path: Path) -> None:
    run = run_call(Path("t.toml"), Path("m.toml"), "edf", "cc", 2)
    with pytest.raises(fault):
        next(Engine(fake(tmp_path, body), timeout).map([run]))


def test_a_text_is_no_path() -> None:
    with pytest.raises(BadValue, match="^a path is a Path and a content bytes, not the text 'tasks.toml'$"):
        admit_call("tasks.toml", Path("machine.toml"), "edf")  # type: ignore[arg-type]


METHODS = {"admit": ("tasks", "machine"), "run": ("tasks", "machine", "demands"),
           "constrain": ("tasks", "machine", "deadlines"), "poll": ("tasks", "machine", "requests"),
           "replay": ("tasks", "machine", "trace"), "migrate": ("tasks", "machine", "trace")}


@pytest.mark.parametrize("method", METHODS)
def test_each_kind_of_file_has_a_type(method: str) -> None:
    """So a type checker sees exchanged arguments: two kinds have in common only paths and bytes."""
    hints = get_type_hints(getattr(Engine, method))
    for one, other in pairwise(METHODS[method]):
        assert isinstance(hints[one], UnionType)
        common = set(get_args(hints[one])) & set(get_args(hints[other]))
        assert common == {Path, bytes}
