"""All exceptions: each has its data and its text, and is the same after a copy, a pickle and another process."""

import copy
import pickle
from collections.abc import Callable, Iterator
from concurrent.futures import ProcessPoolExecutor
from importlib import import_module

import pytest

from rtdvs import errors
from rtdvs.engine import Engine
from rtdvs.errors import (
    BadRequest, BadValue, Crashed, DeadlineMissed, Denied, Differs, DrawFault, EngineError, FileRefused, LoadFailed,
    NoEngine, NoText, OutOfMemory, OverWorst, Reasoned, Refused, RtdvsError, SystemFault, TimedOut, TooManyJobs,
    TraceFault, WordFault, WordsRefused, WriteFailed, Wrong, WrongTrace, error_of,
)
from rtdvs.model import Demands, Machine, Task, TaskSet
from rtdvs.rules import Plan, check
from rtdvs.trace import SAMPLE, Trace
from tests.shared.examples import BOARD, PAPER
from tests.test_package import MODULES, dotted

EXAMPLES: dict[type[RtdvsError], tuple[RtdvsError, str]] = {
    RtdvsError: (RtdvsError(), ""),
    Reasoned: (Reasoned("the trace is at 0:0"), "the trace is at 0:0"),
    Refused: (Refused(), ""),
    BadValue: (BadValue("ticks out of range"), "ticks out of range"),
    WordFault: (WordFault("a number, not x"), "a number, not x"),
    DrawFault: (DrawFault("count is 1 to 64"), "count is 1 to 64"),
    BadRequest: (BadRequest("not an example"), "not an example"),
    Denied: (Denied("misses", asked=42, capacity=40, task="c"), "misses c 42 40"),
    WordsRefused: (WordsRefused("bad value 016", place=3), "words: 3: bad value 016"),
    LoadFailed: (LoadFailed("trace"), "load: trace"),
    FileRefused: (FileRefused("machine", "not rising", place=2), "machine: point 2: not rising"),
    TooManyJobs: (TooManyJobs(100_001, most=100_000), "limit: 100001 jobs, at most 100000"),
    OverWorst: (OverWorst("a", 1, units=3, worst=2), "over worst: a 1 3 2"),
    Differs: (Differs(9, wanted="a b", found=""), "differs: line 9\nwanted: a b\nfound: "),
    EngineError: (EngineError(), ""),
    WriteFailed: (WriteFailed(), "write: out failed"),
    OutOfMemory: (OutOfMemory(), "no memory"),
    NoText: (NoText(), "the arguments are not text for the system"),
    NoEngine: (NoEngine("rt: no such program"), "rt: no such program"),
    SystemFault: (SystemFault("/tmp/rtdvs-1", reason="No space left on device"), "/tmp/rtdvs-1: No space left on device"),
    Crashed: (Crashed("the program was ended by signal 9"), "the program was ended by signal 9"),
    TimedOut: (TimedOut(seconds=0.5), "no answer within 0.5 seconds"),
    TraceFault: (TraceFault(3, reason="not a line of a trace"), "line 3: not a line of a trace"),
    WrongTrace: (WrongTrace(3, "wanted job 1"), "line 3: wanted job 1"),
    Wrong: (Wrong("wanted job 1"), "wanted job 1"),
    DeadlineMissed: (DeadlineMissed("b", 1, due=6, used=8),
                     "b job 1 was due at 6 and is not complete: it has had 8 units"),
}


def kinds_below(kind: type[RtdvsError]) -> Iterator[type[RtdvsError]]:
    for below in kind.__subclasses__():
        yield below
        yield from kinds_below(below)


for each in MODULES:
    if each.stem not in ("__init__", "__main__"):
        import_module(f"rtdvs.{dotted(each)}")
KINDS: list[type[RtdvsError]] = [RtdvsError, *dict.fromkeys(kinds_below(RtdvsError))]


@pytest.mark.parametrize("kind", [pytest.param(kind, id=kind.__name__) for kind in KINDS])
def test_each_has_an_example(kind: type[RtdvsError]) -> None:
    """Each class is in `errors`, can be pickled and copied, and is what its data are."""
    error, text = EXAMPLES[kind]
    assert getattr(errors, kind.__name__) is type(error) is kind
    for again in (pickle.loads(pickle.dumps(error)), copy.copy(error), copy.deepcopy(error), kind(*error.args)):
        assert again == error and hash(again) == hash(error)
        assert (type(again), vars(again), str(again)) == (kind, vars(error), text)
    assert all(repr(value) in repr(error) for value in error.args)


def test_examples_differ() -> None:
    """Also a class and one below it with the same data."""
    found = [error for error, _ in EXAMPLES.values()]
    assert len({*found, WordFault("x"), DrawFault("x"), BadValue("x"), BadValue("y")}) == len(found) + 4
    assert BadValue("x") != "x" and WrongTrace(3, "a") != TraceFault(3, "a") != TraceFault(4, "a")


@pytest.mark.parametrize(("error", "text"), [
    pytest.param(error, text, id=kind.__name__) for kind, (error, text) in EXAMPLES.items() if kind.status])
def test_lines_are_read_back(error: RtdvsError, text: str) -> None:
    assert error.status is not None
    assert error_of(error.status, f"{text}\n".encode()) == error or isinstance(error, NoText)


@pytest.mark.parametrize("error", [
    Denied("edf", 248, 240), Denied("rm", 42, 40, "7"), Denied("offset", task="b"), Denied("demand", 9, 8, ticks=3),
    Denied("units", 65, 64), WordsRefused("no command"), WordsRefused("missing --tasks"),
    FileRefused("tasks", "tasks 1 and 2 have one name"), FileRefused("demands", "job 0", 1),
    FileRefused("trace", "word", 3), FileRefused("tasks", "no task s"), Differs(1, "7", "8")], ids=str)
def test_more_lines(error: RtdvsError) -> None:
    assert error.status is not None
    assert error_of(error.status, f"{error}\n".encode()) == error


def test_out_of_another_process() -> None:
    """What is raised in a worker arrives with its line and its reason, and the pool goes on."""
    lines = ["trace 1\n", "plan edf none 1\n", "release 0 t 1\n", "speed 0 2 4/2\n"]
    with ProcessPoolExecutor(1) as executor:
        spelled = executor.submit(Trace.parse, SAMPLE.replace("release", "relase")).exception()
        wrong = executor.submit(check, TaskSet([Task("t", 2, 4)]), Machine.of([(2, 9), (3, 9)]), lines).exception()
        denied = executor.submit(Plan(TaskSet([Task("t", 1, 5)]), BOARD, "edf").admit).exception()
        assert spelled == TraceFault(4, "not a line of a trace")
        assert wrong == WrongTrace(4, "the demand is 3/1: always the highest speed, 3")
        assert denied == Denied("edf", 5, 4)


def refusal_of(call: Callable[..., object], *args: object) -> Refused:
    with pytest.raises(Refused) as caught:
        call(*args)
    return caught.value


def test_one_class_for_one_refusal(engine: Engine) -> None:
    """The program's exceptions are those of this package."""
    many, text = TaskSet([Task("t", 1, 5)]), "task = 1"
    assert refusal_of(engine.admit, many, BOARD, "rm") == refusal_of(Plan(many, BOARD, "rm").admit)
    assert refusal_of(engine.admit, text.encode(), BOARD, "rm") == refusal_of(TaskSet.parse, text)
    demands = Demands({("t1", 1): 13})
    assert refusal_of(engine.run, PAPER, BOARD, "rm", "cc", 9, demands) == refusal_of(demands.belong_to, PAPER)
