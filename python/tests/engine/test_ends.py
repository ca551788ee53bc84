"""Calls of which only the end of the answer is kept: by a program, by a library and by `rt try`."""

import time
import tracemalloc
from collections.abc import Iterable
from pathlib import Path

import pytest
from hypothesis import given
from hypothesis import strategies as st

from rtdvs.engine import (
    Answer, Call, Engine, LibraryEngine, RunTotals, library as library_module, opened, parse_totals, run_call,
    totals_call,
)
from rtdvs.errors import Crashed, Denied, TimedOut
from tests.shared.examples import BOARD, PAPER, fake, machines, task_sets

WHOLE = b"o" * 3_000_000 + b"the end\n"
BY_PROGRAM = "head -c 3000000 /dev/zero | tr '\\0' o; echo the end; head -c 200000 /dev/zero | tr '\\0' n >&2; exit 7"


def of_end(last_bytes: int, command: str = "run", options: Iterable[tuple[str, str]] = ()) -> Call[str]:
    return Call(command, tuple(options), last_bytes=last_bytes)


@pytest.mark.parametrize("last_bytes", [0, 1, 8, 2**16, 2**16 + 1, len(WHOLE), len(WHOLE) + 1])
@pytest.mark.parametrize("timeout", [None, 60.0])
def test_the_end_of_what_a_program_prints(last_bytes: int, timeout: float | None, tmp_path: Path) -> None:
    found = Engine(fake(tmp_path, BY_PROGRAM), timeout).answer(of_end(last_bytes))
    assert found == Answer(7, WHOLE[max(len(WHOLE) - last_bytes, 0):], b"n" * 200_000)


def test_what_comes_before_the_end_takes_no_memory(tmp_path: Path) -> None:
    engine = Engine(fake(tmp_path, "head -c 50000000 /dev/zero"))
    tracemalloc.start()
    engine.answer(of_end(256))
    most = tracemalloc.get_traced_memory()[1]
    tracemalloc.stop()
    assert most < 2_000_000


@pytest.mark.parametrize("body", [
    pytest.param("sleep 900", id="silent"), pytest.param("yes", id="endless"),
    pytest.param("exec >&- 2>&-; sleep 900", id="outputs closed"),
    pytest.param("sleep 900 & echo 3", id="one that leaves another with its output"),
])
def test_a_program_that_does_not_end_in_time(body: str, tmp_path: Path) -> None:
    before = time.monotonic()
    with pytest.raises(TimedOut, match="no answer within 0.5 seconds"):
        Engine(fake(tmp_path, body), 0.5).answer(of_end(8))
    assert time.monotonic() - before < 30


@pytest.mark.parametrize("last_bytes", [0, 1, 2**16, 10**5, 10**5 + 1])
def test_the_end_of_what_a_library_answers(last_bytes: int, stand_in: Path) -> None:
    """The rooms for whole answers stay as they are."""
    opened(stand_in)
    before = [*library_module.ROOMS]
    found = LibraryEngine(stand_in).answer(of_end(last_bytes, "run", [("--ticks", "100000")]))
    assert found == Answer(0, b"o" * min(last_bytes, 10**5), b"n" * 10**5)
    short = LibraryEngine(stand_in).answer(of_end(last_bytes, "workload", [("--seed", "48")]))
    assert short.out == b"48\n"[max(3 - last_bytes, 0):]
    assert library_module.ROOMS == before


def test_the_end_by_a_library_with_a_time_limit(stand_in: Path) -> None:
    assert LibraryEngine(stand_in, 60).answer(of_end(3, "workload", [("--seed", "4711")])).out == b"11\n"


def test_the_totals_of_a_trace() -> None:
    assert parse_totals("end 16 3 4\n") == parse_totals("trace 2\nplan edf cc 16\nend 16 3 4\n") == RunTotals(16, 3, 4)
    for text in ("", "\n", "end 16 3\n", "end 16 3 4", "nd 16 3 4\n", "end 16 3 4\n\n", "trend 16 3 4\n", "end 16 3 4\nx\n"):
        with pytest.raises(Crashed, match="an unknown answer"):
            parse_totals(text)


@pytest.fixture(params=["program", "library"])
def one(request: pytest.FixtureRequest) -> Engine:
    """The program or the library."""
    path = request.getfixturevalue(request.param)
    return LibraryEngine(path) if request.param == "library" else Engine(path)


@given(tasks=task_sets(3, st.integers(1, 12), st.integers(1, 10), st.integers(0, 4)), machine=machines(3, 30, 2),
       ticks=st.integers(1, 60), governor=st.sampled_from(["none", "static", "cc", "la"]))
def test_totals_are_those_of_the_whole_trace(one: Engine, tasks: object, machine: object, ticks: int,
                                             governor: str) -> None:
    plan = tasks, machine, "edf", governor, ticks
    whole, end = one.answer(run_call(*plan)), one.answer(totals_call(*plan))  # type: ignore[arg-type]
    assert end == Answer(whole.status, whole.out[-1024:], whole.notes)
    try:
        trace = one.value(run_call(*plan))  # type: ignore[arg-type]
    except Denied:
        return
    assert one.value(totals_call(*plan)) == RunTotals(ticks, trace.run_energy, trace.idle_energy)  # type: ignore[arg-type]


def test_totals_of_a_long_run(one: Engine) -> None:
    whole = one.run(PAPER, BOARD, "edf", "cc", 100_000)
    assert one.value(totals_call(PAPER, BOARD, "edf", "cc", 100_000)).energy == whole.energy
