"""Measures calls by the program and by the shared library, in microseconds a call; not a test, since times vary.

    cd python && PYTHONPATH=src python3 -m tools.speed PROGRAM LIBRARY

For each list of calls, made one after the other and by four threads, a line has the processor time, that of the
processes included, and the time that passes; the last number is the program's processor time over the library's.
"""

import sys
import time
from collections.abc import Iterator, Mapping, Sequence
from concurrent.futures import Executor, ThreadPoolExecutor
from itertools import product
from pathlib import Path
from resource import RUSAGE_CHILDREN, RUSAGE_SELF, getrusage

from rtdvs.engine import Call, Engine, find_engine, run_call
from rtdvs.model import Demands
from rtdvs.trace import Trace
from tests.shared.examples import BOARD, DATA, PAPER

DEMANDS = Demands.read(DATA / "paper" / "demands.csv", PAPER)


def run(ticks: int) -> Call[Trace]:
    """A run of the paper's example under cycle-conserving EDF."""
    return run_call(PAPER, BOARD, "edf", "cc", ticks, DEMANDS)


LISTS = {"small calls": [run(16)] * 1000, "calls of 1000 ticks": [run(1000)] * 1000, "long calls": [run(100_000)] * 5}


def processor_time() -> float:
    """The seconds of this process and of its children that have ended."""
    used = [getrusage(whose) for whose in (RUSAGE_SELF, RUSAGE_CHILDREN)]
    return sum(usage.ru_utime + usage.ru_stime for usage in used)


def cost(engine: Engine, calls: Sequence[Call[object]], executor: Executor | None) -> tuple[float, float]:
    """Processor time and time passed, in microseconds a call; RuntimeError if one isn't done."""
    engine.answer(calls[0])
    passed, processor = time.monotonic(), processor_time()
    if any(answer.status for answer in engine.answers(calls, executor)):
        raise RuntimeError("a call is not done")
    share = 1e6 / len(calls)
    return share * (processor_time() - processor), share * (time.monotonic() - passed)


def lines(program: Engine, library: Engine, lists: Mapping[str, Sequence[Call[object]]]) -> Iterator[str]:
    """A line for each list of calls, one after the other and by four threads."""
    with ThreadPoolExecutor(4) as threads:
        for (name, calls), executor in product(lists.items(), (None, threads)):
            (slow, slow_passed), (fast, fast_passed) = (cost(engine, calls, executor) for engine in (program, library))
            yield (f"{len(calls)} {name}{', four at a time' if executor else ''}: program {slow:.0f} and {slow_passed:.0f} "
                   f"us, library {fast:.0f} and {fast_passed:.0f} us, ratio {slow / fast:.1f}")


if __name__ == "__main__":
    for line in lines(find_engine(Path(sys.argv[1])), find_engine(Path(sys.argv[2])), LISTS):
        print(line, flush=True)
