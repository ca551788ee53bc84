#!/usr/bin/env python3
"""The processor time of a list of calls by the package's engine, over that of the bare program for the same calls.

    python3 tools/speed_calls.py [--engine PROGRAM] [--workers NUMBER] PROGRAM

It makes the sweep of SWEEPS.md, and one of runs with about 51,000 lines each, seven times by turns, and prints the
median ratios. The engine is that of `find_engine`, by default of the same program.
"""
import argparse
import os
import statistics
import sys
from collections.abc import Callable, Sequence
from concurrent.futures import ThreadPoolExecutor
from functools import partial
from itertools import chain
from pathlib import Path
from resource import RUSAGE_CHILDREN, RUSAGE_SELF, getrusage
from tempfile import TemporaryDirectory

TOP = Path(__file__).resolve().parents[1]
sys.path.insert(0, str(TOP / "python" / "src"))

import speed_inputs  # noqa: E402
from rtdvs import Machine, Task, TaskSet, find_engine  # noqa: E402
from rtdvs.engine import Call, Engine, run_call  # noqa: E402
from rtdvs.studies import PAIRS  # noqa: E402

MACHINE = TOP / "crates" / "example_runs" / "data" / "paper" / "machine.toml"


def short_sweep() -> list[Call]:
    """The 56 calls of SWEEPS.md."""
    sets = [TaskSet(tuple(Task(name, period, units) for name, period in (("a", 4), ("b", 6), ("c", 10))))
            for units in range(1, 9)]
    machine = Machine.read(MACHINE)
    return [run_call(tasks, machine, *pair, ticks=600) for tasks in sets for pair in PAIRS]


def long_sweep() -> list[Call]:
    """A run of 64 tasks under each pair."""
    texts = dict(speed_inputs.files())
    return [run_call(texts["tasks64.toml"], texts["machine.toml"], *pair, ticks=7_640_000) for pair in PAIRS]


def processor_time() -> float:
    """Seconds that this process and its ended children took, in all."""
    return sum(each.ru_utime + each.ru_stime for each in map(getrusage, (RUSAGE_SELF, RUSAGE_CHILDREN)))


def taken(work: Callable[[], object]) -> float:
    """The seconds of processor time that the work takes.

    >>> taken(lambda: None) < 1
    True
    """
    before = processor_time()
    work()
    return processor_time() - before


def written(call: Call, folder: Path) -> list[str]:
    """The words of a call, whose files are written into the folder."""
    folder.mkdir()
    words = [call.command, *chain.from_iterable(call.options)]
    for option, content in call.files:
        path = folder / option.removeprefix("--")
        path.write_text(str(content))
        words += [option, str(path)]
    return words


def bare(program: Path, calls: Sequence[Sequence[str]], out: Path) -> float:
    """The processor time of the program itself in those calls, with their output in a file."""
    files = [(os.POSIX_SPAWN_OPEN, number, str(out), os.O_WRONLY | os.O_CREAT | os.O_TRUNC, 0o600) for number in (1, 2)]
    total = 0.0
    for words in calls:
        process = os.posix_spawn(program, [str(program), *words], os.environ, file_actions=files)
        _, _, found = os.wait4(process, 0)
        total += found.ru_utime + found.ru_stime
    return total


def listed(engine: Engine, calls: Sequence[Call], workers: int) -> None:
    """Makes the list, that many calls at a time."""
    with ThreadPoolExecutor(workers) as executor:
        for answer in engine.answers(calls, executor if workers > 1 else None):
            assert answer.status in {0, 1}, answer


def ratios(engine: Engine, program: Path, calls: Sequence[Call], workers: int) -> tuple[float, float]:
    """The median ratio, and the median seconds beyond the program's own for a call."""
    with TemporaryDirectory(prefix="speed-") as name:
        words = [written(call, Path(name, str(k))) for k, call in enumerate(calls)]
        found = [(taken(partial(listed, engine, calls, workers)), bare(program, words, Path(name, "out")))
                 for _ in range(7)]
    return (statistics.median(ours / own for ours, own in found),
            statistics.median((ours - own) / len(calls) for ours, own in found))


def main() -> None:
    """Prints the ratio of each sweep."""
    parser = argparse.ArgumentParser(description=__doc__, formatter_class=argparse.RawDescriptionHelpFormatter)
    parser.add_argument("program", type=Path)
    parser.add_argument("--engine", type=Path, help="what find_engine is given")
    parser.add_argument("--workers", type=int, default=1)
    args = parser.parse_args()
    engine = find_engine(args.engine or args.program)
    for sweep in (short_sweep, long_sweep):
        calls = sweep()
        ratio, beyond = ratios(engine, args.program.resolve(), calls, args.workers)
        print(f"{sweep.__name__} {len(calls)} calls: {ratio:.2f} times, {1000 * beyond:.2f} ms more a call")


if __name__ == "__main__":
    main()
