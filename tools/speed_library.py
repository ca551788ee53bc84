#!/usr/bin/env python3
"""The ratios of the library for C in SPEED.md, as processor times of user and system, each the middle one of fifteen.

    python3 tools/speed_library.py PROGRAM LIBRARY

LIBRARY is the folder that library.sh made. It needs cc.
"""
import argparse
import os
import statistics
import subprocess
import sys
import tempfile
import time
from collections.abc import Callable, Sequence
from pathlib import Path
from resource import RUSAGE_CHILDREN, getrusage

import speed_inputs

TOOLS = Path(__file__).resolve().parent
TIMES = 15
PLAN = ["--scheduler", "edf", "--governor", "cc", "--ticks"]
BY_NAME = ["run", "--tasks", "tasks", "--machine", "machine", *PLAN]
FILES = ["tasks", "tasks8.toml", "machine", "machine.toml", "--"]
LONG = ["run", "--tasks", "tasks64.toml", "--machine", "machine.toml", *PLAN, "38200000"]
SMALL = ["run", "--tasks", "tasks8.toml", "--machine", "machine.toml", *PLAN, "16"]


def processor_time() -> float:
    """Seconds that the ended children took, in all."""
    used = getrusage(RUSAGE_CHILDREN)
    return used.ru_utime + used.ru_stime


def taken(clock: Callable[[], float], *calls: Sequence[str | Path]) -> float:
    """The seconds by a clock that the calls take one after the other, each with its output in the file `trace`."""
    before = clock()
    for words in calls:
        with open("trace", "wb") as trace:
            subprocess.run(words, stdout=trace, stderr=subprocess.DEVNULL, check=True)
    return clock() - before


def middle(work: Callable[[], float]) -> float:
    """The middle one of fifteen times."""
    return statistics.median(work() for _ in range(TIMES))


def compiled(library: Path, name: str, *words: str | Path) -> Path:
    """A C program of the repository, by cc, over the shared library."""
    made = Path(name).absolute()
    subprocess.run(["cc", "-O2", "-I", TOOLS.parent / "library", *words, library / "librtdvs.so", "-o", made], check=True)
    return made


def small_calls(program: Path, calls: Path) -> float:
    """A small call as a process, over the same one in process."""
    apart = middle(lambda: taken(processor_time, *[[program, *SMALL]] * 200)) / 200
    within = middle(lambda: taken(processor_time, [calls, "1", "4000", *FILES, *BY_NAME, "16"])) / 4000
    return apart / within


def long_runs(*programs: Path) -> list[float]:
    """A run to a file by each program over the first one's, made by turns."""
    times = [[taken(processor_time, [program, *LONG]) for program in programs] for _ in range(TIMES)]
    first, *others = (statistics.median(column) for column in zip(*times, strict=True))
    return [each / first for each in others]


def threads(calls: Path) -> float:
    """2,000 calls in one thread over as many in four, by the time that passes."""
    return (middle(lambda: taken(time.monotonic, [calls, "1", "2000", *FILES, *BY_NAME, "200000"]))
            / middle(lambda: taken(time.monotonic, [calls, "4", "500", *FILES, *BY_NAME, "200000"])))


def main() -> None:
    parser = argparse.ArgumentParser(description=__doc__.partition("\n")[0])
    parser.add_argument("program", type=Path, help="the built program")
    parser.add_argument("library", type=Path, help="the folder that library.sh made")
    words = parser.parse_args()
    program, library = words.program.absolute(), words.library.absolute()
    os.environ["LD_LIBRARY_PATH"] = str(library)
    with tempfile.TemporaryDirectory() as folder:
        os.chdir(folder)
        for name, text in speed_inputs.files():
            Path(name).write_text(text, encoding="utf-8")
        calls = compiled(library, "calls", "-pthread", TOOLS / "calls.c")
        call = compiled(library, "call", TOOLS.parent / "library" / "call.c")
        peer = compiled(library, "peer", TOOLS / "peer.c")
        print(f"a small call as a process, over one in process: {small_calls(program, calls):.1f}")
        by_library, by_program = long_runs(peer, call, program)
        with open("trace", "rb") as trace:
            print(f"lines of the long run: {sum(1 for _ in trace)}")
        print(f"the long run to a file by the library, over peer.c: {by_library:.2f}")
        print(f"the long run to a file by the program, over peer.c: {by_program:.2f}")
        print(f"calls in one thread, over the same calls in four: {threads(calls):.2f}")


if __name__ == "__main__":
    sys.exit(main())
