#!/usr/bin/env python3
"""Writes the inputs of the figures in SPEED.md into a folder.

    python3 tools/speed_inputs.py FOLDER
"""
import argparse
import re
from collections.abc import Iterable, Iterator
from pathlib import Path

Row = tuple[int, int, int]
"""A task's period, declared worst case and offset."""

LONG = [1000 * factor for factor in (20, 25, 40, 50, 100, 125, 200, 250)]
SHORT = [64, 80, 128, 160, 96, 192, 320, 384]
NAME = "t" * 32
STORED = Path(__file__).resolve().parents[1] / "crates" / "stored_calls" / "data" / "calls.txt"


def long_rows(count: int) -> Iterator[Row]:
    """That many tasks, together 640 units a tick, with about 9,900 jobs in 7,640,000 ticks (one task: 24,488).

    >>> list(long_rows(1)), next(long_rows(64))
    ([(312, 200000, 0)], (20000, 200000, 0))
    """
    for i in range(count):
        period = LONG[i % 8] * count
        yield period // 64, 640 * period // (64 * count), 7919 * i % (period // 64)


def short_rows(count: int) -> Iterator[Row]:
    """That many tasks, together about 640 units a tick, with periods of 8 to 384 ticks.

    >>> list(short_rows(1))
    [(8, 5120, 0)]
    """
    for i in range(count):
        period = 8 if count == 1 else SHORT[i % 8] * count // 64
        yield period, period * 640 // count + 37 * i % 11, 7 * i % period


def task_file(rows: Iterable[Row]) -> str:
    """The task file of rows, whose names are t0, t1, ..

    >>> print(task_file([(8, 5120, 0)]), end="")
    [[task]]
    name = "t0"
    period = 8
    worst = 5120
    offset = 0
    """
    return "".join(f'[[task]]\nname = "t{i}"\nperiod = {period}\nworst = {worst}\noffset = {offset}\n'
                   for i, (period, worst, offset) in enumerate(rows))


def demand_rows(rows: Iterable[Row], ticks: int) -> Iterator[str]:
    """A row for each job from the second on that is released before the tick: half of its worst case or more.

    >>> list(demand_rows([(10, 100, 0)], 30))
    ['t0,1,63', 't0,2,76']
    """
    for i, (period, _, offset) in enumerate(rows):
        for job in range(1, (ticks - offset - 1) // period + 1):
            yield f"t{i},{job},{10 * period * (50 + (7 * i + 13 * job) % 50) // 100}"


def stored_tasks(title: str) -> str:
    """The task file of the stored call with that title."""
    call = STORED.read_text().partition(f"# exact: {title}\n")[2]
    return "".join(re.findall(r"^[|-](.*\n)", call.partition("file M\n")[0], re.MULTILINE))


def files() -> Iterator[tuple[str, str]]:
    """The name and the text of each input."""
    for count in (1, 8, 16, 32, 64):
        yield f"tasks{count}.toml", task_file(long_rows(count))
    for count in (1, 8, 64):
        yield f"short{count}.toml", task_file(short_rows(count))
    points = (f"[[point]]\nspeed = {250 * k}\nmillivolts = {1000 + 1000 * k}\n" for k in range(1, 5))
    yield "machine.toml", "".join(points)
    yield "demands64.csv", "\n".join(["task,job,units", *demand_rows(long_rows(64), 7_640_000), ""])
    deadlines = (f"t{i},{period * 9 // 10}\n" for i, (period, _, _) in enumerate(long_rows(64)))
    yield "deadlines64.csv", "task,deadline\n" + "".join(deadlines)
    yield "together64.toml", task_file((period, worst, 0) for period, worst, _ in long_rows(64))
    yield "search.toml", stored_tasks("responses: a set built against the relaxed searches")
    yield "fast.toml", "[[point]]\nspeed = 1000000\nmillivolts = 1000\n"
    yield "server.toml", task_file([(10, 1000, 0)])
    yield "requests.csv", "arrival,units\n" + "".join(f"{10 * k},1000\n" for k in range(100_000))
    yield "long.toml", f'[[task]]\nname = "{NAME}"\nperiod = 1000\nworst = 1000\n'
    most = 2**64 - 1
    run = f"run {most}:{most} {most}:{most} {NAME} {most} {most} {2**128 - 1}\n"
    yield "long.trace", f"trace 1\nplan edf none 1000\n{run * 799_997}end 1000 0 0\n"


def main() -> None:
    """Writes the files."""
    parser = argparse.ArgumentParser(description=__doc__, formatter_class=argparse.RawDescriptionHelpFormatter)
    parser.add_argument("folder", type=Path, help="made if it is absent")
    folder: Path = parser.parse_args().folder
    folder.mkdir(parents=True, exist_ok=True)
    for name, text in files():
        (folder / name).write_text(text)


if __name__ == "__main__":
    main()
