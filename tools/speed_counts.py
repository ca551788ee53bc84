#!/usr/bin/env python3
"""The figures of SPEED.md, as counts of instructions by valgrind: nothing in them depends on the machine's load.

    python3 tools/speed_counts.py PROGRAM

It writes the inputs, compiles peer.c, and prints the tables: instructions a line of the trace, the program's over the
C program's, and millions of instructions of whole calls. It ends with 1 where the two print other traces.
"""
import argparse
import re
import subprocess
import sys
import tempfile
from collections.abc import Iterator, Sequence
from dataclasses import dataclass
from pathlib import Path

import speed_inputs

TOOLS = Path(__file__).resolve().parent
PAIRS = [*(("edf", governor) for governor in ("none", "static", "cc", "la")),
         *(("rm", governor) for governor in ("none", "static", "cc"))]
LONG = {f"tasks{count}": 7_640_000 for count in (1, 8, 16, 32, 64)}
SHORT = {"short1": 80_000, "short8": 12_000, "short64": 12_000}
COMPARED = ["tasks1", "tasks8", "tasks64", *SHORT]
COUNTED = re.compile(r"I +refs: +([\d,]+)")


@dataclass(frozen=True, slots=True)
class Count:
    """A run's instructions, the lines that it printed, and the C program's instructions."""

    own: int
    lines: int
    peers: int

    def a_line(self) -> int:
        """Instructions a line, rounded down.

        >>> Count(1_199, 2, 1_000).a_line()
        599
        """
        return self.own // self.lines

    def ratio(self) -> str:
        """The program's instructions over the C program's.

        >>> Count(1_199, 2, 1_000).ratio()
        '1.20'
        """
        return f"{self.own / self.peers:.2f}"


def counted(notes: str) -> int:
    """The instructions that valgrind's notes give.

    >>> counted("==7== I   refs:      2,516\\n")
    2516
    """
    found = COUNTED.search(notes)
    if found is None:
        raise ValueError(f"no count: {notes}")
    return int(found[1].replace(",", ""))


def instructions(words: Sequence[str], folder: Path, out: str = "answer") -> int:
    """The instructions of a call in the folder; its standard output goes to the file `out` there."""
    valgrind = ["valgrind", "--tool=cachegrind", "--cache-sim=no", "--cachegrind-out-file=/dev/null", *words]
    with (folder / out).open("wb") as answer:
        return counted(subprocess.run(valgrind, cwd=folder, stdout=answer, stderr=subprocess.PIPE, text=True).stderr)


def run_words(tasks: str, pair: tuple[str, str], ticks: int) -> list[str]:
    """The words of a run after the program's name."""
    return ["run", "--tasks", f"{tasks}.toml", "--machine", "machine.toml", "--scheduler", pair[0],
            "--governor", pair[1], "--ticks", str(ticks)]


def count(program: str, folder: Path, words: Sequence[str]) -> Count:
    """The counts of a run by the program and by the C program; ends the script where their traces differ."""
    own, peers = instructions([program, *words], folder, "own"), instructions(["./peer", *words], folder, "peers")
    trace = (folder / "own").read_bytes()
    if trace != (folder / "peers").read_bytes():
        sys.exit(f"other traces: {' '.join(words)}")
    return Count(own, trace.count(b"\n"), peers)


def row(cells: Sequence[object]) -> str:
    """A row of a table.

    >>> row(["a", 1])
    '| a | 1 |'
    """
    return f"| {' | '.join(map(str, cells))} |"


def run_tables(program: str, folder: Path) -> Iterator[str]:
    """The two tables of runs, a row for each pair."""
    rows = {pair: {tasks: count(program, folder, run_words(tasks, pair, ticks))
                   for tasks, ticks in (LONG | SHORT).items()} for pair in PAIRS}
    yield row(["instructions a line", *LONG])
    for pair, counts in rows.items():
        yield row([" ".join(pair), *(counts[tasks].a_line() for tasks in LONG)])
    yield row(["over the C program's", *COMPARED])
    for pair, counts in rows.items():
        yield row([" ".join(pair), *(counts[tasks].ratio() for tasks in COMPARED)])


def calls() -> Iterator[tuple[str, list[str]]]:
    """The whole calls, each with the name of the file that its answer is kept in."""
    files = ["--tasks", "tasks64.toml", "--machine", "machine.toml"]
    cc, la = (run_words("tasks64", ("edf", governor), 7_640_000) for governor in ("cc", "la"))
    yield "cc", cc
    yield "cc-ten-times", run_words("tasks64", ("edf", "cc"), 76_400_000)
    yield "cc-probes", [*cc, "--probes"]
    yield "cc-demands", [*cc, "--demands", "demands64.csv"]
    yield "la", la
    for use in ("replay", "migrate"):
        yield use, [use, *files, "--trace", "la"]
    yield "poll", ["poll", "--tasks", "server.toml", *files[2:], "--requests", "requests.csv", "--server", "t0",
                   "--scheduler", "edf", "--governor", "none", "--ticks", "1000000"]
    yield "constrain", ["constrain", "--tasks", "together64.toml", *files[2:], "--deadlines", "deadlines64.csv"]
    yield "response", ["response", "--tasks", "together64.toml", *files[2:]]
    yield "response-search", ["response", "--tasks", "search.toml", "--machine", "fast.toml"]
    yield "workload", ["workload", "--seed", "1"]


def call_table(program: str, folder: Path) -> Iterator[str]:
    """Whole calls in millions of instructions, with the lines that they print."""
    yield row(["call", "millions", "lines"])
    for name, words in calls():
        found = instructions([program, *words], folder, name)
        yield row([name, f"{found / 1e6:.1f}", (folder / name).read_bytes().count(b"\n")])
    demands = [*run_words("tasks64", ("edf", "cc"), 7_640_000), "--demands", "demands64.csv"]
    yield row(["cc-demands by the C program", f"{instructions(['./peer', *demands], folder) / 1e6:.1f}"])


def used(words: Sequence[str], folder: Path, out: str) -> tuple[float, float, int]:
    """A call's seconds of the user and the system, and its peak kilobytes; its output goes to a file in the folder."""
    with (folder / out).open("wb") as answer:
        subprocess.run(["time", "-q", "-o", "used", "-f", "%U %S %M", *words], cwd=folder, stdout=answer,
                       stderr=subprocess.DEVNULL)
    user, system, peak = (folder / "used").read_text().split()
    return float(user), float(system), int(peak)


def use_table(program: str, folder: Path) -> Iterator[str]:
    """Runs of ten times the ticks, five times: the system's time over the user's. Then the peak memory of replays."""
    yield row(["run", "the system's time over the user's"])
    for pair in PAIRS:
        found = [used([program, *run_words("tasks64", pair, 76_400_000)], folder, "trace") for _ in range(5)]
        yield row([" ".join(pair), *(f"{ratio:.1f}" for ratio in sorted(system / user for user, system, _ in found))])
    yield row(["replay", "MiB of the trace", "MiB at most"])
    used([program, *run_words("tasks64", ("edf", "none"), 76_400_000)], folder, "tasks64.trace")
    for name in ("tasks64", "long"):
        words = ["replay", "--tasks", f"{name}.toml", "--machine", "machine.toml", "--trace", f"{name}.trace"]
        size, (_, _, peak) = (folder / f"{name}.trace").stat().st_size, used([program, *words], folder, "answer")
        yield row([name, size >> 20, peak >> 10])


def main() -> None:
    """Prints the tables."""
    parser = argparse.ArgumentParser(description=__doc__, formatter_class=argparse.RawDescriptionHelpFormatter)
    parser.add_argument("program", type=Path)
    program = str(parser.parse_args().program.resolve())
    with tempfile.TemporaryDirectory(prefix="speed-") as name:
        folder = Path(name)
        for file, text in speed_inputs.files():
            (folder / file).write_text(text)
        subprocess.run(["cc", "-O2", "-o", folder / "peer", TOOLS / "peer.c"], check=True)
        for table in (call_table, use_table, run_tables):
            for line in table(program, folder):
                print(line, flush=True)


if __name__ == "__main__":
    main()
