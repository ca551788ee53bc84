"""What the tests share: the examples' files, calls of commands, stand-ins, drawn sets and machines, a trace's lines."""

import re
from collections.abc import Iterable, Iterator
from contextlib import contextmanager
from fractions import Fraction
from pathlib import Path
from threading import Thread
from typing import NamedTuple

import pytest
from hypothesis import strategies as st

from rtdvs.cli.main import main
from rtdvs.engine import Engine
from rtdvs.model import Demands, Machine, Point, Task, TaskSet
from rtdvs.rules import Walk, explain
from rtdvs.web import PageServer

Captured = pytest.CaptureFixture[str]
TOP = Path(__file__).resolve().parents[3]
PAGES = sorted(path.relative_to(TOP) for path in [*TOP.glob("*.md"), *(TOP / "docs").glob("*.md")])
LIBRARY = TOP / "crates" / "rtdvs_c" / "out" / "lib" / "librtdvs.so"
DATA = TOP / "crates" / "example_runs" / "data"
SOURCE = str(TOP / "python" / "src")
TEST_DATA = Path(__file__).parents[1] / "data"
NUMBER = r"\d+(?:\.\d+)?"
TRACES = sorted(DATA.glob("*/*.trace"))
WORKED, TEMPLATE = (DATA / folder / "edf_cc_with_demands.trace" for folder in ("paper", "templates"))
SHORT = [path for path in TRACES if path.parent.name != "long"]
ENTRIES = {
    "task": {"name": '"a"', "period": "4", "worst": "2"},
    "point": {"speed": "2", "millivolts": "3000"},
}
PAPER = TaskSet((Task("t1", 8, 12), Task("t2", 10, 12), Task("t3", 14, 4)))
BOARD = Machine((Point(2, 3000), Point(3, 4000), Point(4, 5000)))
# Operating points of the XScale: megahertz, volts and milliwatts, as quoted.
XSCALE = ((150, "0.75", 80), (400, "1.0", 170), (600, "1.3", 400), (800, "1.6", 900), (1000, "1.8", 1600))
MINE, MY_BOARD = (TEST_DATA / "mine.trace").read_text(), Machine((Point(2, 2), Point(3, 3)), idle=10)


def files(name: str | Path) -> tuple[TaskSet, Machine, Demands]:
    """The files of an example, or of a folder elsewhere; without a demand file no job has one."""
    folder = DATA / name
    tasks, demands = TaskSet.read(folder / "tasks.toml"), folder / "demands.csv"
    named = Demands.read(demands, tasks) if demands.exists() else Demands({})
    return tasks, Machine.read(folder / "machine.toml"), named


def numbered(name: str) -> Iterator[tuple[int, tuple[str, ...]]]:
    r"""The rows of a table in the folder of data, each with the number of its line.

    Their columns are apart by " => ", and have escapes such as \n. A line that begins with # is a comment.
    """
    for number, line in enumerate((TEST_DATA / f"{name}.cases").read_text(encoding="utf-8").splitlines(), 1):
        if line[:1] not in ("", "#"):
            yield number, tuple(line.encode().decode("unicode_escape").split(" => "))


def rows(name: str) -> list[tuple[str, ...]]:
    """The rows of a table in the folder of data."""
    return [row for _, row in numbered(name)]


def cases(name: str) -> list[object]:
    """The rows of such a table as parameters of a test: each one is named by its file and its line."""
    return [pytest.param(*row, id=f"{name}.cases:{number}") for number, row in numbered(name)]


def entry(kind: str = "task", **changes: str) -> str:
    """A table of a TOML file; a value that is empty is left out."""
    values = ENTRIES[kind] | changes
    return f"[[{kind}]]\n" + "".join(f"{key} = {value}\n" for key, value in values.items() if value)


def options(folder: Path, *others: str) -> list[str]:
    """The options that name a folder's task file, its machine file and others."""
    return [f"--{kind}={path}" for kind in ("tasks", "machine", *others) for path in folder.glob(f"{kind}.*")]


def fake(folder: Path, body: str, name: str = "rtdvs") -> Path:
    """A program that runs these lines of the shell."""
    folder.mkdir(exist_ok=True)
    program = folder / name
    program.write_text(f"#!/bin/sh\n{body}\n")
    program.chmod(0o755)
    return program


@contextmanager
def serving(engine: Engine) -> Iterator[PageServer]:
    """A server of the page, in a thread of its own."""
    with PageServer(0, engine) as server:
        thread = Thread(target=server.serve_forever, kwargs={"poll_interval": 0.02})
        thread.start()
        try:
            yield server
        finally:
            server.shutdown()
            thread.join()


def explained(tasks: TaskSet, machine: Machine, demands: Demands | None, text: str) -> list[str]:
    """The explanations of a trace's decisions."""
    boards: list[str] = []
    explain(Walk(tasks, machine, text.splitlines(True), demands), boards.append)
    return boards


def version_1(text: str) -> str:
    """The same run in version 1."""
    kept = [line for line in text.splitlines() if line.split()[0] not in ("task", "energy")]
    return "\n".join(["trace 1", *kept[1:], ""])


def value(text: str) -> Fraction:
    """The value of a sum or a product, exactly.

    >>> value("12 * 280/8 - 0.5")
    Fraction(839, 2)
    """
    exact = re.sub(NUMBER, lambda number: f"Fraction('{number[0]}')", text)
    found: Fraction = eval(exact, {"Fraction": Fraction})
    return found


def path_id(path: Path) -> str:
    return f"{path.parent.name}/{path.stem}"


def printed(capsys: Captured, words: Iterable[object]) -> str:
    """What a command prints that ends with 0 and has nothing to say."""
    status, (out, err) = main([*map(str, words)]), capsys.readouterr()
    assert (status, err) == (0, "")
    return out


def refusal(capsys: Captured, words: Iterable[object], wanted: int = 2) -> str:
    """What a command says that ends with 2, or with another status, and prints nothing."""
    status, (out, err) = main([*map(str, words)]), capsys.readouterr()
    assert (status, out) == (wanted, "")
    return err


def task_sets(most: int, *numbers: st.SearchStrategy[int]) -> st.SearchStrategy[TaskSet]:
    """Sets of up to `most` tasks t0, t1 and so on; the numbers are a period, a worst case and an offset."""
    return st.lists(st.tuples(*numbers), min_size=1, max_size=most).map(
        lambda rows: TaskSet(tuple(Task(f"t{place}", *row) for place, row in enumerate(rows))))


@st.composite
def machines(draw: st.DrawFn, most: int = 32, top: int = 10**6, charge: int = 10**6) -> Machine:
    """Machines of up to `most` points, with speeds up to `top` and a charge up to `charge`."""
    speeds = sorted(draw(st.sets(st.integers(1, top), min_size=1, max_size=most)))
    millivolts = sorted(draw(st.integers(1, 20_000)) for _ in speeds)
    return Machine(tuple(map(Point, speeds, millivolts)), draw(st.integers(0, 1000)), draw(st.integers(0, charge)))


class Segment(NamedTuple):
    """A run of a job, or idle time, which has no task and no job; begin and end are in ticks.

    `places` are these as positions.
    """

    task: str
    job: str
    begin: Fraction
    end: Fraction
    units: int
    energy: int
    speed: int
    places: list[str]


class Lines:
    """A trace as its lines say it, read apart from the package. A job is its task's name and its number."""

    def __init__(self, text: str) -> None:
        self.lines = [line.split() for line in text.splitlines()]
        self.ticks, self.run_energy, self.idle_energy = map(int, self.lines[-1][1:])
        self.period = {name: int(period) for name, period, *_ in self.of("task")}
        self.releases = {(task, job): int(tick) for tick, task, job in self.of("release")}
        self.used = {(task, job): used for _, task, job, used in self.of("done")}
        self.decisions = [(int(tick), int(speed), Fraction(demand))
                          for tick, speed, demand in self.of("speed")]
        self.segments: list[Segment] = []
        self.ends: dict[tuple[str, str], Fraction] = {}
        speed = 1
        for word, *fields in self.lines:
            if word == "speed":
                speed = int(fields[1])
            elif word == "done":
                self.ends[fields[1], fields[2]] = time(fields[0], speed)
            elif word in ("run", "idle"):
                task, job = fields[2:-2] or ("", "")
                begin, end = time(fields[0], speed), time(fields[1], speed)
                units, energy = map(int, fields[-2:])
                self.segments.append(Segment(task, job, begin, end, units, energy, speed, fields[:2]))

    def of(self, word: str) -> list[list[str]]:
        """The fields of the lines that begin with a word."""
        return [line[1:] for line in self.lines if line[0] == word]

    def spans(self) -> list[tuple[int, int, Fraction]]:
        """The ticks for which each decision holds, its speed and its demand."""
        ends = [*(tick for tick, _, _ in self.decisions[1:]), self.ticks]
        return [(end - tick, speed, demand) for (tick, speed, demand), end in zip(self.decisions, ends)]


def time(position: str, speed: int) -> Fraction:
    tick, units = map(int, position.split(":"))
    return tick + Fraction(units, speed)
