"""Files: the rules of docs/FORMATS.md by hand, broken files against the program, and texts that come back."""

import random
import string
from collections.abc import Callable, Iterator
from pathlib import Path
from typing import Any

import pytest
from hypothesis import given
from hypothesis import strategies as st

from rtdvs.engine import Engine
from rtdvs.model import Deadlines, Demands, Machine, Point, Request, Requests, Task, TaskSet
from tests.shared.examples import DATA, rows, entry, machines
from tests.shared.refusals import CALLS, MACHINE, TASKS, line_of

TABLES = {
    "demands": "task,job,units\na,1,2\nb_2,2,0\na,3,1\n",
    "deadlines": "task,deadline\na,3\nb_2,6\n",
    "requests": "arrival,units\n0,3\n2,1\n2,5\n",
}
SET = TaskSet.parse(TASKS)
READERS: dict[str, Callable[[bytes], TaskSet | Machine | Demands | Deadlines | Requests]] = {
    "tasks": TaskSet.parse,
    "machine": Machine.parse,
    "demands": lambda text: Demands.parse(text, SET),
    "deadlines": lambda text: Deadlines.parse(text, SET),
    "requests": Requests.parse,
}
# The least and the greatest value of each number, by the place that a refusal names.
RANGES = {
    "tasks: task 1": {"period": (1, 2**40), "worst": (1, 2**60), "offset": (0, 2**40)},
    "machine: point 1": {"speed": (1, 10**6), "millivolts": (1, 20_000)},
    "machine": {"idle": (0, 1000), "charge": (0, 10**6)},
}


def file_line(kind: str, content: bytes) -> str | None:
    """The line of the refusal, None if the file is read."""
    return line_of(lambda: READERS[kind](content))


# By hand

def of_ranges() -> Iterator[tuple[str, str, str]]:
    """Numbers that are missing, of another kind or out of their ranges: a file, its text, the refusal."""
    for place, ranges in RANGES.items():
        for key, (least, most) in ranges.items():
            refused = dict.fromkeys(("4.0", "true", '"2"', "[1]", "{}"), f"wrong kind of {key}")
            refused |= dict.fromkeys(map(str, (least - 1, most + 1)), f"{key} out of range")
            if least:
                refused[""] = f"missing {key}"
            for value, reason in refused.items():
                text = entry(place.split()[1], **{key: value}) if " " in place else f"{key} = {value}\n"
                yield place.split(":")[0], text, f"{place}: {reason}"


# A kind of file, its text, and the refusal.
BY_HAND = [
    *((kind, f"{TABLES[kind].splitlines()[0]}\n{text}" if reason.startswith("row ") else text, f"{kind}: {reason}")
      for kind, text, reason in rows("refused_files")),
    ("tasks", "a = " + "[" * 5000, "tasks: not TOML"),
    ("tasks", "".join(entry(name=f'"t{place}"') for place in range(65)), "tasks: 65 tasks, at most 64"),
    ("machine", "".join(entry("point", speed=str(speed)) for speed in range(1, 34)), "machine: 33 points, at most 32"),
    ("demands", f"task,job,units\n{'x' * 200_000},1,1", f"demands: row 1: unknown task {'x' * 32}"),
    ("demands", f"task,job,units\na,{'1' * 5000},1", "demands: row 1: bad job"),
    ("demands", "task,job,units\na,1,3\nx", "over worst: a 1 3 2"),
    ("requests", "arrival,units\n" + "x\n" * 100_001, "requests: 100001 rows, at most 100000"),
    *of_ranges(),
]


@pytest.mark.parametrize(("kind", "text", "line"), BY_HAND, ids=[line[:60] for _, _, line in BY_HAND])
def test_refused(kind: str, text: str, line: str) -> None:
    assert file_line(kind, text.encode()) == line


@pytest.mark.parametrize("kind", READERS)
@pytest.mark.parametrize("content", [b"\xff\xfe", b"\0", "ä".encode("latin-1"), b"\xef\xbb\xbf\xef\xbb\xbf"])
def test_no_text(kind: str, content: bytes) -> None:
    assert file_line(kind, content) in (f"{kind}: not TOML", f"{kind}: wrong header")


@pytest.mark.parametrize("kind", READERS)
def test_too_long(kind: str) -> None:
    assert file_line(kind, b"\n" * (2**24 + 1)) == f"{kind}: too long"


def test_greatest_values() -> None:
    task = Task("A" * 32, 2**40, 2**60, 2**40)
    assert TaskSet.parse(TaskSet((task,)).text()).tasks == (task,)
    machine = Machine((Point(1, 1), Point(1_000_000, 20_000)), 1000, 1_000_000)
    assert Machine.parse(machine.text()) == machine


# Against the program

VALUES = (
    "0", "-1", "1", "7", "20001", "1000001", "1099511627776", "1099511627777", "1152921504606846976",
    "1152921504606846977", "9223372036854775807", "9223372036854775808", "-9223372036854775808", "8.0", "1e3",
    "inf", "true", '"x"', '""', '"a b"', '"a"', "'b_2'", "[1]", "{a = 1}", "1979-05-27", "0x10", "1_0", "+5",
    "08", "_1", "", "1 1", "# 1", "[[[[]]]]", "07:32:00", "nan", "0b11", "0o7", '"\\u0061"', '"\\t"', "'''a",
)
FIELDS = (
    "0", "1", "2", "01", "-1", "+1", " 1", "1 ", "", "18446744073709551615", "18446744073709551616", "1e3",
    "a", "b_2", "A", "c d", '"a"', '"1"', '"a', 'a"', '"a"1', '"""a"""', "1152921504606846977", "9" * 30,
    "\u00e4", "x" * 40, "a,b", "a\rb", "1\n", "1\r\n\r\n", "\0", "1;2", "#",
)


def changed_settings(text: str) -> Iterator[str]:
    """Each line's value, key and place changed."""
    lines = text.splitlines()
    for place, line in enumerate(lines):
        before, after = lines[:place], lines[place + 1:]
        key, equals, _ = line.partition(" =")
        others = [f"{key} = {value}" for value in VALUES] if equals else ["[x]", "[[task]]", "[[point]]"]
        for other in (*others, "", line + "\n" + line, "x" + line, f'"{key}" = 1'):
            yield "\n".join([*before, other, *after])


def changed_fields(text: str) -> Iterator[str]:
    """Each field changed, each row doubled or left out."""
    rows = text.splitlines()
    for place, row in enumerate(rows):
        before, after = rows[:place], rows[place + 1:]
        fields = row.split(",")
        others = [
            ",".join([*fields[:column], other, *fields[column + 1:]])
            for column in range(len(fields)) for other in FIELDS
        ]
        for other in (*others, "", row + "\r\n" + row, row + ",", "," + row, row + "\r"):
            yield "\n".join([*before, other, *after])


def changed_bytes(text: str, count: int) -> Iterator[bytes]:
    """One to three bytes changed, put in or taken out, by a fixed seed."""
    draw = random.Random(7)
    marks = [b"\n", b"\r", b'"', b"[", b"]", b"=", b",", *(bytes([draw.randrange(256)]) for _ in range(40))]
    for _ in range(count):
        content = text.encode()
        for _ in range(draw.randint(1, 3)):
            place = draw.randrange(len(content))
            content = content[:place] + draw.choice([*marks, b""]) + content[place + draw.randint(0, 1):]
        yield content


def broken_files(kind: str) -> list[bytes]:
    base = {"tasks": TASKS, "machine": MACHINE} | TABLES
    changed = changed_fields if kind in TABLES else changed_settings
    by_hand = [text.encode() for of, text, _ in BY_HAND if of == kind and len(text) < 4000]
    return [*by_hand, *(text.encode() for text in changed(base[kind])), *changed_bytes(base[kind], 150)]


@pytest.mark.parametrize("kind", READERS)
def test_lines_are_the_program_s(kind: str, engine: Engine) -> None:
    """What the program refuses is refused with its line; what it reads, it reads again from the text."""
    files = broken_files(kind)
    answers = engine.answers(map(CALLS[kind], files))
    lines = [file_line(kind, content) for content in files]
    read = [content for content, line in zip(files, lines, strict=True) if line is None]
    again = engine.answers(CALLS[kind](READERS[kind](content).text().encode()) for content in read)
    for content, line, answer in zip(files, lines, answers, strict=True):
        refused = answer.status in (4, 6)
        assert line == (answer.notes.decode().rstrip("\n") if refused else None), content
        assert refused or answer == next(again), content


# Texts come back

NAMES = st.text(string.ascii_letters + string.digits + "_-", min_size=1, max_size=32)
PERIODS = st.sampled_from([1, 2, 3, 4, 6, 12, 2**40])


@st.composite
def named_sets(draw: st.DrawFn) -> TaskSet:
    names = draw(st.lists(NAMES, min_size=1, max_size=6, unique=True))
    numbers = (draw(PERIODS), draw(st.integers(1, 2**60)), draw(st.integers(0, 2**40)))
    return TaskSet(tuple(Task(name, *numbers) for name in names))


REQUESTS = st.lists(st.builds(Request, st.integers(0, 2**64 - 1), st.integers(1, 2**60))).map(
    lambda requests: Requests(tuple(sorted(requests, key=lambda each: each.arrival))))


@pytest.mark.parametrize("contents", [named_sets(), machines(), REQUESTS], ids=["tasks", "machine", "requests"])
@given(st.data())
def test_files_come_back(contents: st.SearchStrategy[TaskSet | Machine | Requests], data: st.DataObject) -> None:
    content = data.draw(contents)
    assert type(content).parse(content.text()) == content


@given(named_sets(), st.data())
def test_demands_and_deadlines_come_back(tasks: TaskSet, data: st.DataObject) -> None:
    keys = st.tuples(st.sampled_from(tasks.names), st.integers(1, 2**64 - 1))
    demands = Demands(data.draw(st.dictionaries(keys, st.integers(0, tasks.tasks[0].worst))))
    assert Demands.parse(demands.text(), tasks) == demands
    ticks = st.dictionaries(st.sampled_from(tasks.names), st.integers(1, tasks.tasks[0].period))
    deadlines = Deadlines(data.draw(ticks))
    assert Deadlines.parse(deadlines.text(), tasks) == deadlines


@given(st.binary(max_size=60), st.sampled_from([*READERS]))
def test_random_bytes_are_refused(content: bytes, kind: str) -> None:
    assert (file_line(kind, content) or f"{kind}: ").startswith(f"{kind}: ")


def test_the_name_of_a_file_as_text(monkeypatch: pytest.MonkeyPatch) -> None:
    monkeypatch.chdir(DATA / "paper")
    named: Any = "tasks.toml"
    assert TaskSet.read(named) == TaskSet.read(DATA / "paper" / "tasks.toml")


@pytest.mark.parametrize("folder", ["paper", "offsets", "controller", "server"])
@pytest.mark.parametrize(("kind", "name"), [(TaskSet, "tasks.toml"), (Machine, "machine.toml")])
def test_written_and_read(kind: type[TaskSet | Machine], name: str, folder: str, tmp_path: Path) -> None:
    content = kind.read(DATA / folder / name)
    content.write(tmp_path / name)
    assert kind.read(tmp_path / name) == content
