"""Second lines of other refusals, of values in Python, and of any files: always one line, never an exception."""

from pathlib import Path

import pytest
from hypothesis import given
from hypothesis import strategies as st

from rtdvs.engine import run_call
from rtdvs.errors import BadValue, Denied, Differs, FileRefused, RtdvsError, TraceFault
from rtdvs.hints import COMMANDS, FLAGS, VALUES, second_line, sections
from rtdvs.hints.toml_faults import Place, toml_fault
from rtdvs.model import Machine, Point, Task, TaskSet, checked_number
from tests.shared.examples import BOARD, TOP

ROWS = [row for rows in sections().values() for row in rows]


@pytest.mark.parametrize(("text", "line", "column", "fault"), [
    ("[[task]]\nname = 'a\n", 2, 10, "the quote isn't closed"),
    ('a = "b', 1, 7, "the quote isn't closed"),
    ("worst 3\n", 1, 7, "a key is followed by `=` and its value"),
    ("period: 8\n", 1, 7, "a key is followed by `=` and its value"),
    ("a = [1, 2\n", 1, 10, "a bracket isn't closed"),
    ("[[task]\n", 1, 7, "the heading has fewer brackets at its end"),
    ("[task]]\n", 1, 7, "the heading has fewer brackets at its beginning"),
    ("a = 1\nb = 2\na = 3\n", 3, 6, "this key is given twice"),
    ("# a\n= 3\n", 2, 1, "a line is a key with its value, or a heading such as `[[task]]`"),
    ("name = “t1”\n", 1, 8, "this isn't a value: a text has quotes, a number only digits"),
    ("a = 1\nb = 9223372036854775808\n", 2, 5, "9223372036854775808 is past 64 bits"),
    ("a = 1\rb = 2\n", 1, 6, "a carriage return without a line feed"),
])
def test_places_in_toml(text: str, line: int, column: int, fault: str) -> None:
    assert toml_fault(text.encode()) == Place(line, column, fault)


def test_a_text_that_is_not_utf_8() -> None:
    found = toml_fault("idle = 0\nname = 'é'\n".encode("latin-1"))
    assert found == Place(2, 9, "this isn't UTF-8: save the file as UTF-8")
    assert toml_fault(("[" * 2000).encode()) is not None


@pytest.mark.parametrize(("make", "second"), [
    (lambda: Task("t1", 0, 12), "`period` is a whole number from 1 to 1099511627776, without quotes."),
    (lambda: Task("t 1", 8, 12), "A name has 1 to 32 letters, digits, `_` and `-`."),
    (lambda: Point(2, 30_000), "`millivolts` is a whole number from 1 to 20000, without quotes."),
    (lambda: checked_number("ticks", 0), "`ticks` is a whole number from 1 to 1099511627776, without quotes."),
    (lambda: TaskSet([]), "The file has a table `[[task]]` for each task."),
    (lambda: Machine([Point(3, 2), Point(2, 2)]),
     "Each point needs a higher speed than the one before, and no fewer millivolts."),
])
def test_values(make: "type[Task]", second: str) -> None:
    """A value in Python has no file, so its second line says what is right."""
    with pytest.raises(RtdvsError) as caught:
        make()  # type: ignore[call-arg]
    assert second_line(caught.value) == second


@pytest.mark.parametrize("fault", [BadValue("no colour: no"), TraceFault(3, "a line after the end line"),
                                   FileRefused("board", "not TOML"), ValueError("x")], ids=str)
def test_what_explains_itself(fault: Exception) -> None:
    assert second_line(fault) == ""


def test_words_of_a_call() -> None:
    """A call's texts have no lines that a user could look for; its numbers are said."""
    tasks = TaskSet([Task("a", 4, 17)])
    call = run_call(tasks, BOARD, "edf", "cc", 16)
    said = second_line(Denied("edf", 17, 16), call.words())
    assert said.startswith("The tasks ask for 4.25 units a tick, and the highest speed is 4. This is 1.06 times")
    assert second_line("tasks: task 1: period out of range", ["run", "--tasks", b"[[task]]\nperiod = 0\n"]).endswith("It is `0`.")


def test_little_above_the_highest_speed() -> None:
    """Digits are added until a number is above: 4.00001 of 4, and 1.0000025, rounded half to even."""
    said = second_line(Denied("edf", 400_001, 400_000), files={"machine": BOARD})
    assert said.startswith("The tasks ask for 4.00001 units a tick, and the highest speed is 4. This is 1.000002 times")


def test_first_of_three_lines() -> None:
    assert second_line(Differs(10, "speed 3 2 8/5", "speed 3 3 8/5")).startswith("It was changed, or made with other")


@given(st.sampled_from(ROWS), st.data())
def test_any_line_and_any_file(row: "type[object]", data: st.DataObject) -> None:
    """Of a line with any parts, and files of any bytes, there is one line or none."""
    template = data.draw(st.sampled_from(getattr(row, "lines")))
    pieces = template.split("<")
    line = pieces[0] + "".join(f"{data.draw(st.integers(0, 9))}{piece.partition('>')[2]}" for piece in pieces[1:])
    files = {kind: data.draw(st.binary(max_size=60)) for kind in ("tasks", "machine", "demands", "deadlines", "requests", "trace")}
    found = second_line(line, data.draw(st.lists(st.sampled_from(["run", "--ticks", "x", "--tasks=1"]))), files)
    assert "\n" not in found and "<" not in found


def test_commands_are_those_of_readme() -> None:
    """Each with its options: those in brackets, after the others, can be left out."""
    rows = [line.split("|") for line in (TOP / "README.md").read_text(encoding="utf-8").splitlines()
            if line.startswith("| `")]
    table = {cells[1].strip(" `"): "|".join(cells[2:-2]).strip(" `") for cells in rows if cells[1].strip(" `") in COMMANDS}
    assert {*table} == {*COMMANDS}
    for command, said in table.items():
        words = said.replace("[", "[ ").split()
        needed = [word for before, word in zip(["", *words], words) if word.startswith("--") and before != "["]
        assert sorted(needed) == sorted(COMMANDS[command].required)
        assert {word.strip("[]") for word in words if word.startswith("--")} == {*COMMANDS[command].options}


def test_each_option_has_a_rule() -> None:
    options = {option for usage in COMMANDS.values() for option in usage.options}
    assert options == VALUES.keys() | {*FLAGS}
