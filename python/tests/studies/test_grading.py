"""Grades of traces: counts by hand, what is mended, and the form of a misspelled line."""

from collections.abc import Callable
from itertools import combinations
from pathlib import Path

import pytest
from hypothesis import given, settings
from hypothesis import strategies as st

from rtdvs.errors import BadValue, WrongTrace
from rtdvs.model import Demands
from rtdvs.rules import simulate
from rtdvs.studies import Asked, Grade, Grades, expected, grade, grades, handed_in, mended
from rtdvs.trace import Trace
from tests.shared.examples import BOARD, MINE, PAPER, TEMPLATE, WORKED, files, version_1

TEXT = WORKED.read_text()
LINES = TEXT.splitlines()
DEMANDS = files("paper")[2]
ASKED = Asked(PAPER, BOARD, DEMANDS)
# The worked example has decisions at the ticks 0, 3, 4, 6, 8, 10, 12 and 14.
COUNTS = (len(LINES), sum(line.startswith("speed") for line in LINES))


def graded(lines: list[str], asked: Asked = ASKED) -> Grade:
    return grade(asked, "a", "".join(f"{line}\n" for line in lines).encode())


def test_a_right_trace() -> None:
    assert COUNTS == (33, 8)
    assert graded(LINES) == Grade("a", 33, 33, 8, 8)
    second = simulate(PAPER, BOARD, "edf", 16, "cc", DEMANDS).text().splitlines()
    assert graded(second) == Grade("a", 39, 39, 8, 8)


Change = Callable[[list[str]], object]
Other = Callable[[str], str]


@pytest.mark.parametrize(("change", "lines", "decisions", "line", "reason"), [
    pytest.param(lambda kept: kept.pop(5), 32, 7, 6, "the decision at tick 0 is missing", id="a decision is missing"),
    pytest.param(lambda kept: kept.insert(8, kept[7]), 33, 8, 9, "the line before isn't the last one of t1 job 1",
                 id="a line twice"),
    pytest.param(lambda kept: kept.__setitem__(slice(2, 4), kept[3:1:-1]), 32, 8, 3,
                 "the release of t1 comes first, by its place in the file", id="two lines exchanged"),
    pytest.param(lambda kept: kept.__setitem__(5, "speed 0 4 836/280"), 32, 7, 6, "speed 3 is the lowest that meets",
                 id="another speed"),
    pytest.param(lambda kept: kept.__setitem__(7, "done 2.67 t1 1 8"), 32, 8, 8,
                 'not a line of a trace: it is "done 2.67 t1 1 8", and not done TICK:UNITS TASK JOB UNITS in whole numbers',
                 id="a decimal"),
    pytest.param(lambda kept: kept.__delitem__(slice(10, None)), 10, 2, 11, "the trace ends before its end line",
                 id="the rest is missing"),
    pytest.param(lambda kept: kept.__setitem__(0, "Trace 1"), 32, 8, 1,
                 'neither trace 1 nor trace 2: it is "Trace 1", and not trace 1 or trace 2 in whole numbers', id="a capital"),
])
def test_by_hand(change: Change, lines: int, decisions: int, line: int, reason: str) -> None:
    kept = [*LINES]
    change(kept)
    solution = Trace.parse(TEXT)
    found = graded(kept, Asked.by(PAPER, BOARD, DEMANDS, solution))
    assert (found.lines, found.decisions) == (lines, decisions)
    assert (found.of_lines, found.of_decisions) == COUNTS
    assert found.line == line and found.reason.startswith(reason)


def test_another_plan_than_the_solution_s() -> None:
    """Without the solution that trace is right."""
    other = version_1(simulate(PAPER, BOARD, "edf", 16, "none", DEMANDS).text()).splitlines()
    assert graded(other).is_right
    found = graded(other, Asked.by(PAPER, BOARD, DEMANDS, Trace.parse(TEXT)))
    assert (found.line, found.reason, found.of_lines) == (2, "wanted plan edf cc 16", 33)


def test_the_demands_are_those_of_the_solution() -> None:
    other = version_1(simulate(PAPER, BOARD, "edf", 16, "cc", Demands({("t1", 1): 7})).text()).splitlines()
    assert graded(other, Asked(PAPER, BOARD)).is_right
    found = graded(other, Asked.by(PAPER, BOARD, None, Trace.parse(TEXT)))
    assert found.line == 7 and not found.is_right
    assert graded(LINES, Asked.by(PAPER, BOARD, None, Trace.parse(TEXT))).is_right
    with pytest.raises(WrongTrace, match="line 6"):
        Asked.by(PAPER, BOARD, None, Trace.parse(TEXT.replace("speed 0 3", "speed 0 2")))


@pytest.mark.parametrize(("change", "said"), [
    pytest.param(lambda text: text.replace("\n", "\r\n"), ("CRLF",), id="CRLF"),
    pytest.param(lambda text: text.replace("speed 0 3 ", "speed\t0  3 \t"), ("tabs or blanks in line 6",), id="tabs"),
    pytest.param(lambda text: text.replace("done", " done").replace("plan edf cc 16", "plan edf cc 16 "),
                 ("tabs or blanks in lines 2, 8, 12, 15, 21 and 2 more",), id="blanks at ends"),
    pytest.param(lambda text: text[:-1], ("no line feed at the end",), id="no line feed"),
    pytest.param(lambda text: text + "\n \n", ("tabs or blanks in line 35", "empty lines at the end"), id="empty lines"),
    pytest.param(lambda text: "\xef\xbb\xbf" + text, ("a byte order mark",), id="a byte order mark"),
])
def test_mended(change: Other, said: tuple[str, ...]) -> None:
    """The grade is that of the same trace without it; line numbers are those of the file."""
    text = change(TEXT)
    assert grade(ASKED, "a", text.encode("latin-1")) == Grade("a", 33, 33, 8, 8, mended=said)
    wrong = change(TEXT.replace("idle 6:0", "idle 6:1"))
    assert grade(ASKED, "a", wrong.encode("latin-1")).line == LINES.index("idle 6:0 8:0 4 0") + 1


@settings(max_examples=60)
@given(st.lists(st.tuples(st.integers(0, len(LINES)), st.sampled_from(["drop", "copy", "number"])), max_size=3))
def test_a_fault_is_a_line_that_is_not_right(changes: list[tuple[int, str]]) -> None:
    kept = [*LINES]
    for place, what in changes:
        at = min(place, len(kept) - 1)
        made: dict[str, list[str]] = {"drop": [], "copy": [kept[at]] * 2, "number": [f"{kept[at]}1"]}
        kept[at:at + 1] = made[what]
        kept = kept or ["trace 1"]
    found = graded(kept, Asked.by(PAPER, BOARD, DEMANDS, Trace.parse(TEXT)))
    assert found.is_right == (kept == LINES)
    assert found.lines <= min(len(kept), 33) and (found.lines == 33) == any(
        [*LINES] == [line for place, line in enumerate(kept) if place not in out] for out in left_out(kept))
    if not found.is_right:
        same = next((place for place, pair in enumerate(zip(kept, LINES)) if pair[0] != pair[1]), min(len(kept), 33))
        assert found.line == same + 1


def left_out(kept: list[str]) -> list[set[int]]:
    """All choices of places to be left out, up to three, so that as many lines are kept as are right."""
    return [set(out) for out in combinations(range(len(kept)), len(kept) - 33)] if 33 <= len(kept) <= 36 else []


def test_any_bytes_have_a_grade() -> None:
    for content in (b"", b"\n", b"\r\n\r\n", b"\xff\xfe\x00", b"trace 1", b"trace 1\nplan edf la 16\n", b"x" * 5000):
        assert not grade(ASKED, "a", content).is_right
    assert grade(ASKED, "a", b"").reason.startswith("neither trace 1 nor trace 2")
    assert grade(ASKED, "a", b"trace 1\nplan rm la 16\n").reason == "no scheduler and governor rm la"


@pytest.mark.parametrize(("number", "line", "wanted"), [
    (9, "run 0:0 2:2 t1 1 8 128000000000", ""),
    (9, "run 0 2:2 t1 1 8 128", "run TICK:UNITS TICK:UNITS TASK JOB UNITS ENERGY in whole numbers"),
    (9, "release 0 t1", "release TICK TASK JOB in whole numbers"),
    (9, "speed 0 3 2.5", "speed TICK SPEED NUM/DEN in whole numbers"),
    (9, "end 16", "end TICKS RUN_ENERGY IDLE_ENERGY in whole numbers"),
    (9, "task a 4", "task NAME PERIOD OFFSET WORST in whole numbers"),
    (9, "# note", "a line that begins with task, release, speed, run, idle, done, energy, end"),
    (2, "plan edf 16", "plan SCHEDULER GOVERNOR TICKS in whole numbers"),
])
def test_the_form_that_was_expected(number: int, line: str, wanted: str) -> None:
    assert expected(number, line) == (wanted and f'it is "{line}", and not {wanted}')


def test_a_long_line_is_said_up_to_its_80th_character() -> None:
    assert expected(9, "end " + "1" * 76 + "2") == (
        f'it is "end {"1" * 76}", and not end TICKS RUN_ENERGY IDLE_ENERGY in whole numbers')


def test_a_folder(tmp_path: Path) -> None:
    with pytest.raises(BadValue, match="no file there has a name that ends with .trace"):
        grades(ASKED, tmp_path)
    (tmp_path / "ben").mkdir()
    (tmp_path / "ben" / "x.TRACE").write_text(TEXT)
    (tmp_path / "anna.trace").write_text(TEXT.replace("\n", "\r\n"))
    (tmp_path / "notes.txt").write_text("notes")
    assert handed_in(tmp_path)[1] == [tmp_path / "notes.txt"]
    found = grades(ASKED, tmp_path)
    assert found.text().splitlines() == [
        "file         lines    right  decisions    right  first fault",
        "anna.trace   33/33  100.0 %        8/8  100.0 %  none (mended: CRLF)",
        "ben/x.TRACE  33/33  100.0 %        8/8  100.0 %  none",
    ]
    assert found == (Grade("anna.trace", 33, 33, 8, 8, mended=("CRLF",)), Grade("ben/x.TRACE", 33, 33, 8, 8))


def test_csv_quotes() -> None:
    text = Grades([Grade('a,"b".trace', 1, 3, 0, 0, 2, "wanted, x", ("CRLF", "y"))]).csv()
    assert text.splitlines()[1] == '"a,""b"".trace",1,3,0.3333,0,0,0.0000,2,"wanted, x",CRLF; y'


def test_demands_of_done_lines() -> None:
    """They have the charge twice, which isn't demanded; nobody demands more than the worst case."""
    tasks, machine, _ = files("templates")
    assert machine.charge > 0 and grade(Asked(tasks, machine), "a", TEMPLATE.read_bytes()).is_right
    over = grade(Asked(PAPER, BOARD), "a", TEXT.replace("done 2:2 t1 1 8", "done 2:2 t1 1 13").encode())
    assert (over.line, over.of_lines > 30) == (7, True)


def test_a_trace_of_another_governor_has_a_reason() -> None:
    assert grade(ASKED, "a", MINE.encode()).line is not None
    assert mended(MINE.encode())[1] == ()
