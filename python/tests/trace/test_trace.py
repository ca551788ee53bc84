"""Traces: the worked one of docs/TRACE.md by hand, and what is refused."""

import re
from collections.abc import Callable
from fractions import Fraction
from pathlib import Path

import pytest
from hypothesis import given
from hypothesis import strategies as st

from rtdvs.errors import TraceFault
from rtdvs.model import Task, TaskSet
from rtdvs.trace import (
    SAMPLE, Decision, End, Job, Position, Run, Trace, csv_text, frame, parse_lines, rows, task_statistics,
)
from tests.shared.examples import DATA, PAPER, TEMPLATE, TRACES, WORKED, Captured, cases, printed, refusal

TEXTS = [path.read_text() for path in TRACES]
# The number of the first wrong line, the text, and a part of the reason.
REFUSED = [
    *cases("refused_traces"),
    pytest.param("3", "trace 1\nplan edf mine 4\n" + "x" * 255 + "\n", "not a line of a trace", id="255 bytes"),
    pytest.param("3", "trace 1\nplan edf mine 4\n" + "x" * 256 + "\n", "more than 255 bytes", id="256 bytes"),
    pytest.param("2", "trace 1\n" + "x" * 255 + "\n", "not a plan line", id="255 bytes of the plan"),
    pytest.param("2", "trace 1\n" + "x" * 256 + "\n", "more than 255 bytes", id="256 bytes of the plan"),
    pytest.param("67", "trace 2\nplan edf mine 4\n" + "".join(f"task t{n} 4 0 4\n" for n in range(65)),
                 "more than 64 tasks", id="65 tasks"),
    pytest.param("3", "trace 1\nplan edf mine 4\n" + "x" * 10**6, "more than 255 bytes", id="10^6 bytes"),
    pytest.param("800001", "trace 1\nplan edf mine 4\n" + "release 0 a 1\n" * 800_000, "at most 800000 lines",
                 id="800001 lines"),
]


def third(ticks: int, thirds: int) -> Fraction:
    return ticks + Fraction(thirds, 3)


def test_worked_trace() -> None:
    """At 3 units a tick to tick 4 and from 8 to 10, otherwise at 2; a unit costs 16 * 10^9 or 9 * 10^9."""
    trace = Trace.read(WORKED)
    assert (trace.version, trace.scheduler, trace.governor) == (1, "edf", "cc")
    assert (trace.ticks, trace.tasks) == (16, ())
    milliard = 10**9
    assert trace.jobs(PAPER) == (
        Job("t1", 1, 0, 8, Fraction(0), third(2, 2), 8, 0, 128 * milliard),
        Job("t2", 1, 0, 10, third(2, 2), Fraction(4), 4, 0, 64 * milliard),
        Job("t3", 1, 0, 14, Fraction(4), Fraction(6), 4, 0, 36 * milliard),
        Job("t1", 2, 8, 16, Fraction(8), third(9, 1), 4, 0, 64 * milliard),
        Job("t2", 2, 10, 20, Fraction(10), Fraction(12), 4, 0, 36 * milliard),
        Job("t3", 2, 14, 28, Fraction(14), Fraction(16), 4, 0, 36 * milliard),
    )
    assert [job.response for job in trace.jobs(PAPER)] == [third(2, 2), 4, 6, third(1, 1), 2, 2]
    assert [job.laxity for job in trace.jobs(PAPER)] == [third(5, 1), 6, 8, third(6, 2), 8, 12]
    assert trace.residency() == {3: Fraction(4 + 2), 2: Fraction(4 + 6)}
    assert (trace.switches, len(trace.decisions), trace.decisions[0]) == (3, 8, Decision(0, 3, 836, 280))
    assert trace.idle_time == 2 + Fraction(2, 3) + 2  # ticks 6 and 7, two units of tick 9, ticks 12 and 13
    assert (trace.run_energy, trace.idle_energy, trace.energy) == (364 * milliard, 0, 364 * milliard)
    assert trace.end == End(16, 364 * milliard, 0)


def test_preemption() -> None:
    """b begins in tick 0, and has its last units after the second job of a."""
    trace = Trace.parse("trace 1\nplan edf mine 4\nrelease 0 a 1\nrelease 0 b 1\nspeed 0 2 2/1\n"
                        "run 0:0 0:1 a 1 1 5\ndone 0:1 a 1 1\nrun 0:1 1:0 b 1 1 5\n"
                        "speed 1 4 4/1\nrun 1:0 2:0 b 1 4 20\nrelease 2 a 2\n"
                        "run 2:0 2:1 a 2 1 5\ndone 2:1 a 2 1\nrun 2:1 2:3 b 1 2 10\ndone 2:3 b 1 7\n"
                        "idle 2:3 4:0 5 0\nend 4 45 0\n")
    tasks = TaskSet((Task("a", 2, 1), Task("b", 8, 7)))
    half, quarter = Fraction(1, 2), Fraction(1, 4)
    assert trace.jobs(tasks) == (
        Job("a", 1, 0, 2, Fraction(0), half, 1, 0, 5),
        Job("b", 1, 0, 8, half, 2 + 3 * quarter, 7, 1, 35),
        Job("a", 2, 2, 4, Fraction(2), 2 + quarter, 1, 0, 5),
    )
    first, second = task_statistics(trace, tasks)
    assert first.row() == ("a", "2", "2", "0", "0.3750", "0.5000", "0.2500", "1.5000", "0", "10")
    assert second.row(2) == ("b", "1", "1", "0", "2.75", "2.75", "0.00", "5.25", "1", "35")


@pytest.mark.parametrize(("ticks", "rest", "preemptions"), [
    pytest.param(4, [], 1, id="the run ends before it is resumed"),
    pytest.param(5, ["run 4:0 5:0 long 1 2 5"], 1, id="it is resumed"),
])
def test_a_preemption_counts_when_it_is_made(ticks: int, rest: list[str], preemptions: int) -> None:
    """`long` has 4 units, then `short` comes at tick 2 and has the next two ticks."""
    lines = [f"trace 1\nplan edf none {ticks}\nrelease 0 long 1\nspeed 0 2 2/1\nrun 0:0 1:0 long 1 2 5",
             "speed 1 2 2/1\nrun 1:0 2:0 long 1 2 5\nrelease 2 short 1\nspeed 2 2 2/1\nrun 2:0 4:0 short 1 4 5",
             "done 4:0 short 1 4\nspeed 4 2 2/1", *rest, f"end {ticks} 0 0"]
    if ticks == 4:
        lines[2] = "done 4:0 short 1 4"
    tasks = TaskSet((Task("long", 20, 20), Task("short", 5, 4, 2)))
    jobs = Trace.parse("\n".join([*lines, ""])).jobs(tasks)
    assert [job.preemptions for job in jobs] == [preemptions, 0]


@pytest.mark.parametrize(("lines", "reason"), [
    pytest.param(["release 0 a 1", "release 4 a 1"], "line 4: a job 1 is released twice", id="released twice"),
    pytest.param(["done 0:0 a 1 0"], "line 3: a job 1 is not released", id="not released"),
    pytest.param(["release 0 a 1", "done 0:0 a 1 0", "done 0:0 a 1 0"], "line 5: a job 1 is complete", id="done twice"),
])
def test_jobs_that_can_t_be(lines: list[str], reason: str) -> None:
    trace = Trace.parse("\n".join(["trace 1", "plan edf mine 8", *lines, "end 8 0 0", ""]))
    with pytest.raises(TraceFault, match=f"^{reason}$"):
        trace.jobs()


def test_deadlines_without_a_task_set() -> None:
    """In version 1 a period is the distance of two releases; t3's are at 0 and 14, and t1's at 0 and 8."""
    deadlines = [job.deadline for job in Trace.read(WORKED).jobs()]
    assert deadlines == [8, 10, 14, 16, 20, 28] == [job.deadline for job in Trace.read(WORKED).jobs(PAPER)]
    once = Trace.parse("trace 1\nplan edf mine 4\nrelease 1 a 1\ndone 1:0 a 1 0\nend 4 0 0\n").jobs()[0]
    assert once.completion == 1 and once.deadline is None is once.laxity


def test_declared_units_without_a_charge() -> None:
    """The task's worst case is 4; a charge of 3 is paid twice."""
    trace = Trace.parse(SAMPLE)
    assert [next(rows(trace, "jobs"))[-1], next(rows(trace, "jobs", charge=3))[-1]] == [4, 10]
    assert [csv_text(trace, "jobs")[-2:], csv_text(trace, "jobs", charge=3)[-3:]] == ["4\n", "10\n"]
    pytest.importorskip("pandas")
    for make in (frame, Trace.frame):
        assert [make(trace, "jobs")["declared"][0], make(trace, "jobs", charge=3)["declared"][0]] == [4, 10]


@pytest.mark.parametrize("table", ["job", "Jobs", ""])
def test_unknown_tables(table: str) -> None:
    makers: list[Callable[[Trace, str], object]] = [rows, csv_text, frame]
    for made in makers:
        with pytest.raises(KeyError, match=f"^'{table}'$"):
            made(Trace.read(WORKED), table)


def test_jobs_that_are_not_complete() -> None:
    """At 4 ticks only t2's first job is complete beside t1's; t3 has no start."""
    lines = WORKED.read_text().replace("cc 16", "cc 4").splitlines(True)[:12]
    cut = Trace.parse("".join(lines) + "end 4 192000000000 0\n")
    assert [job.completion for job in cut.jobs(PAPER)] == [third(2, 2), 4, None]
    waiting = task_statistics(cut, PAPER)[2]
    assert waiting.row() == ("t3", "1", "0", "0", "-", "-", "-", "-", "0", "0")


@pytest.mark.parametrize("text", TEXTS)
def test_text_of_a_trace(text: str) -> None:
    assert Trace.parse(text).text() == text


@pytest.mark.parametrize(("line", "text", "part"), REFUSED)
def test_refused(line: str, text: str, part: str) -> None:
    with pytest.raises(TraceFault) as found:
        Trace.parse(text)
    assert found.value.line == int(line) and part in found.value.reason


NAME, COUNT, ENERGY = "x" * 32, 2**64 - 1, 2**128 - 1
GREATEST = f"""trace 2
plan {NAME} {NAME} {2**40}
task {NAME} {2**40} {2**40} {2**60}
release {COUNT} {NAME} {COUNT}
speed {COUNT} {COUNT} {ENERGY}/{ENERGY}
run {COUNT}:{COUNT} {COUNT}:{COUNT} {NAME} {COUNT} {COUNT} {ENERGY}
done {COUNT}:{COUNT} {NAME} {COUNT} {COUNT}
idle {COUNT}:{COUNT} {COUNT}:{COUNT} {COUNT} {ENERGY}
energy {NAME} {ENERGY}
end {COUNT} {ENERGY} {ENERGY}
"""
PARTS = [found.span() for found in re.finditer(r"\d{2,}|x+", GREATEST)]


def test_the_greatest_trace() -> None:
    trace = Trace.parse(GREATEST)
    assert trace.text() == GREATEST
    assert trace.energy == 2 * ENERGY and trace.tasks == (Task(NAME, 2**40, 2**60, 2**40),)


@pytest.mark.parametrize(("begin", "end"), PARTS, ids=[str(GREATEST[:begin].count("\n") + 1) for begin, _ in PARTS])
def test_each_part_of_the_greatest_trace(begin: int, end: int) -> None:
    """A number that is greater by one, and a name that is longer by a letter, are refused at their lines."""
    part = GREATEST[begin:end]
    wrong = GREATEST[:begin] + (part + "x" if part == NAME else str(int(part) + 1)) + GREATEST[end:]
    line = GREATEST[:begin].count("\n") + 1
    with pytest.raises(TraceFault) as found:
        Trace.parse(wrong)
    assert found.value == TraceFault(line, "not a plan line" if line == 2 else "not a line of a trace")


def test_as_many_tasks_and_lines_as_there_may_be(monkeypatch: pytest.MonkeyPatch) -> None:
    """64 tasks have 64 lines and their energies; of 33 lines the last is one too many if 32 is the most."""
    tasks, energies = ("".join(form.format(place) for place in range(64))
                       for form in ("task t{} 4 0 4\n", "energy t{} 0\n"))
    assert len(Trace.parse(f"trace 2\nplan edf mine 4\n{tasks}{energies}end 4 0 0\n").tasks) == 64
    for most, fault in ((33, None), (32, TraceFault(33, "a trace has at most 32 lines"))):
        monkeypatch.setattr("rtdvs.trace.reader.MOST_LINES", most)
        try:
            found = None
            Trace.parse(WORKED.read_text())
        except TraceFault as refused:
            found = refused
        assert found == fault


@pytest.mark.parametrize("path", [WORKED, TEMPLATE], ids=["version 1", "version 2"])
def test_cut_at_each_byte(path: Path) -> None:
    """A trace that ends in a line is refused at that line, and one that ends after a line at the next one."""
    text = path.read_text()
    for place in range(len("trace 1\n"), len(text)):
        with pytest.raises(TraceFault) as found:
            Trace.parse(text[:place])
        is_whole = text[place - 1] == "\n" and text[:place].count("\n") > 1
        reason = "the trace ends before its end line" if is_whole else "it doesn't end with a line feed"
        assert found.value == TraceFault(text[:place].count("\n") + 1, reason), place


@given(st.sampled_from(TEXTS), st.data())
def test_changed_bytes(text: str, data: st.DataObject) -> None:
    """A changed text is refused at a line of it or the one after, or is the text of its trace."""
    place = data.draw(st.integers(0, len(text) - 1))
    length = data.draw(st.integers(0, 3))
    new = data.draw(st.text("019:/ \nabenru\u00e9", max_size=3))
    changed = text[:place] + new + text[place + length:]
    try:
        assert Trace.parse(changed).text() == changed
    except TraceFault as fault:
        assert 1 <= fault.line <= changed.count("\n") + 1


@given(st.integers(0, 2**64 - 1), st.integers(0, 2**64 - 1), st.integers(0, 2**128 - 1))
def test_widest_numbers(one: int, two: int, energy: int) -> None:
    run = Run(Position(one, two), Position(two, one), "a", one, two, energy)
    head, end = ["trace 1\n", "plan rm mine 1\n", "speed 0 1 1/1\n"], f"end {one} {energy} {energy}\n"
    lines = [*head, run.text() + "\n", end]
    assert list(parse_lines(lines))[2] == run
    lines[3] = lines[3].replace("run ", "run 1" + "0" * 20)
    with pytest.raises(TraceFault):
        list(parse_lines(lines))


def test_statistics_command(capsys: Captured) -> None:
    words = ["statistics", "--tasks", DATA / "paper/tasks.toml", "--machine", DATA / "paper/machine.toml", "--trace"]
    # t1: (8/3 + 4/3)/2; t2: (4 + 2)/2; t3: (6 + 2)/2
    assert printed(capsys, [*words, WORKED]).split() == (
        "task jobs complete missed mean_response greatest_response jitter least_laxity preemptions energy "
        "t1 2 2 0 2.0000 2.6667 1.3333 5.3333 0 192000000000 t2 2 2 0 3.0000 4.0000 2.0000 6.0000 0 100000000000 "
        "t3 2 2 0 4.0000 6.0000 4.0000 8.0000 0 72000000000").split()
    assert refusal(capsys, [*words, TEMPLATE]) == (
        "rtdvs: line 3: its tasks aren't those of the task file\n")
    assert refusal(capsys, [*words, DATA / "templates/tasks.toml"]) == "rtdvs: line 1: neither trace 1 nor trace 2\n"
