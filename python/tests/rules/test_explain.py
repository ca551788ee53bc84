"""The checker of traces: right ones of the program, altered ones, and the command line."""

import io
import random
import re
import tracemalloc
from collections.abc import Callable, Iterator
from dataclasses import dataclass
from itertools import product
from pathlib import Path

import pytest

from rtdvs.cli.main import main
from rtdvs.engine import Engine
from rtdvs.errors import Denied, WrongTrace
from rtdvs.model import Demands, Machine, Point, Task, TaskSet
from rtdvs.rules import Walk, check, explain, last_line, simulate
from rtdvs.studies import PAIRS
from rtdvs.trace import lines_of
from tests.rules.test_rules import cases as simulated
from tests.shared.examples import (
    BOARD, DATA, PAPER as PAPER_SET, SHORT, TEMPLATE, TEST_DATA, TOP, WORKED, Captured, explained, files, version_1,
)
from tests.shared.model import random_case

EXERCISES = TOP / "examples" / "exercises"


@dataclass(frozen=True)
class Inputs:
    """The files of a run."""

    tasks: TaskSet
    machine: Machine
    demands: Demands | None = None

    @classmethod
    def read(cls, tasks: Path, machine: Path, demands: Path | None = None) -> "Inputs":
        named = TaskSet.read(tasks)
        return cls(named, Machine.read(machine), Demands.read(demands, named) if demands else None)

    def refusal(self, lines: list[str], known: bool = True, free: bool = False) -> tuple[int, str] | None:
        """The first wrong line and why, or None; the same whether boards are made or not."""
        walk, found = Walk(self.tasks, self.machine, lines, self.demands if known else None, free), []
        for show in (None, str):
            try:
                explain(walk, show)
            except WrongTrace as fault:
                found.append((fault.line, fault.reason))
        assert found in ([], 2 * found[:1])
        return found[0] if found else None

    def assert_right(self, text: str) -> None:
        """The trace is right with its demand file, without it, and as one of any governor."""
        boards: list[str] = []
        lines = text.splitlines(True)
        for demands, free in product((self.demands, None), (False, True)):
            summary = explain(Walk(self.tasks, self.machine, lines, demands, free), boards.append)
            assert check(self.tasks, self.machine, lines, demands, free) == summary
        assert len(boards) == 2 * sum(line.startswith("speed ") for line in lines)


def folder(name: str, demands: bool = True) -> Inputs:
    tasks, machine, named = files(name)
    return Inputs(tasks, machine, named if demands else None)


# The traces of the repository: what each is a run of, and its text

Traces = Iterator[tuple[Inputs, str]]


def stored_traces() -> Traces:
    """Those that have a file of their own."""
    one, own = DATA / "long", TOP / "crates/rtdvs"
    yield Inputs.read(own / "data/tasks.toml", own / "data/machine.toml"), (own / "stdout").read_text()
    yield Inputs.read(one / "one_task.toml", one / "one_point.toml"), (one / "one_task.trace").read_text()
    yield (Inputs.read(EXERCISES / "tasks.toml", DATA / "paper/machine.toml", EXERCISES / "demands.csv"),
           (EXERCISES / "solution.trace").read_text())
    for path in SHORT:
        yield folder(path.parent.name, "with_demands" in path.stem), path.read_text()


def runs_of_the_examples() -> Traces:
    """The `run` calls of the examples, with the output that is stored for them."""
    for block in (DATA.parent / "stdout").read_text().split("rtdvs run ")[1:]:
        call, output = block.split("\nstatus ")[0].split("\n", 1)
        files = dict(zip(call.split(), call.split()[1:], strict=False))
        text = re.sub("^probe .*\n", "", output + "\n", flags=re.M)
        if text.startswith("trace "):
            demands = DATA / files["--demands"] if "--demands" in files else None
            yield Inputs.read(DATA / files["--tasks"], DATA / files["--machine"], demands), text


def plain(text: bytes) -> bytes:
    """Text with the escapes of the stored calls, as bytes."""
    return re.sub(rb"\\(x..|.)", lambda found: bytes.fromhex(found[1][1:].decode()) or found[1], text)


def stored_calls() -> Traces:
    """The `run` calls with status 0, each with the files before it, and their output."""
    crate, name, files = TOP / "crates/stored_calls", "", dict[str, bytes]()
    block = rb"^rtdvs ?(.*)\n((?:(?:[|!].*|no line feed)\n)*)status (.*)$"
    answers = iter(re.findall(block, (crate / "stdout").read_bytes(), re.M))
    for line in (crate / "data/calls.txt").read_bytes().split(b"\n"):
        if line.startswith(b"file "):
            name = line[5:].decode()
            files[name] = b""
        elif line[:1] in (b"|", b"-"):
            files[name] += plain(line[1:]) + (b"\n" if line[:1] == b"|" else b"")
        elif line.startswith(b"call"):
            called, output, status = next(answers)
            assert called == line[5:]
            words = [word for word in line.decode("latin-1").split(" ")[1:] if word != "--probes"]
            if words[:1] == ["run"] and status == b"0":
                lines = [each[1:] for each in output.decode().splitlines(True) if each.startswith("|")]
                named = dict(zip(words[1::2], words[2::2], strict=True))
                tasks = TaskSet.parse(files[named["--tasks"]])
                demands = Demands.parse(files[named["--demands"]], tasks) if "--demands" in named else None
                yield Inputs(tasks, Machine.parse(files[named["--machine"]]), demands), "".join(lines)
    assert [*answers] == []


@pytest.mark.parametrize("traces", [stored_traces, runs_of_the_examples, stored_calls])
def test_stored(traces: Callable[[], Traces]) -> None:
    runs = [*traces()]
    for inputs, text in runs:
        inputs.assert_right(text)
    assert len(runs) > 10


# Altered by hand

# At speed 2 `t1` takes the ticks 0 to 6, so that `t2` has 2 * 4 of its 12 units by its deadline, tick 10.
LATE = (TEST_DATA / "late.trace").read_text()
LATE_END = LATE.replace("slow 16", "slow 10").replace("release 10 t2 2", "end 10 180000000000 0")
# A governor that changes the speed at ticks without an event, and keeps it over one: x needs 4 units from the
# ticks 0 and 4 on, y needs 6 from tick 2 on.
SAW = (TEST_DATA / "saw.trace").read_text()


def edited(text: str, edits: dict[int, str | None]) -> list[str]:
    """The lines with some of them replaced, or left out."""
    kept = [edits.get(number, line) for number, line in enumerate(text.splitlines(), 1)]
    return "".join(f"{line}\n" for line in kept if line is not None).splitlines(True)


def assert_wrong(inputs: Inputs, lines: list[str], wanted: int, part: str, known: bool = True,
                 free: bool = False) -> None:
    refusal = inputs.refusal(lines, known, free)
    assert refusal and refusal[0] == wanted and part in refusal[1], refusal


def altered_by_hand() -> Iterator[object]:
    """The rows of altered.txt: a trace, a line's number, what is there instead, a part of the reason."""
    trace = ""
    for place, line in enumerate((TEST_DATA / "altered.txt").read_text().splitlines(), 1):
        if row := re.fullmatch(r"(\d+) (.*?) ?=> (.*)", line):
            yield pytest.param(trace, int(row[1]), row[2], row[3], id=f"altered.txt:{place}")
        elif not line.startswith("#"):
            trace = line


@pytest.mark.parametrize(("trace", "number", "new", "part"), [*altered_by_hand()])
def test_altered_by_hand(trace: str, number: int, new: str, part: str) -> None:
    lines = edited((DATA / f"{trace}.trace").read_text(), {number: new or None})
    assert_wrong(folder(trace.split("/")[0]), lines, number, part)


CC_TEXT, TEMPLATE_TEXT = WORKED.read_text(), TEMPLATE.read_text()
UNKNOWN = [  # without a demand file; the last entry is --any
    # t2 may need 11 units more at tick 3, and 15 fit up to tick 8.
    pytest.param("paper", edited(CC_TEXT, {12: None}), 12, "gets 11 units", False, id="a done line less"),
    pytest.param("paper", edited(CC_TEXT, {7: "run 0:0 4:1 t1 1 13 208000000000"}), 7, "has 12 units left", False,
                 id="more units than a job may need"),
    pytest.param("paper", edited(CC_TEXT, {7: "run 0:0 0:0 t1 1 0 0"}), 7, "0 units: at speed 3", False,
                 id="a run of no units"),
    pytest.param("paper", edited(CC_TEXT, {15: "done 6:0 t3 1 3"}), 15, "has had 4 units", False,
                 id="units of a done line"),
    pytest.param("paper", edited(CC_TEXT, {6: f"speed 0 3 {8 * 10**249}/280"}), 6, "more than 255 bytes", False,
                 id="a long line"),
    pytest.param("paper", [*edited(CC_TEXT, {33: None}), "end 16 364000000000 0"], 33, "line feed", False,
                 id="no line feed"),
    pytest.param("paper", LATE.splitlines(True), 13, "t2 job 1 was due at 10", True, id="a missed deadline"),
    pytest.param("paper", LATE_END.splitlines(True), 13, "t2 job 1 was due at 10", True, id="missed at the end"),
    # A job has at least the charge of 1, twice.
    pytest.param("templates", edited(TEMPLATE_TEXT, {8: "run 0:0 0:1 control 1 1 1440000000",
                                                     9: "done 0:1 control 1 1"}),
                 9, "at least 2 units", False, id="less than the charge"),
    pytest.param("offsets", edited(SAW, {19: "idle 5:0 8:0 6 0"}), 19, "end at 6:2", True, id="the end of idle time"),
    pytest.param("offsets", edited(SAW, {10: None}), 10, "end at 4:0", True, id="no decision"),
    pytest.param("offsets", edited(SAW, {10: "speed 2 5 4/1"}), 10, "the machine has no speed 5", True,
                 id="no such speed"),
    pytest.param("offsets", edited(SAW, {10: "speed 2 4 4/0"}), 10, "a fraction over 0", True, id="a fraction over 0"),
    pytest.param("offsets", edited(SAW, {5: "speed 0 2 2/1"}), 5, "no decision is made here", True, id="two decisions"),
    pytest.param("offsets", edited(SAW, {6: None}), 6, "x job 1 has had all of its 4 units", True, id="its worst case"),
    pytest.param("offsets", SAW.splitlines(True), 2, "no scheduler and governor edf saw", False, id="no pair"),
]


@pytest.mark.parametrize(("files", "lines", "wanted", "part", "free"), UNKNOWN)
def test_without_demands(files: str, lines: list[str], wanted: int, part: str, free: bool) -> None:
    assert_wrong(folder(files, demands=False), lines, wanted, part, free=free)


# Two tasks of 4 units in 8 ticks, at 2 units a tick. `b` never runs, and is complete once `a` has run.
TWO = Inputs(TaskSet((Task("a", 8, 4), Task("b", 8, 4))), Machine((Point(2, 1000),)))
NEVER_RUN = """trace 1
plan edf none 8
release 0 a 1
release 0 b 1
speed 0 2 2/1
run 0:0 2:0 a 1 4 4000000000
done 2:0 b 1 0
done 2:0 a 1 4
speed 2 2 2/1
idle 2:0 8:0 12 0
end 8 4000000000 0
"""


@pytest.mark.parametrize("free", [False, True], ids=["none", "any governor"])
@pytest.mark.parametrize(("text", "line", "reason"), [
    pytest.param(NEVER_RUN, 7, "the line before isn't the last one of b job 1", id="never run"),
    pytest.param(NEVER_RUN.replace("done 2:0 b 1 0", "done 2:0 a 1 4\ndone 2:0 b 1 0"), 8,
                 "the line before isn't the last one of b job 1", id="never run, after a completion"),
    pytest.param(NEVER_RUN.replace("done 2:0 b 1 0", "done 2:0 a 1 4"), 8,
                 "the line before isn't the last one of a job 1", id="twice"),
    pytest.param(NEVER_RUN.replace("done 2:0 b 1 0\ndone 2:0 a 1 4", "done 2:0 a 1 4"), 9,
                 "b job 1 is not complete: it has had 0 units", id="idle before it ran"),
    pytest.param(NEVER_RUN.replace("speed 0", "done 0:0 a 1 0\nspeed 0"), 5,
                 "the line before isn't the last one of a job 1", id="before its run"),
])
def test_completions_that_never_were(text: str, line: int, reason: str, free: bool) -> None:
    assert TWO.refusal(text.splitlines(keepends=True), free=free) == (line, reason)


def test_idle_time_names_the_job_that_runs_next() -> None:
    """Under EDF that is b, whose deadline is first, though a is before it in the file."""
    tasks = TaskSet((Task("a", 9, 2), Task("b", 8, 2)))
    lines = ["trace 1\n", "plan edf none 8\n", "release 0 a 1\n", "release 0 b 1\n", "speed 0 2 2/1\n",
             "idle 0:0 8:0 16 0\n"]
    wanted = (6, "b job 1 is not complete: it has had 0 units")
    assert Inputs(tasks, TWO.machine).refusal(lines) == wanted == Inputs(tasks, TWO.machine).refusal(lines, free=True)


@pytest.mark.parametrize(("edits", "line", "reason"), [
    pytest.param({3: "task control 4 0 2"}, 3, "wanted task control 4 0 3", id="a worst case"),
    pytest.param({4: "task logger 9 0 6"}, 4, "wanted task logger 8 0 6", id="the second task"),
    pytest.param({4: None}, 4, "wanted task logger 8 0 6", id="a task less"),
    pytest.param({4: "task logger 8 0"}, 4, "wanted task logger 8 0 6", id="misspelled"),
    pytest.param({5: "task more 8 0 1"}, 5, "the task more is not in the task file", id="a task more"),
    pytest.param({20: None}, 20, "the energy lines are one for each task, in the order of the file",
                 id="an energy line less"),
    pytest.param({20: None, 21: None}, 20, "the energy line of control is missing", id="no energy line"),
    pytest.param({20: "energy control 8320000001"}, 20, "the run lines of control add up to 8320000000",
                 id="an energy"),
    pytest.param({21: "energy more 1"}, 21, "the energy lines are one for each task, in the order of the file",
                 id="the energy of another task"),
    pytest.param({22: "energy logger 5000000000"}, 22,
                 "the energy lines are one for each task, in the order of the file", id="an energy line more"),
    pytest.param({19: "energy control 8320000000"}, 19,
                 "the energy lines are after the last tick, and the trace is at 6:0", id="an early energy line"),
    pytest.param({22: "end 9 13320000000 500000000"}, 22, "the run has 8 ticks", id="ticks of the end"),
    pytest.param({22: "end 8 13320000000 500000001"}, 22,
                 "the lines add up to 13320000000 for runs and 500000000 for idle units", id="sums of the end"),
])
def test_lines_of_version_2(edits: dict[int, str | None], line: int, reason: str) -> None:
    for known in (True, False):
        assert folder("templates").refusal(edited(TEMPLATE_TEXT, edits), known) == (line, reason)


def test_a_version_2_that_ends_among_its_tasks() -> None:
    lines = TEMPLATE_TEXT.splitlines(keepends=True)
    assert folder("templates").refusal(lines[:3]) == (4, "wanted task logger 8 0 6")


@pytest.mark.parametrize("free", [False, True], ids=["a pair", "any governor"])
def test_schedulers_that_there_are_not(free: bool) -> None:
    says = "no scheduler fifo"
    assert folder("paper").refusal(edited(CC_TEXT, {2: "plan fifo cc 16"}), free=free) == (2, says)


@pytest.mark.parametrize("known", [True, False], ids=["demands", "no demands"])
@pytest.mark.parametrize("free", [False, True], ids=["a pair", "any governor"])
@pytest.mark.parametrize("line", ["idle", "idle ", "run", "run ", "run 0:0 2:2 t1 1 ² 1", "run 0:0 2:2 t1 1 8", "done",
                                  "done ", "speed", "end", "energy", ""])
def test_parts_of_lines(line: str, free: bool, known: bool) -> None:
    lines = CC_TEXT.splitlines(keepends=True)
    for number in (3, 7, 8, 33):
        found = folder("paper").refusal([*lines[:number - 1], f"{line}\n", *lines[number:]], known, free)
        assert found == (number, "not a line of a trace")


def test_as_many_lines_as_there_may_be(monkeypatch: pytest.MonkeyPatch) -> None:
    """The trace has 33 lines: the last is one too many if 32 is the most."""
    lines = CC_TEXT.splitlines(keepends=True)
    for most, refusal in ((33, None), (32, (33, "a trace has at most 32 lines"))):
        for module in ("rules.checker", "trace.reader"):
            monkeypatch.setattr(f"rtdvs.{module}.MOST_LINES", most)
        assert folder("paper").refusal(lines) == refusal


def test_static_is_explained_once() -> None:
    """Its terms are those of tick 0: 12/8 + 12/10 + 4/14 are 836/280, which speed 3 meets."""
    trace = simulate(PAPER_SET, BOARD, "edf", 16, "static")
    boards = explained(PAPER_SET, BOARD, None, trace.text())
    assert "    420 + 336 + 80 = 836, over the hyperperiod 280" in boards[0].splitlines()
    assert [board.splitlines()[1:-1] for board in boards[1:]] == [["    as at tick 0"]] * (len(boards) - 1)
    assert len(boards) > 3


def test_a_demand_over_the_worst_case() -> None:
    """The job isn't complete at its deadline."""
    needs_more = Inputs(TaskSet((Task("t", 2, 2),)), Machine((Point(1, 1),)), Demands({("t", 1): 3}))
    text = "trace 1\nplan edf none 4\nrelease 0 t 1\nspeed 0 1 1/1\nrun 0:0 2:0 t 1 2 2000\nrelease 2 t 2\n"
    assert_wrong(needs_more, text.splitlines(True), 6, "t job 1 was due at 2")


def test_any_governor() -> None:
    saw = folder("offsets", demands=False)
    summary = check(saw.tasks, saw.machine, SAW.splitlines(True), any_governor=True)
    assert last_line(summary, True, False) == (
        "8 ticks, 3 jobs released, 3 complete, 5 decisions, energy 318000000000 running and 0 idle: "
        "legal, with its own demands")


# Random plans

def altered(rng: random.Random, lines: list[str]) -> tuple[list[str], int, str]:
    """The trace with a line changed, left out or repeated, its first wrong line, and that one's word."""
    notes = [place for place, line in enumerate(lines) if line.split()[0] not in ("trace", "plan", "task")]
    place, how = rng.choice(notes), rng.randint(0, 3)
    word, text = lines[place].split()[0], lines[place]
    if how == 0:
        return lines[:place] + lines[place + 1:], place + 1, word
    if how == 1:
        return lines[:place + 1] + lines[place:], place + 2, word
    at = rng.choice([found.start(1) for found in re.finditer(r"[ :/][0-9]*([0-9])(?=[ :/\n])", text)])
    digit = str((int(text[at]) + rng.randint(1, 9)) % 10)
    return [*lines[:place], text[:at] + digit + text[at + 1:], *lines[place + 1:]], place + 1, word


@pytest.mark.parametrize("part", range(8))
def test_random_plans(part: int, engine: Engine) -> None:
    """The program's traces are the simulated ones, and right; altered ones are refused at the wrong line."""
    for seed in range(12 * part, 12 * part + 12):
        tasks, machine, demands, ticks = random_case(seed, long=True)
        inputs = Inputs(tasks, machine, demands if seed % 4 else None)
        rng = random.Random(seed)
        for pair in PAIRS:
            version = rng.choice([1, 2])
            try:
                text = engine.run(inputs.tasks, inputs.machine, *pair, ticks, inputs.demands, version).text()
            except Denied as denied:
                with pytest.raises(Denied, match=f"^{denied}$"):
                    inputs.refusal(["trace 1\n", f"plan {pair[0]} {pair[1]} 1\n"])
                continue
            trace = simulate(inputs.tasks, inputs.machine, pair[0], ticks, pair[1], inputs.demands).text()
            assert text == (trace if version == 2 else version_1(trace))
            inputs.assert_right(text)
            if inputs.demands:
                assert_altered(inputs, rng, text.splitlines(True))


def assert_altered(inputs: Inputs, rng: random.Random, lines: list[str]) -> None:
    for _ in range(3):
        wrong, wanted, word = altered(rng, lines)
        assert_wrong(inputs, wrong, wanted, "")
        if word != "speed":
            assert_wrong(inputs, wrong, wanted, "", free=True)


@pytest.mark.parametrize("pair", PAIRS, ids="-".join)
def test_simulated_plans(pair: tuple[str, str]) -> None:
    """Both versions are right; altered ones are refused at the wrong line."""
    rng = random.Random(0)
    for model, trace in simulated(pair):
        inputs = Inputs(model.tasks, model.machine, model.demands)
        for text in (trace.text(), version_1(trace.text())):
            inputs.assert_right(text)
            assert_altered(inputs, rng, text.splitlines(True))


def test_a_long_trace_in_little_memory() -> None:
    """Of jobs that follow each other, of 2 units at speed 1 each."""
    tasks, machine = TaskSet((Task("t", 2, 2),)), Machine((Point(1, 1),))
    text = simulate(tasks, machine, "edf", 10_000, "none").text()
    lines = lines_of(io.StringIO(text))
    tracemalloc.start()
    summary = check(tasks, machine, lines)
    peak = tracemalloc.get_traced_memory()[1]
    tracemalloc.stop()
    assert (summary.released, summary.complete, summary.run_energy) == (5000, 5000, 10**7)
    assert peak < 200_000 < len(text)  # bytes; each line is made when it is read


# The command line

Said = tuple[int, list[str], str]
Run = Callable[..., Said]
PAPER = {kind: DATA / "paper" / name for kind, name in [
    ("tasks", "tasks.toml"), ("machine", "machine.toml"), ("demands", "demands.csv"), ("trace", WORKED.name)]}
TOTALS = "16 ticks, 6 jobs released, 6 complete, 8 decisions, energy 364000000000 running and 0 idle"


@pytest.fixture
def call(capsys: Captured) -> Run:
    """Calls `explain` with the files of the paper's example, or others; gives its status and what it says."""
    def run(*words: str, **files: Path | None) -> Said:
        named = [f"--{kind}={path}" for kind, path in (PAPER | files).items() if path]
        status, (out, notes) = main(["explain", *named, *words]), capsys.readouterr()
        return status, out.splitlines(), notes
    return run


# The lines of docs/TRACE.md: 12 * 35 + 12 * 28 + 4 * 20 = 836, then 8 * 35 + 336 + 80 = 696. Under RM 8 ticks
# at the static speed 4 are 32 units, for 12 + 12 + 4; by tick 4 `t3` has had 2 of its 4. Under look-ahead, as
# on a board: 4 * 280 = 1120, less the rates of the others; 364 * 6/280 = 7.8, and 1120/6 = 186.7.
@pytest.mark.parametrize(("pair", "first"), [("edf_cc", 0), ("rm_cc", 18), ("edf_la", 4)])
def test_boards(pair: str, first: int, call: Run) -> None:
    wanted = (TEST_DATA / f"{pair}.explained").read_text().splitlines()
    status, lines, notes = call(trace=DATA / f"paper/{pair}_with_demands.trace")
    assert (status, notes, lines[first:first + len(wanted)]) == (0, "", wanted)


def test_last_line(call: Run) -> None:
    lines = call()[1]
    assert len([line for line in lines if line.startswith("line ")]) == 8
    assert lines[-1] == f"{TOTALS}: all as the rules say, with the demands of the file"
    assert call("--quiet") == (0, [f"{TOTALS}: all as the rules say, with the demands of the file"], "")
    assert call("--quiet", demands=None) == (0, [f"{TOTALS}: all as the rules say, with its own demands"], "")
    assert call("--any") == (0, [f"{TOTALS}: legal, with the demands of the file"], "")


def test_a_wrong_trace_has_status_1(call: Run, tmp_path: Path) -> None:
    wrong, demands = tmp_path / "wrong.trace", tmp_path / "demands.csv"
    wrong.write_text("".join(edited(CC_TEXT, {33: "end 16 1 0"})))
    reason = "line 33: the lines add up to 364000000000 for runs and 0 for idle units\n"
    status, lines, notes = call(trace=wrong)
    assert (status, notes) == (1, reason) and lines[-7].startswith("line 30, tick 14, ")
    assert call("--quiet", trace=wrong) == (1, [], reason)
    demands.write_text("task,job,units\nt1,1,7\n")
    assert call("--quiet", demands=demands) == (1, [], "line 7: t1 job 1 has 7 units left\n")
    wrong.write_text("".join(edited(CC_TEXT, {2: "plan edf mine 16"})))
    assert call("--quiet", trace=wrong) == (1, [], "line 2: no scheduler and governor edf mine\n")
    assert call("--any", "--quiet", trace=wrong)[0] == 0
    of_exercises = call("--quiet", trace=EXERCISES / "wrong.trace", tasks=EXERCISES / "tasks.toml", demands=None)
    assert of_exercises == (1, [], "line 8: b job 1 is not complete: it has had 0 units\n")


def test_denied(call: Run, tmp_path: Path) -> None:
    path = tmp_path / "file"
    TaskSet((Task("t1", 8, 33),)).write(path)
    status, lines, said = call(tasks=path, demands=None)
    assert (status, lines) == (2, [])
    assert said.startswith("rtdvs: denied edf 33 32\n  The tasks ask for 4.12 units a tick, and the highest speed is 4.")
    assert call("--any", tasks=path, demands=None)[0] == 1  # no test is made; the trace has other tasks


def test_no_text(call: Run, tmp_path: Path) -> None:
    path = tmp_path / "file"
    named = b"trace 1\nplan edf cc 16\nrelease 0 t\xff 1\n"
    for content in (b"", b"\xff\xfe\x00", bytes(range(256)), named, b"0" * 10**6):
        path.write_bytes(content)
        assert call("--quiet", trace=path)[0] == 1
