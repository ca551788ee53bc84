"""Tables, events and waves of a trace: each is read by another reader, and compared with the lines."""

import csv
import json
import locale
import shutil
import subprocess
import tracemalloc
from collections.abc import Callable, Iterator
from decimal import Context, Decimal
from fractions import Fraction
from functools import partial
from itertools import pairwise
from pathlib import Path
from typing import Any

import pytest
from hypothesis import assume, given
from hypothesis import strategies as st

from rtdvs.cli.main import main
from rtdvs.engine import Engine
from rtdvs.errors import DeadlineMissed
from rtdvs.export import event_lines, events_text, millionths, vcd_text, wave_lines
from rtdvs.rules import GOVERNORS, simulate
from rtdvs.trace import SAMPLE, Position, Trace, TraceFile, csv_lines, csv_text, frame, task_statistics
from tests.shared.examples import (
    BOARD, DATA, PAPER, SHORT, TEMPLATE, TRACES, WORKED, Captured, Lines, path_id, refusal, version_1,
)
from tests.shared.model import random_case

STEP = Fraction(1, 10**6)
Waves = dict[tuple[str, ...], list[tuple[int, Fraction]]]


def ticks(time: Fraction | int | None) -> str:
    """A time in a table: whole, or with six places, half to even."""
    if time is None or Fraction(time).denominator == 1:
        return "" if time is None else str(time)
    return str(Decimal(round(time * 10**6)).scaleb(-6))


def rounded(number: Fraction | int, digits: int = 9) -> Fraction:
    return Fraction(Context(prec=digits).divide(*map(Decimal, number.as_integer_ratio())))


def times(lines: Lines, task: str, job: str) -> list[Fraction | int | None]:
    """A job's deadline, its completion, response and laxity; version 1 says a period by two releases."""
    release, done = lines.releases[task, job], lines.ends.get((task, job))
    ticks = sorted(tick for (name, _), tick in lines.releases.items() if name == task)
    period = lines.period.get(task) or (ticks[1] - ticks[0] if len(ticks) > 1 else None)
    due = None if period is None else release + period
    return [due, done, None if done is None else done - release,
            None if done is None or due is None else due - done]


def check_tables(text: str) -> None:
    lines, trace = Lines(text), Trace.parse(text)
    segments = [["run" if each.task else "idle", each.task, each.job, *each.places, ticks(each.begin),
                 ticks(each.end), str(each.speed), str(each.units), str(each.energy)]
                for each in lines.segments]
    assert list(csv.reader(csv_text(trace).splitlines()))[1:] == segments
    declared = {name: worst for name, _, _, worst in lines.of("task")}
    jobs = [[*key, str(release), *map(ticks, times(lines, *key)), lines.used.get(key, ""),
             declared.get(key[0], "")] for key, release in lines.releases.items()]
    assert list(csv.reader(csv_text(trace, "jobs").splitlines()))[1:] == jobs
    decisions = list(csv.reader(csv_text(trace, "decisions").splitlines()))[1:]
    assert [(*row[:4], Fraction(row[4])) for row in decisions] == [
        (tick, speed, *demand.split("/"), rounded(Fraction(demand)))
        for tick, speed, demand in lines.of("speed")]


def check_events(text: str) -> None:
    lines = Lines(text)
    events: list[Any] = json.loads(events_text(Trace.parse(text)), parse_float=Fraction)["traceEvents"]
    kinds = {kind: [event for event in events if event["ph"] == kind] for kind in "MXiC"}
    tracks = {event["tid"]: event["args"]["name"] for event in kinds["M"] if event["name"] == "thread_name"}
    assert tracks.pop(65) == "idle"
    found = [(tracks.get(event["tid"], ""), event["name"], event["ts"], event["dur"], event["args"])
             for event in kinds["X"]]
    assert found == [(each.task, f"{each.task} {each.job}" if each.task else "idle", round(each.begin, 6),
                      round(each.end - each.begin, 6), {"units": each.units, "energy": str(each.energy)})
                     for each in lines.segments]
    marks = {(event["name"], tracks[event["tid"]]): event["ts"] for event in kinds["i"]}
    assert marks == {(f"release {job}", task): tick for (task, job), tick in lines.releases.items()} | {
        (f"done {job}", task): round(end, 6) for (task, job), end in lines.ends.items()}
    assert [(event["name"], event["ts"], event["args"]["units per tick"]) for event in kinds["C"]] == [
        count for tick, speed, demand in lines.decisions
        for count in (("speed", tick, speed), ("demand", tick, rounded(demand)))]


def read_waves(text: str) -> Waves:
    """Of each wire, by its scopes and its name, the pairs of a time and the value from then on."""
    scope: list[str] = []
    wires: Waves = {}
    changes: dict[str, list[tuple[int, Fraction]]] = {}
    now = 0
    for line in text.splitlines():
        match line.split():
            case ["$scope", _, name, _]:
                scope.append(name)
            case ["$upscope", _]:
                scope.pop()
            case ["$var", ("wire" | "real") as kind, bits, wire, name, _]:
                assert bits == {"wire": "1", "real": "64"}[kind]
                changes[wire] = wires[*scope, name] = []
            case [word] if word[0] == "#":
                assert int(word[1:]) >= now
                now = int(word[1:])
            case [value, wire] if wire in changes:
                changes[wire].append((now, Fraction(value[1:])))
            case [word] if word[1:] in changes:
                changes[word[1:]].append((now, Fraction(word[0])))
    return {name: [*pairs, (now, pairs[-1][1])] for name, pairs in wires.items()}


def area(changes: list[tuple[int, Fraction]]) -> Fraction:
    """The sum of the values, each times the ticks that it lasts."""
    lasts = pairwise(Fraction(time, 10**6) for time, _ in changes)
    return sum(((end - begin) * value for (begin, end), (_, value) in zip(lasts, changes)), Fraction(0))


def areas(lines: Lines) -> Iterator[tuple[tuple[str, ...], Fraction, Fraction]]:
    """What each line adds to the area of a wire, and by how much roundings may change that."""
    for each in lines.segments:
        span, job = each.end - each.begin, int(each.job or 0)
        yield ("speed",), Fraction(each.units), Fraction(0)
        yield ("job",), job * span, job * STEP
        yield ("tasks", each.task) if each.task else ("idle",), span, STEP
    for (task, number), at in lines.releases.items():
        yield ("tasks", f"{task}/open"), Fraction(lines.ends.get((task, number), lines.ticks) - at), STEP
    for ticks, _, demand in lines.spans():
        yield ("demand",), rounded(demand) * ticks, Fraction(0)


def check_waves(text: str, vcd: str) -> None:
    lines, waves = Lines(text), read_waves(vcd)
    tasks = {*lines.period} or {task for task, _ in lines.releases}
    assert waves.keys() == {(name,) for name in ("idle", "job", "speed", "demand", "energy")} | {
        ("tasks", task + end) for task in tasks for end in ("", "/open")}
    energy = rounded(lines.run_energy + lines.idle_energy, 15)
    assert waves.pop(("energy",))[-1] == (lines.ticks * 10**6, energy)
    off = {wire: area(changes) for wire, changes in waves.items()}
    slack = dict.fromkeys(waves, Fraction(0))
    for wire, wanted, rounding in areas(lines):
        off[wire] -= wanted
        slack[wire] += rounding
    assert all(abs(off[wire]) <= slack[wire] for wire in waves)


def check_all(text: str) -> None:
    check_tables(text)
    check_events(text)
    check_waves(text, vcd_text(Trace.parse(text)))


@pytest.mark.parametrize("path", TRACES, ids=path_id)
def test_examples(path: Path) -> None:
    check_all(path.read_text())


@pytest.mark.parametrize("path", SHORT, ids=path_id)
def test_examples_in_version_2(path: Path, engine: Engine) -> None:
    check_all(engine.migrate(path.parent / "tasks.toml", path.parent / "machine.toml", path).text())


@given(st.integers(0, 2**32), st.sampled_from(sorted(GOVERNORS)), st.booleans())
def test_any_run_is_read_back(seed: int, pair: tuple[str, str], is_version_1: bool) -> None:
    tasks, machine, demands, ticks = random_case(seed)
    try:
        run = simulate(tasks, machine, pair[0], min(ticks, 60), pair[1], demands)
    except DeadlineMissed:
        assume(False)
    check_all(version_1(run.text()) if is_version_1 else run.text())


def test_rows_of_the_page() -> None:
    assert csv_text(Trace.read(TEMPLATE), "jobs", charge=1).splitlines()[1:] == [
        "control,1,0,4,1,1,3,3,5", "logger,1,0,8,3.500000,3.500000,4.500000,5,8", "control,2,4,8,6,2,2,4,5"]


@given(st.integers(0, 2**40), st.integers(1, 10**6), st.data())
def test_any_time_is_rounded_once(tick: int, speed: int, data: st.DataObject) -> None:
    offset = data.draw(st.integers(0, speed - 1))
    exact = (tick + Fraction(offset, speed)) * 10**6
    assert abs(millionths(Position(tick, offset), speed) - exact) <= Fraction(1, 2)


@pytest.mark.parametrize(("words", "declared"), [([], 4), (["--charge", "1"], 6), (["--charge", "2"], 8)], ids=str)
def test_charge_is_in_the_declared_units(words: list[str], declared: int, tmp_path: Path, capsys: Captured) -> None:
    (tmp_path / "a").write_text("trace 2\nplan edf mine 2\ntask a 2 0 4\nrelease 0 a 1\nspeed 0 4 1/1\n"
                                "run 0:0 2:0 a 1 8 8\ndone 2:0 a 1 8\nenergy a 8\nend 2 8 0\n")
    call = ["convert", "--to", "csv", "--table", "jobs", "--unchecked", "--trace", str(tmp_path / "a")]
    assert main([*call, *words]) == 0
    note = f"note: a job 1 used 8 of {declared} declared units: give the machine's charge by --charge\n"
    out, err = capsys.readouterr()
    assert out.endswith(f",8,{declared}\n")
    assert err == "note: the trace is not checked\n" + note * (declared < 8)


@pytest.mark.parametrize("change", ["cut", "no plan", "more"])
def test_what_is_no_whole_trace_is_refused(change: str, tmp_path: Path, capsys: Captured) -> None:
    lines = (DATA / "offsets" / "edf_cc.trace").read_text().splitlines(keepends=True)
    broken = {"cut": lines[:-1], "no plan": lines[:1] + lines[2:], "more": [*lines, lines[0]]}[change]
    (tmp_path / "broken").write_text("".join(broken))
    words = ["convert", "--to", "vcd", "--trace", tmp_path / "broken", "--output", tmp_path / "out"]
    assert refusal(capsys, words).count("\n") == 1
    assert not (tmp_path / "out").exists()


# What the small trace is as events and as waves, written by hand: a run of a tick, one of half a tick, idle time.
EVENTS_BY_HAND = """\
{"traceEvents":[
{"pid":1,"ph":"M","name":"process_name","tid":0,"args":{"name":"edf mine"}},
{"pid":1,"ph":"M","name":"thread_name","tid":65,"args":{"name":"idle"}},
{"pid":1,"ph":"M","name":"thread_sort_index","tid":65,"args":{"sort_index":65}},
{"pid":1,"ph":"M","name":"thread_name","tid":1,"args":{"name":"t"}},
{"pid":1,"ph":"M","name":"thread_sort_index","tid":1,"args":{"sort_index":1}},
{"pid":1,"ph":"i","name":"release 1","tid":1,"s":"t","ts":0},
{"pid":1,"ph":"C","name":"speed","tid":0,"ts":0,"args":{"units per tick":3}},
{"pid":1,"ph":"C","name":"demand","tid":0,"ts":0,"args":{"units per tick":3}},
{"pid":1,"ph":"X","name":"t 1","tid":1,"ts":0,"dur":1,"args":{"units":3,"energy":"5000"}},
{"pid":1,"ph":"C","name":"speed","tid":0,"ts":1,"args":{"units per tick":2}},
{"pid":1,"ph":"C","name":"demand","tid":0,"ts":1,"args":{"units per tick":2}},
{"pid":1,"ph":"X","name":"t 1","tid":1,"ts":1,"dur":0.500000,"args":{"units":1,"energy":"1000"}},
{"pid":1,"ph":"i","name":"done 1","tid":1,"s":"t","ts":1.500000,"args":{"used":4}},
{"pid":1,"ph":"X","name":"idle","tid":65,"ts":1.500000,"dur":0.500000,"args":{"units":1,"energy":"0"}}
]}
"""
CHANGES_BY_HAND = """\
#0
$dumpvars
1r0
r0 j
r0 s
r0 d
r0 e
0r1
0o1
$end
1o1
r3 s
r3 d
r1 j
0r0
1r1
#1000000
r5000 e
r2 s
r2 d
r1 j
#1500000
r6000 e
0o1
r0 j
0r1
1r0
#2000000
r6000 e
"""


def test_events_by_hand() -> None:
    assert events_text(Trace.parse(SAMPLE)) == EVENTS_BY_HAND


def test_waves_by_hand() -> None:
    """After the definitions: each wire has a value at tick 0."""
    assert vcd_text(Trace.parse(SAMPLE)).partition("$enddefinitions $end\n")[2] == CHANGES_BY_HAND


@pytest.mark.parametrize(("units", "text"), [(2**53, 2**53), (2**53 + 1, f"{2**53 + 1}")])
def test_units_that_a_reader_would_round_are_text(units: int, text: object) -> None:
    lines = ["trace 2", "plan edf mine 1", f"task a 1 0 {2**53}", "release 0 a 1", f"speed 0 {units} 1/1",
             f"run 0:0 1:0 a 1 {units} 7", f"done 1:0 a 1 {units}", "energy a 7", "end 1 7 0", ""]
    events = json.loads(events_text(Trace.parse("\n".join(lines))))["traceEvents"]
    assert [event["args"]["units"] for event in events if event["ph"] == "X"] == [text]
    assert [event["args"]["used"] for event in events if event["name"] == "done 1"] == [text]


@pytest.mark.parametrize("made", [
    pytest.param(lambda trace: task_statistics(trace, PAPER), id="statistics"),
    pytest.param(lambda trace: sum(map(len, csv_lines(trace, "jobs"))), id="jobs"),
    pytest.param(lambda trace: sum(map(len, csv_lines(trace, "segments"))), id="segments"),
    pytest.param(lambda trace: sum(map(len, event_lines(trace))), id="events"),
    pytest.param(lambda trace: sum(map(len, wave_lines(trace))), id="waves"),
])
def test_a_file_takes_no_more_memory_if_it_is_longer(made: Callable[[TraceFile], object], tmp_path: Path) -> None:
    """A trace eight times as long, the whole of which takes five times as much or more."""
    peaks = []
    for ticks in (280, 2240):
        (tmp_path / "a").write_text(simulate(PAPER, BOARD, "edf", ticks, "cc").text())
        trace = TraceFile.of(lambda: lines_of_file(tmp_path / "a"))
        made(trace)
        tracemalloc.start()
        made(trace)
        peaks.append(tracemalloc.get_traced_memory()[1])
        tracemalloc.stop()
    assert peaks[1] < 1.5 * peaks[0] + 80_000, peaks  # a collection of garbage comes after some hundred objects


def lines_of_file(path: Path) -> Iterator[str]:
    with path.open() as file:
        yield from file


def test_frames() -> None:
    pytest.importorskip("pandas")
    text = (DATA / "controller" / "edf_cc_with_demands.trace").read_text()
    trace, lines = Trace.parse(text), Lines(text)
    segments = frame(trace, joule=Fraction(1, 10**12))
    assert list(segments["energy"]) == [each.energy for each in lines.segments]
    assert all(type(energy) is int for energy in segments["energy"])
    assert list(segments["joules"]) == [each.energy / 10**12 for each in lines.segments]
    assert list(segments["start"]) == [float(each.begin) for each in lines.segments]
    laxities = [times(lines, *key)[3] for key in lines.releases]
    assert list(frame(trace, "jobs")["laxity"].isna()) == [laxity is None for laxity in laxities]
    decisions = frame(trace, "decisions")
    demands = map(Fraction, decisions["num"], decisions["den"])
    assert [*zip(decisions["tick"], decisions["speed"], demands)] == lines.decisions


def test_long_sums_stay_whole_in_a_frame() -> None:
    pytest.importorskip("pandas")
    head = "trace 1\nplan edf cc 2\nrelease 0 a 1\nspeed 0 1 1/1\n"
    text = f"{head}run 0:0 1:0 a 1 1 {2**100}\nrun 1:0 2:0 a 1 1 {2**100}\nend 2 {2**101} 0\n"
    assert frame(Trace.parse(text))["energy"].sum() == 2**101


def test_waves_through_another_reader(tmp_path: Path) -> None:
    if not shutil.which("vcd2fst") or not shutil.which("fst2vcd"):
        pytest.skip("no vcd2fst and fst2vcd")
    (tmp_path / "a.vcd").write_text(vcd_text(Trace.read(WORKED)))
    subprocess.run(["vcd2fst", tmp_path / "a.vcd", tmp_path / "a.fst"], check=True, capture_output=True)
    back = subprocess.run(["fst2vcd", tmp_path / "a.fst"], check=True, capture_output=True, text=True)
    check_waves(WORKED.read_text(), back.stdout)


def test_decimal_comma(request: pytest.FixtureRequest) -> None:
    request.addfinalizer(partial(locale.setlocale, locale.LC_NUMERIC, locale.setlocale(locale.LC_NUMERIC)))
    try:
        locale.setlocale(locale.LC_NUMERIC, "de_DE.UTF-8")
    except locale.Error:
        pytest.skip("no locale with a decimal comma")
    check_all(WORKED.read_text())
