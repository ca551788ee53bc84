"""Machines, governors and traces of a user in the evaluation."""

import pickle
from concurrent.futures import ThreadPoolExecutor
from fractions import Fraction
from pathlib import Path

import pytest

from rtdvs.errors import BadValue
from rtdvs.model import Machine, Point, Task, TaskSet
from rtdvs.rules import simulate
from rtdvs.studies import (
    CURVES, FIGURES, MACHINES, Own, OwnGovernor, OwnTraces, SetName, Sweep, evaluate, faults, figure_table, measure,
    published_sets, read_records, scaled_to, shares, uunifast_sets,
)
from tests.shared.simulated import Simulated

ENGINE = Simulated(Path("simulated"))
BOARD = Machine((Point(20, 1000), Point(40, 1500)))
NAME = SetName(1, 5, 2)
# One job of half of the highest speed, 40, for the whole run.
HALF = TaskSet((Task("a", 720720, 50_000 * 720720),))
GOVERNORS = """
from fractions import Fraction
def static(view): return Fraction(*view.plan.static)
def half_way(view): return 40 if view.now == 0 else 20
def slow(view): return 1
def raises(view): raise ValueError("no speed")
def wrong(view): return 0.5
value = 3
"""


@pytest.fixture
def file(tmp_path: Path) -> Path:
    (tmp_path / "mine.py").write_text(GOVERNORS.replace("static(view)", "like_static(view)"))
    return tmp_path / "mine.py"


def sweep(*governors: OwnGovernor, traces: tuple[OwnTraces, ...] = (), scheduler: str = "edf") -> Sweep:
    return Sweep(most=2, counts=(1,), tenths=(5,), own=Own({"board": BOARD}, scheduler, governors, traces))


@pytest.mark.parametrize("scheduler", ["edf", "rm"])
def test_an_own_governor_is_a_curve(scheduler: str, file: Path) -> None:
    """20 units a tick at 1 V are two thirds of a quarter of what 40 at 1.5 V take; `none` runs half of the time."""
    one = sweep(OwnGovernor(file, "like_static"), scheduler=scheduler)
    found = {record.curve: record.energy for record in measure(ENGINE, pickle.loads(pickle.dumps(one)), (NAME, HALF))}
    units = 20 * 720720
    assert [*found] == ["bound", *CURVES[:-1], f"{scheduler} like_static"]
    assert found["edf none"] == units * 1500**2 * 1000
    assert found[f"{scheduler} like_static"] == found["edf static"] == found["bound"] == units * 1000**2 * 1000


@pytest.mark.parametrize(("name", "line"), [
    ("raises", "governor raises at tick 0: ValueError: no speed"),
    ("wrong", "governor wrong at tick 0: a whole number, a fraction or a pair"),
    ("slow", "governor slow: a job 1 was due at 720720 and is not complete: it has had 14414400 units"),
    ("absent", "mine.py: it has no function absent"), ("value", "mine.py: it has no function value")])
def test_governors_that_are_refused(name: str, line: str, file: Path) -> None:
    tasks = TaskSet((Task("a", 720720, 70_000 * 720720),))
    with pytest.raises(BadValue, match=line):
        measure(ENGINE, sweep(OwnGovernor(file, name)), (NAME, tasks))


@pytest.mark.parametrize("word", ["mine.py", "mine:careful", "mine.py:", ":careful", "mine.py:a-b", "a.txt:f"])
def test_words_that_are_no_governor(word: str) -> None:
    with pytest.raises(BadValue, match="a governor is FILE.py:NAME"):
        OwnGovernor.parse(word)


def test_a_file_that_raises(tmp_path: Path) -> None:
    (tmp_path / "a.py").write_text("import nothing_of_this_name\n")
    with pytest.raises(BadValue, match="a.py: ModuleNotFoundError: No module named 'nothing_of_this_name'"):
        OwnGovernor(tmp_path / "a.py", "f").chooser()
    with pytest.raises(FileNotFoundError):
        OwnGovernor(tmp_path / "absent.py", "f").chooser()


def test_two_curves_of_one_name(file: Path) -> None:
    for names in (("slow", "slow"), ("cc",)):
        with pytest.raises(BadValue, match="two curves of one name: "):
            Own(governors=tuple(OwnGovernor(file, name) for name in names))


def test_own_traces(tmp_path: Path) -> None:
    """Those that are missing have their task files written; a wrong one is refused with its file and line."""
    one = sweep(traces=(OwnTraces(tmp_path / "other"),))
    missing = one.missing()
    assert [str(path.relative_to(tmp_path)) for path in missing] == [f"other/board/1_5_{n}.trace" for n in (1, 2)]
    for path, (_, tasks) in zip(missing, one.sets()):
        assert TaskSet.read(path.with_suffix(".toml")) == scaled_to(tasks, 40, 100_000)
    run = simulate(one.case(NAME, HALF, "board", "1").tasks, BOARD, "edf", 720720, lambda view: 40, name="full")
    missing[1].write_text(run.text())
    assert one.missing() == missing[:1]
    assert measure(ENGINE, one, (NAME, HALF))[-1].energy == run.energy == 20 * 720720 * 1500**2 * 1000
    for old, new, line in (("speed 0 40 40/1", "speed 0 30 40/1", "line 5: the machine has no speed 30"),
                           ("plan edf", "plan rm", "line 2: it is no run of 720720 ticks under edf")):
        missing[1].write_text(run.text().replace(old, new))
        with pytest.raises(BadValue, match=f"1_5_2.trace: {line}"):
            measure(ENGINE, one, (NAME, HALF))


def test_a_sweep_of_own_machines(file: Path, tmp_path: Path) -> None:
    """A folder is that of its machines and of the governors' files, as they were."""
    one = Sweep("uunifast", 1, counts=(1,), tenths=(5,), own=Own({"board": BOARD}, "edf", (OwnGovernor(file, "slow"),)))
    other = Sweep("uunifast", 1, counts=(1,), tenths=(5,), own=Own({"board": BOARD}))
    with ThreadPoolExecutor(1) as executor:
        [name] = evaluate(ENGINE, tmp_path, other, executor)
        records = read_records(tmp_path, [name], other)
        assert [*faults(records, other)] == [] and [*other.figures()] == ["own"]
        table = figure_table(other.figures()["own"], shares(records), other.curves()).splitlines()
        assert table[5].split("\t")[:4] == ["1 tasks, board", "edf none", "0.5", "1"] and len(table) == 81
        with pytest.raises(BadValue, match="it has results of 1 uunifast sets"):
            [*evaluate(ENGINE, tmp_path, one, executor)]
    before = one.text()
    file.write_text(GOVERNORS + "def slow(view): return 2\n")
    assert one.text() != before != other.text()


def test_figures_and_counts() -> None:
    assert Sweep().figures() == FIGURES and Sweep(counts=(5,)).figures() == FIGURES
    assert [panel.machine for panel in Sweep(counts=(6, 2, 6)).figures()["own"]] == ["table1_idle0"] * 2
    assert Sweep(counts=(6,)).machine("table1_idle0") is MACHINES["table1_idle0"]
    drawn = [name for name, _ in Sweep(most=1, counts=(2, 5), tenths=(3,)).sets()]
    assert sorted(drawn) == [SetName(2, 3, 1), SetName(5, 3, 1)]


def test_sets_of_the_publication_stay_as_they_were() -> None:
    """Other numbers of tasks come after them, and don't depend on how many sets there are."""
    usual = dict(published_sets(1))
    more = dict(published_sets(1, counts=(5, 3)))
    assert {name: more[name] for name in usual} == usual and {name.count for name in {*more} - {*usual}} == {3}
    assert dict(published_sets(2, counts=(3,)))[SetName(3, 1, 1)] == more[SetName(3, 1, 1)]
    assert dict(uunifast_sets(1, counts=(5, 3)))[SetName(5, 2, 1)] == dict(uunifast_sets(1))[SetName(5, 2, 1)]
    for name, tasks in more.items():
        load = sum(Fraction(task.worst, task.period) for task in tasks) / 100_000
        assert load <= Fraction(name.tenths, 10) and len(tasks) == name.count
