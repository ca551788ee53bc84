"""The evaluation of Pillai and Shin (2001) with random sets: energy over utilisation, in tables."""

from collections import Counter, defaultdict
from collections.abc import Collection, Generator, Iterable, Iterator, Mapping
from concurrent.futures import Executor, Future, as_completed
from contextlib import suppress
from dataclasses import dataclass
from fractions import Fraction
from pathlib import Path
from statistics import mean
from zlib import crc32

from rtdvs._files import write_whole
from rtdvs._numbers import decimal
from rtdvs.engine import Engine, RunTotals, parse_totals
from rtdvs.errors import BadValue, Crashed, Denied
from rtdvs.model import Demands, Machine, Point, TaskSet
from rtdvs.studies import comparison, random_sets
from rtdvs.studies.own import Own, scaled_to
from rtdvs.studies.published import DRAWS, PUBLISHED_COUNTS, PUBLISHED_SEED, PUBLISHED_TOP, SetName
from rtdvs.trace import Done, Idle, Release, Run, Trace

CURVES = (*(f"{scheduler} {governor}" for scheduler, governor in comparison.PAIRS), "bound")
TENTHS = range(1, 11)
NOT_WHOLE = "not the whole result of a set"


@dataclass(frozen=True, slots=True)
class Panel:
    """A part of a figure: sets of `count` tasks on a machine, whose jobs take a share of their worst cases.

    The share is a decimal, or `uniform`: each job draws its own.

    >>> FIGURES["tasks"][0]
    Panel(count=5, machine='table1_idle0', take='1', title='5 tasks')
    """

    count: int
    machine: str
    take: str
    title: str


FIGURES = {
    "tasks": tuple(Panel(count, "table1_idle0", "1", f"{count} tasks") for count in (5, 10, 15)),
    "idle": tuple(Panel(8, f"table1_idle{idle}", "1", f"idle share {share}")
                  for idle, share in ((0, "0"), (10, "0.01"), (100, "0.1"), (1000, "1"))),
    "machines": tuple(Panel(8, f"table{number}_idle0", "1", f"machine {number}") for number in (1, 2, 3)),
    "demands": (Panel(8, "table1_idle0", "1", "all of the worst case"),
                *(Panel(8, "table1_idle0", share, f"{share} of it") for share in ("0.9", "0.7", "0.5")),
                Panel(8, "table1_idle0", "uniform", "a uniform share")),
}


def machine(idle: int, *points: tuple[int, int]) -> Machine:
    """A machine of speeds in thousandths of the highest and millivolts, and an idle share in thousandths.

    >>> machine(10, (500, 3000)).points
    (Point(speed=50000, millivolts=3000),)
    """
    return Machine(tuple(Point(share * PUBLISHED_TOP // 1000, volts) for share, volts in points), idle)


MACHINES = {
    **{f"table1_idle{idle}": machine(idle, (500, 3000), (750, 4000), (1000, 5000))
       for idle in (0, 10, 100, 1000)},
    "table2_idle0": machine(0, (500, 3000), (750, 4000), (830, 4500), (1000, 5000)),
    "table3_idle0": machine(0, (360, 1400), (550, 1500), (640, 1600), (730, 1700), (820, 1800), (910, 1900),
                            (1000, 2000)),
}


@dataclass(frozen=True, slots=True)
class Sweep:
    """How sets are drawn, and which are run: their numbers of tasks, and utilisations in tenths.

    With own machines, or with other numbers of tasks than the published ones, there is one figure, `own`. The
    worst cases of the sets are then in proportion to the machine's highest speed.

    >>> [str(name) for name, tasks in Sweep(most=2, counts=[8], tenths=[7]).sets()]
    ['8_7_1', '8_7_2']
    """

    draws: str = "published"
    most: int = 100
    seed: int = PUBLISHED_SEED
    counts: Collection[int] = PUBLISHED_COUNTS
    tenths: Collection[int] = TENTHS
    own: Own = Own()

    def figures(self) -> Mapping[str, tuple[Panel, ...]]:
        """The figures, by their names.

        >>> Sweep(counts=[6]).figures()["own"]
        (Panel(count=6, machine='table1_idle0', take='1', title='6 tasks, table1_idle0'),)
        """
        if not self.own.machines and {*self.counts} <= {*PUBLISHED_COUNTS}:
            return FIGURES
        return {"own": tuple(Panel(count, name, "1", f"{count} tasks, {name}")
                             for name in self.own.machines or ("table1_idle0",) for count in sorted({*self.counts}))}

    def machine(self, name: str) -> Machine:
        """The machine of that name.

        >>> Sweep().machine("table1_idle10").idle
        10
        """
        return self.own.machines.get(name) or MACHINES[name]

    def curves(self) -> tuple[str, ...]:
        """The curves of each panel: those of the pairs, the bound, and the user's own.

        >>> Sweep().curves() == CURVES
        True
        """
        return (*CURVES, *self.own.curves())

    def case(self, name: SetName, tasks: TaskSet, kind: str, take: str) -> comparison.Case:
        """The run of a set on a machine, in which jobs take a share of their worst cases."""
        machine = self.machine(kind)
        fitted = scaled_to(tasks, machine.top_speed, PUBLISHED_TOP) if kind in self.own.machines else tasks
        return comparison.Case(fitted, machine, random_sets.PUBLISHED_TICKS, demands_of(name, fitted, take, self.seed))

    def missing(self) -> list[Path]:
        """The own traces that aren't there; the task file of each is written beside it; raises OSError."""
        panels = [panel for figure in self.figures().values() for panel in figure] if self.own.traces else []
        return [path for panel in panels for traces in self.own.traces for path in traces.missing(
            panel.machine, {name: self.case(name, tasks, panel.machine, panel.take).tasks
                            for name, tasks in self.sets() if name.count == panel.count})]

    def sets(self) -> Iterator[tuple[SetName, TaskSet]]:
        """The sets that are run, by name."""
        return ((name, tasks) for name, tasks in DRAWS[self.draws](self.most, self.seed, self.counts)
                if name.count in self.counts and name.tenths in self.tenths)

    def text(self) -> str:
        """What all calls for one folder have to have in common.

        >>> Sweep().text()
        '100 published sets a point by seed 2001\\n'
        """
        return f"{self.most} {self.draws} sets a point by seed {self.seed}\n{self.own.mark()}"


PUBLISHED_SWEEP = Sweep()


@dataclass(frozen=True, slots=True)
class Record:
    """A set's energy on a machine and for a share, by curve; None if RM denies the set.

    >>> Record.parse(Record(SetName(8, 7, 1), "table1_idle0", "1", "bound", Fraction(7, 2)).text()).energy
    Fraction(7, 2)
    """

    name: SetName
    machine: str
    take: str
    curve: str
    energy: Fraction | None

    def text(self) -> str:
        """The line of the record, with its line feed."""
        energy = "denied" if self.energy is None else str(self.energy)
        return "\t".join([str(self.name), self.machine, self.take, self.curve, energy]) + "\n"

    @classmethod
    def parse(cls, line: str) -> "Record":
        """The record of a line; raises ValueError."""
        name, kind, take, curve, energy = line.rstrip("\n").split("\t")
        return cls(SetName.parse(name), kind, take, curve, None if energy == "denied" else Fraction(energy))


# Runs


def demands_of(name: SetName, tasks: TaskSet, take: str, seed: int) -> Demands | None:
    """The demands of all jobs for a share of their worst cases; None for all of it.

    >>> from rtdvs import Task
    >>> demands_of(SetName(8, 7, 1), TaskSet((Task("a", 360360, 7),)), "0.5", 2001).units
    {('a', 1): 3, ('a', 2): 3}
    """
    if take == "1":
        return None
    if take == "uniform":
        return random_sets.taken_uniform(tasks, name.seed(seed), random_sets.PUBLISHED_TICKS)
    return random_sets.taken(tasks, Fraction(take), random_sets.PUBLISHED_TICKS)


def panels_of(name: SetName, sweep: Sweep = PUBLISHED_SWEEP) -> tuple[tuple[str, str], ...]:
    """The machines and shares for which the figures need a set.

    >>> panels_of(SetName(5, 1, 1))
    (('table1_idle0', '1'),)
    """
    panels = (panel for figure in sweep.figures().values() for panel in figure)
    return tuple(dict.fromkeys((panel.machine, panel.take) for panel in panels if panel.count == name.count))


def recount(board: Machine, text: str) -> RunTotals:
    """A trace's totals; AssertionError unless its energies and units follow from its speeds, and all its jobs are done.

    >>> from rtdvs.trace import SAMPLE
    >>> recount(Machine((Point(2, 1000), Point(3, 1000))), SAMPLE)
    Traceback (most recent call last):
    AssertionError: running energy 6000, counted 4000000000
    """
    trace = Trace.parse(text)
    square = {point.speed: point.millivolts**2 for point in board.points}
    running = [(note.units, square[speed]) for note, speed in trace.at_speeds() if isinstance(note, Run)]
    idling = [(note.units, square[speed]) for note, speed in trace.at_speeds() if isinstance(note, Idle)]
    kinds = Counter(type(note) for note in trace.notes)
    counted = {
        "running energy": (trace.run_energy, 1000 * sum(units * price for units, price in running)),
        "idle energy": (trace.idle_energy, board.idle * sum(units * price for units, price in idling)),
        "units": (sum(units for units, _ in running + idling),
                  sum(speed * ticks for speed, ticks in trace.residency().items())),
        "jobs": (kinds[Release], kinds[Done]),
    }
    for what, (found, wanted) in counted.items():
        if found != wanted:
            raise AssertionError(f"{what} {found}, counted {wanted}")
    return parse_totals(text)


def measure(engine: Engine, sweep: Sweep, named: tuple[SetName, TaskSet]) -> list[Record]:
    """All runs of one set; those of a set with number 1 are recounted.

    Raises refusals other than RM's, and than EDF's of a machine with a charge; BadValue and OSError for own curves.

    >>> from rtdvs import Task, find_engine
    >>> named = SetName(5, 1, 2), TaskSet((Task("a", 10010, 10**8),))
    >>> [record.curve for record in measure(find_engine(), Sweep(), named)][:3]
    ['bound', 'edf none', 'edf static']
    """
    name, tasks = named
    return [Record(name, kind, take, curve, energy)
            for kind, take in panels_of(name, sweep)
            for curve, energy in _energies(engine, sweep, name, sweep.case(name, tasks, kind, take), kind)]


def _energies(engine: Engine, sweep: Sweep, name: SetName, case: comparison.Case,
              kind: str) -> Iterator[tuple[str, Fraction | None]]:
    """The bound for the units that all pairs share, the energies of the pairs, and those of the user's own curves.

    Where the scheduler of these denies the set, they have none.
    """
    if name.number == 1:
        found: list[RunTotals | Denied] = [text if isinstance(text, Denied) else recount(case.machine, text)
                                           for text in comparison.runs(engine, case, comparison.PAIRS)]
    else:
        found = [*comparison.totals(engine, case, comparison.PAIRS)]
    denied = {scheduler: each for (scheduler, _), each in zip(comparison.PAIRS, found) if isinstance(each, Denied)}
    if "edf" in denied and not case.machine.charge:
        raise denied["edf"]
    if isinstance(found[0], Denied):
        yield "bound", None
    else:
        least = engine.least(case.machine, units_at_top(case.machine, found[0]), case.ticks)
        yield "bound", Fraction(least.energy, least.rounds)
    yield from zip(CURVES, (None if isinstance(each, Denied) else Fraction(each.energy) for each in found))
    if sweep.own.scheduler in denied:
        yield from ((curve, None) for curve in sweep.own.curves())
    else:
        yield from sweep.own.energies(case, kind, name)


def units_at_top(machine: Machine, found: RunTotals) -> int:
    """The work units of a run without a governor, which does them all at the highest speed, at one price.

    >>> units_at_top(Machine((Point(2, 1000), Point(4, 3000))), RunTotals(8, 9_000_000_000 * 5, 0))
    5
    """
    units, rest = divmod(found.run_energy, 1000 * machine.points[-1].millivolts**2)
    if rest:
        raise Crashed(f"a run energy of {found.run_energy}, not all at the highest speed")
    return units


def evaluate(engine: Engine, folder: Path, sweep: Sweep, executor: Executor) -> Generator[SetName, None, None]:
    """Runs the sets of a sweep that have no whole results in the folder; yields each name with results.

    The executor's workers have to reach the program; the caller's process writes the results. The first
    failure ends the sweep, and a later call goes on. Raises BadValue if the folder is another sweep's,
    OSError and what the program refuses.

    >>> from concurrent.futures import ThreadPoolExecutor
    >>> from tempfile import TemporaryDirectory
    >>> from rtdvs import find_engine
    >>> sweep = Sweep(most=1, counts=[5], tenths=[1])
    >>> with TemporaryDirectory() as folder, ThreadPoolExecutor(1) as executor:
    ...     [str(name) for name in evaluate(find_engine(), Path(folder), sweep, executor)]
    ['5_1_1']
    """
    _claim(folder, sweep)
    waiting: dict[Future[list[Record]], SetName] = {}
    try:
        for name, tasks in sweep.sets():
            if result_of(folder, name, sweep) is not None:
                yield name
            else:
                waiting[executor.submit(measure, engine, sweep, (name, tasks))] = name
        for future in as_completed(waiting):
            write_whole(_result_file(folder, waiting[future]), result_text(future.result()))
            yield waiting[future]
    finally:
        for future in waiting:
            future.cancel()


def _claim(folder: Path, sweep: Sweep) -> None:
    """Makes the folder one of this sweep."""
    file = folder / "sweep"
    (folder / "results").mkdir(parents=True, exist_ok=True)
    if not file.exists():
        write_whole(file, sweep.text())
    found = file.read_text(encoding="utf-8")
    if found != sweep.text():
        raise BadValue(f"{folder}: it has results of {found.rstrip()}, not of {sweep.text().rstrip()}")


def _result_file(folder: Path, name: SetName) -> Path:
    return folder / "results" / f"{name}.tsv"


def result_text(records: Iterable[Record]) -> str:
    r"""The file of a set: a line for each record, and a sum by which a change is seen.

    >>> result_text([Record(SetName(8, 7, 1), "table1_idle0", "1", "rm cc", None)])
    '8_7_1\ttable1_idle0\t1\trm cc\tdenied\nsum\t9b699090\n'
    """
    lines = "".join(record.text() for record in records)
    return f"{lines}sum\t{crc32(lines.encode()):08x}\n"


def result_of(folder: Path, name: SetName, sweep: Sweep = PUBLISHED_SWEEP) -> list[Record] | None:
    """A set's result if it is whole: all its runs, each once, and as they were written; raises OSError.

    >>> result_of(Path("absent"), SetName(8, 7, 1)) is None
    True
    """
    file = _result_file(folder, name)
    try:
        text = file.read_bytes().decode() if file.exists() else ""
        records = [Record.parse(line) for line in text.splitlines()[:-1]]
    except (ArithmeticError, ValueError):
        return None
    found = sorted((record.name, record.machine, record.take, record.curve) for record in records)
    wanted = sorted((name, *panel, curve) for panel in panels_of(name, sweep) for curve in sweep.curves())
    return records if found == wanted and text == result_text(records) else None


def read_records(folder: Path, names: Iterable[SetName], sweep: Sweep = PUBLISHED_SWEEP) -> list[Record]:
    """The results of these sets, in their order; raises OSError, and BadValue for one that isn't whole.

    >>> read_records(Path("sweep"), [SetName(8, 7, 1)])
    Traceback (most recent call last):
    rtdvs.errors.BadValue: sweep/results/8_7_1.tsv: not the whole result of a set
    """
    found: list[Record] = []
    for name in names:
        records = result_of(folder, name, sweep)
        if records is None:
            raise BadValue(f"{_result_file(folder, name)}: {NOT_WHOLE}")
        found += records
    return found


def finished(folder: Path, sweep: Sweep = PUBLISHED_SWEEP) -> list[SetName]:
    """The sets that have whole results in the folder, in order; raises OSError.

    >>> finished(Path("absent"))
    []
    """
    return sorted(name for name in _named(folder, sweep).values() if name is not None)


def broken(folder: Path, sweep: Sweep = PUBLISHED_SWEEP) -> list[str]:
    """A line for each file of results that isn't the whole result of a set; raises OSError.

    >>> broken(Path("absent"))
    []
    """
    return [f"{file}: {NOT_WHOLE}" for file, name in _named(folder, sweep).items() if name is None]


def _named(folder: Path, sweep: Sweep) -> dict[Path, SetName | None]:
    """The files of results, in order, each with the set whose whole result it is, and that it is named after."""
    found: dict[Path, SetName | None] = dict.fromkeys(sorted((folder / "results").glob("*.tsv")))
    for file in found:
        with suppress(ValueError):
            name = SetName.parse(file.stem)
            if str(name) == file.stem and result_of(folder, name, sweep) is not None:
                found[file] = name
    return found


# Tables

Place = tuple[int, str, str, str, int]
"""A point of a figure: number of tasks, machine, share, curve, utilisation in tenths."""


def shares(records: Iterable[Record]) -> dict[Place, list[Fraction]]:
    """The rising energies of each point, each over that of the same set under EDF with `none`.

    >>> energies = {"edf none": Fraction(4), "edf cc": Fraction(3), "rm cc": None}
    >>> records = [Record(SetName(8, 7, 1), "table1_idle0", "1", *pair) for pair in energies.items()]
    >>> shares(records)[8, "table1_idle0", "1", "edf cc", 7]
    [Fraction(3, 4)]
    """
    found: defaultdict[Place, list[Fraction]] = defaultdict(list)
    for (name, kind, take), by_curve in _groups(records).items():
        whole = by_curve.get(CURVES[0])
        for curve, energy in by_curve.items():
            if whole and energy is not None:
                found[name.count, kind, take, curve, name.tenths].append(energy / whole)
    return {point: sorted(energies) for point, energies in found.items()}


def _groups(records: Iterable[Record]) -> Mapping[tuple[SetName, str, str], Mapping[str, Fraction | None]]:
    """The energies of each set on a machine for a share, by curve."""
    groups: defaultdict[tuple[SetName, str, str], dict[str, Fraction | None]] = defaultdict(dict)
    for record in records:
        groups[record.name, record.machine, record.take][record.curve] = record.energy
    return groups


def figure_table(panels: Iterable[Panel], found: Mapping[Place, list[Fraction]], curves: Iterable[str] = CURVES) -> str:
    r"""The table of a figure: a line for each panel, curve and utilisation.

    It has the number of sets that were admitted, the mean over them and the ends of the middle 80 %, each
    with four decimal places. Without an admitted set these three are left out.

    >>> figure_table(FIGURES["tasks"], {}).splitlines()[1]
    '5 tasks\tedf none\t0.1\t0\t\t\t'
    """
    curves = [*curves]
    lines = (f"{panel.title}\t{curve}\t{decimal(Fraction(tenths, 10), 1)}\t"
             + point(found.get((panel.count, panel.machine, panel.take, curve, tenths), []))
             for panel in panels for curve in curves for tenths in TENTHS)
    return "panel\tcurve\tutilisation\tsets\tmean\tlow\thigh\n" + "".join(lines)


def point(rising: list[Fraction]) -> str:
    """The end of a line: the number of sets, their mean, the ends of the middle 80 %.

    >>> point([Fraction(1, 4), Fraction(3, 4)])
    '2\\t0.5000\\t0.2500\\t0.7500\\n'
    """
    if not rising:
        return "0\t\t\t\n"
    cut = len(rising) // 10
    values = (mean(rising), rising[cut], rising[-1 - cut])
    return f"{len(rising)}\t" + "\t".join(decimal(value, 4) for value in values) + "\n"


# What has to hold


def faults(records: Iterable[Record], sweep: Sweep = PUBLISHED_SWEEP) -> Iterator[str]:
    """What is wrong with results, a line each.

    Each set has all its runs. No energy is below the bound; with the idle share 0 none is above that of EDF
    with `none`.

    >>> list(faults([Record(SetName(8, 7, 1), "table1_idle0", "1", "bound", Fraction(7, 2))]))
    ['8_7_1 table1_idle0 1: runs are missing']
    """
    for (name, kind, take), by_curve in _groups(records).items():
        place = f"{name} {kind} {take}"
        board = sweep.machine(kind)
        if sorted(by_curve) != sorted(sweep.curves()):
            yield f"{place}: runs are missing"
            continue
        base, bound = by_curve[CURVES[0]], by_curve["bound"]
        for curve, energy in by_curve.items():
            if energy is None or base is None or bound is None:
                if not curve.startswith("rm ") and not board.charge:
                    yield f"{place}: {curve}: it is denied"
            elif energy < bound:
                yield f"{place}: {curve}: below the bound"
            elif not board.idle and energy > base:
                yield f"{place}: {curve}: above EDF with none"


def summary(records: Collection[Record], wrong: Collection[str]) -> str:
    """The numbers of results, of groups of a set's runs, of denied runs and of faults.

    >>> summary([Record(SetName(8, 7, 1), "table1_idle0", "1", "rm cc", None)], ["runs are missing"])
    '1 lines, 1 groups, 1 denied under RM, 1 faults'
    """
    denied = sum(record.energy is None for record in records)
    return f"{len(records)} lines, {len(_groups(records))} groups, {denied} denied under RM, {len(wrong)} faults"
