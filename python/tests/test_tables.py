"""What pages say beside their calls: tables, sentences, equations, limits, and the tests that RULES.md names.

A function for a page makes anew what the page says. What the page lacks is a fault, with the line of the page
that has other numbers in its place.
"""

import csv
import re
from collections import Counter
from collections.abc import Callable, Iterable, Iterator
from fractions import Fraction
from itertools import pairwise
from math import ceil

import pytest

from rtdvs._numbers import decimal
from rtdvs.engine import Engine, RunTotals
from rtdvs.model import Requests
from rtdvs.studies import (
    MACHINES, PAPER_EXAMPLE, PAPER_PAIRS, PUBLISHED, PUBLISHED_MILLISECOND, PUBLISHED_SEED,
    PUBLISHED_TICKS, PUBLISHED_TOP, paper_shares, totals,
)
from rtdvs.trace import Run, Trace
from tests.shared.examples import BOARD, DATA, NUMBER, PAGES, PAPER, TOP, XSCALE, rows, files, value

TENTHS = [decimal(Fraction(tenth, 10), 1) for tenth in range(1, 11)]


def missing(page: str, text: str, wanted: str) -> str | None:
    """What is wrong if a page doesn't say this, with the line that says it of the fewest other numbers.

    >>> missing("a.md", "one\\nof 3 tasks\\n", "of 4 tasks")
    "a.md:2: 'of 3 tasks', wanted 'of 4 tasks'"
    """
    if wanted in text:
        return None
    masked, numbers = re.sub(NUMBER, "#", wanted), Counter(re.findall(NUMBER, wanted))
    alike = [((numbers & Counter(re.findall(NUMBER, line))).total(), -place, line)
             for place, line in enumerate(text.splitlines(), 1) if masked in re.sub(NUMBER, "#", line)]
    if not alike:
        return f"{page}: no line says {wanted!r}"
    _, place, line = max(alike)
    return f"{page}:{-place}: {line!r}, wanted {wanted!r}"


def short(value: Fraction, places: int) -> str:
    """A share without zeros at its end.

    >>> short(Fraction(16, 25), 4), short(Fraction(1), 4)
    ('0.64', '1')
    """
    return decimal(value, places).rstrip("0").rstrip(".")


def row(*cells: object) -> str:
    """A row of a table; an empty cell is one blank.

    >>> row("none", 28, "")
    '| none | 28 | |'
    """
    return "|" + "".join(f" {cell} |" if str(cell) else " |" for cell in cells)


def readme(engine: Engine) -> Iterator[str]:
    energies = [each.energy for each in totals(engine, PAPER_EXAMPLE, PAPER_PAIRS) if isinstance(each, RunTotals)]
    finer = paper_shares(engine, 3)
    yield row("energy, in 10^9", *(short(Fraction(energy, 10**9), 4) for energy in energies))
    yield row("Pillai and Shin (2001)", *PUBLISHED[1:])
    yield row("this run", *(short(share, 4) for share in paper_shares(engine, 1)))
    yield row("ticks 3 times finer", *(short(share, 4) for share in finer))
    yield f"the shares are exactly {finer[4]} and {short(finer[5], 4)}."


def units(engine: Engine) -> Iterator[str]:
    mhz, volts, quoted = XSCALE[-1]
    capacitance = Fraction(quoted, 10**3) / (Fraction(volts)**2 * mhz * 10**6)
    model = [capacitance * Fraction(volts)**2 * mhz * 10**9 for mhz, volts, _ in XSCALE]
    for (mhz, volts, quoted), watts in zip(XSCALE, model, strict=True):
        yield row(mhz, volts, quoted, mhz, int(1000 * Fraction(volts)), round(watts))
    yield f"gives C = {decimal(capacitance * 10**9, 3)} nF"
    middle = zip(XSCALE[1:-1], model[1:-1], strict=True)
    lower = [100 * (1 - quoted / watts) for (_, _, quoted), watts in middle]
    yield f"are {round(min(lower))} to {round(max(lower))} percent lower in the middle"
    tasks, machine, demands = files("controller")
    first = demands.units[tasks.tasks[0].name, 1]
    yield (f"where it is {machine.charge}, the first job of `{tasks.tasks[0].name}` has {first} units in the "
           f"demand file and {first + 2 * machine.charge} in the trace")
    finer = [700 * share for share in paper_shares(engine, 3)]
    yield f"of continuous time, {finer[4]}/700 and {finer[5]}/700"


def least(engine: Engine) -> Iterator[str]:
    costs = {point.speed: point.millivolts**2 * 1000 for point in BOARD.points}
    yield "A unit costs {} at speed 2, {} at 3 and {} at 4".format(*costs.values())
    for governor in ("none", "static", "cc", "la"):
        trace = engine.run(PAPER, BOARD, "edf", governor, 16, PAPER_EXAMPLE.demands)
        ran = Counter[int]()
        for note, speed in trace.at_speeds():
            ran[speed] += note.units if isinstance(note, Run) else 0
        yield row(governor, *(ran[speed] or "" for speed in (4, 3, 2)))
    found = engine.least(DATA / "paper" / "machine.toml", 40, 16)
    yield f"A unit is priced at {found.unit_price}, a tick at {found.tick_price}."
    yield row("idle", 0, found.tick_price)
    for speed, cost in costs.items():
        price, time = speed * found.unit_price, found.tick_price
        yield row(f"{speed} units", speed * cost, f"{price} - {-time} = {price + time}")
    yield from controller(engine)


def controller(engine: Engine) -> Iterator[str]:
    tasks, machine, demands = files("controller")
    trace = engine.run(tasks, machine, "edf", "cc", 100, demands)
    ran = sum(note.units for note in trace.notes if isinstance(note, Run))
    found = engine.least(machine, ran, 100)
    bound = Fraction(found.energy, found.rounds)
    yield (f"has {count(len(tasks))} tasks, {count(len(machine.points))} speeds, "
           f"an idle share of {machine.idle} thousandths")
    yield (f"its 100 ticks ran {ran} units for {trace.run_energy}, and idled for {trace.idle_energy}: "
           f"together {trace.energy}.")
    yield (f"{found.energy} / {found.rounds} = {bound}: of 100 ticks, {found.low_ticks // found.rounds} "
           f"at speed {found.low} and {found.high_ticks // found.rounds} at speed {found.high}.")
    yield f"The run spent {round(100 * (trace.energy / bound - 1))} percent more."


def count(number: int) -> str:
    return ("no", "one", "two", "three", "four", "five", "six", "seven", "eight", "nine")[number]


def servers(engine: Engine) -> Iterator[str]:
    folder, period, budget = DATA / "server", 5, 4
    requests = [(each.arrival, each.units) for each in Requests.read(folder / "requests.csv").requests]
    files = folder / "tasks.toml", folder / "machine.toml", folder / "requests.csv"
    polled = engine.poll(*files, "s", "edf", "none", 15)
    taken: list[int] = []
    for release in range(0, 15, period):
        asked = sum(units for arrival, units in requests if arrival <= release)
        taken.append(min(budget, asked - sum(taken)))
    yield "take {}, {} and {} units".format(*taken)
    for place, ((arrival, asked), service) in enumerate(zip(requests, polled.services, strict=True)):
        total, before = sum(units for _, units in requests[:place + 1]), ceil(Fraction(arrival, period))
        backlog = total - sum(taken[:before])
        job = before + ceil(Fraction(backlog, budget))
        shown = f"{total} - {total - backlog} = {backlog}" if before else backlog
        served = f"job {service.job}, {service.position}" if service.job else "pending: past the run"
        yield row(place + 1, arrival, asked, shown, job - before, before, job, job * period, served)
    for period, budget in ((5, 4), (10, 8), (5, 8), (10, 15)):
        waits = (period - 1 + ceil(Fraction(asked, budget)) * period for asked in (1, 6, 8, 19, 40))
        yield row(period, budget, budget * 10 // period, *waits)


def figure(name: str) -> dict[tuple[str, str, str], Fraction]:
    """The means of a stored table by panel, curve and utilisation."""
    with (TOP / "examples" / "evaluation" / f"{name}.tsv").open(encoding="utf-8") as file:
        return {(line["panel"], line["curve"], line["utilisation"]): Fraction(line["mean"])
                for line in csv.DictReader(file, delimiter="\t") if line["mean"]}


def evaluation(engine: Engine) -> Iterator[str]:
    yield f"from 0.1 to 1.0, seed {PUBLISHED_SEED} |"
    yield f"the nearest divisor of {PUBLISHED_TICKS} ticks; {PUBLISHED_MILLISECOND} ticks are 1 ms |"
    seconds = Fraction(PUBLISHED_TICKS, 1000 * PUBLISHED_MILLISECOND)
    yield f"{PUBLISHED_TICKS} ticks, which are {decimal(seconds, 4)} s;"
    for number in (1, 3):
        points = MACHINES[f"table{number}_idle0"].points
        speeds = [short(Fraction(point.speed, PUBLISHED_TOP), 2) for point in points]
        volts = [short(Fraction(point.millivolts, 1000), 1) for point in points]
        of = f" of {PUBLISHED_TOP} units a tick," if number == 1 else ""
        yield f"{', '.join(speeds[:-1])} and {speeds[-1]}{of} at {', '.join(volts[:-1])} and {volts[-1]} V |"
    tasks, machines, idle, demands = (figure(name) for name in ("tasks", "machines", "idle", "demands"))
    at_most = [max(tasks[f"{number} tasks", "edf la", tenth] - tasks[f"{number} tasks", "bound", tenth]
                   for tenth in TENTHS) for number in (5, 10, 15)]
    yield (f"its mean is at most {decimal(at_most[0], 2)} above it, "
           f"and {decimal(max(at_most[1:]), 2)} for 10 and 15 tasks")
    means = [short(tasks[f"{number} tasks", "rm static", "0.7"], 2) for number in (5, 10, 15)]
    yield "at 0.7 the mean of `static` is {}, {} and {}.".format(*means)
    pairs = [short(machines[panel, curve, "0.8"], 2) for panel in ("machine 1", "machine 2")
             for curve in ("edf cc", "rm cc")]
    yield "At 0.8 the two have {} and {} on machine 1, and {} and {} on machine 2.".format(*pairs)
    falls = [decimal(idle[f"idle share {share}", "edf static", "0.1"], 2)
             for share in ("0", "0.01", "0.1", "1")]
    yield "at 0.1 the share falls from {} to {}, {} and {}.".format(*falls)
    yield from taken_shares(demands)


def taken_shares(demands: dict[tuple[str, str, str], Fraction]) -> Iterator[str]:
    whole, half = "all of the worst case", "0.5 of it"
    falls = [(demands[whole, curve, "0.8"], demands[half, curve, "0.8"]) for curve in ("edf cc", "edf la")]
    yield (f"fall from {short(falls[0][0], 2)} and {decimal(falls[1][0], 2)} to {decimal(falls[0][1], 2)} "
           f"and {decimal(falls[1][1], 2)} when jobs take half")
    change = max(abs(demands[whole, "rm cc", tenth] - demands[half, "rm cc", tenth]) for tenth in TENTHS
                 if (half, "rm cc", tenth) in demands)
    yield f"RM's `cc` changes little (at most {decimal(change, 2)})"
    spread = max(abs(mean - demands["a uniform share", curve, tenth])
                 for (panel, curve, tenth), mean in demands.items() if panel == half)
    yield f"gives the same means within {decimal(spread, 3)}."


def limits() -> dict[str, object]:
    """The constants of the code by name; NAME^ is a power of two, NAME+1 and NAME-1 are its neighbours."""
    texts = [path.read_text(encoding="utf-8") for path in (TOP / "crates").glob("*/src/limits.rt")]
    found = re.findall(r"^pub const ([A-Z_]+): \w+ = ([\d_]+)(?: << (\d+))?;", "\n".join(texts), re.MULTILINE)
    numbers = {name: int(number) << int(by or 0) for name, number, by in found}
    powers = {f"{name}^": f"2^{number.bit_length() - 1}"
              for name, number in numbers.items() if number.bit_count() == 1}
    return {**numbers, **powers, **{f"{name}{by:+}": numbers[name] + by for name in numbers for by in (-1, 1)}}


SAID: dict[str, Callable[[Engine], Iterator[str]]] = {
    "README.md": readme, "docs/UNITS.md": units, "docs/LEAST.md": least, "docs/SERVERS.md": servers,
    "docs/EVALUATION.md": evaluation,
}
LIMITS = rows("limits")


def assert_said(page: str, wanted: Iterable[str]) -> None:
    text = (TOP / page).read_text(encoding="utf-8")
    faults = [fault for each in wanted if (fault := missing(page, text, each))]
    assert not faults, "\n" + "\n".join(faults)


@pytest.mark.parametrize("page", SAID)
def test_what_pages_say(page: str, engine: Engine) -> None:
    assert_said(page, SAID[page](engine))


@pytest.mark.parametrize("page", sorted({page for page, _ in LIMITS}))
def test_limits_that_pages_say(page: str) -> None:
    assert_said(page, [text.format_map(limits()) for of, text in LIMITS if of == page])


# Equations

SIDE = r"[\d(](?:[\d ().]|[-+*/](?! ?[a-zA-Z`]))*(?<=[\d)])"
EQUATION = re.compile(rf"(?<![\w.^/*+-])(?<![\w)] [-+*/] ){SIDE}(?: = {SIDE})+(?![\w^*/])")


def wrong_equations(line: str) -> Iterator[str]:
    """The equations of numbers in a line that don't hold.

    >>> list(wrong_equations("so 12 * 280/8 = 420, and 420 + 336 = 757; C * 2 = 3"))
    ['420 + 336 = 757']
    """
    whole = re.sub(r"ceil\((\d+)/(\d+)\)", lambda part: str(ceil(Fraction(int(part[1]), int(part[2])))), line)
    for found in EQUATION.finditer(whole):
        sides = [value(side) for side in found[0].split(" = ")]
        if any(one != two for one, two in pairwise(sides)):
            yield found[0]


@pytest.mark.parametrize("page", PAGES, ids=str)
def test_equations(page: str) -> None:
    lines = (TOP / page).read_text(encoding="utf-8").splitlines()
    faults = [f"{page}:{place}: {wrong}" for place, line in enumerate(lines, 1)
              for wrong in wrong_equations(line)]
    assert not faults, "\n" + "\n".join(faults)


# Answers of the exercises

def test_answers_are_those_of_the_solutions() -> None:
    """Each line that an answer quotes is printed by a call of the solutions."""
    solutions = (TOP / "examples" / "exercises" / "solutions.txt").read_text(encoding="utf-8").splitlines()
    lines = (TOP / "docs" / "EXERCISES.md").read_text(encoding="utf-8").splitlines()
    answers = [(place, line) for place, line in enumerate(lines, 1) if line.startswith("**Answer.**")]
    quoted = [(place, code) for place, line in answers for code in re.findall(r"`([a-z]+ [^`]*\d)`", line)]
    assert len(quoted) >= 3
    assert not [f"docs/EXERCISES.md:{place}: {code}" for place, code in quoted if code not in solutions]


# The tests that RULES.md names

MEASURE = re.compile(r"\d|\b(?:rounded|twice|thousandths|seven|three|one more)\b")
NO_MEASURE = re.compile(r"^\d\. |\]\(.*?\)|\(\d{4}\)|, \d{4}\)")
"""Places in a list, links and years."""


def unnamed(text: str, names: set[str]) -> Iterator[str]:
    """The lines that have a number or a rounding, and name no test of these in a comment at their end.

    >>> list(unnamed("# 1\\ntwice. <!-- test: a -->\\n3\\nrounded <!-- test: a, b -->\\n", {"a"}))
    ['line 3: no test', 'line 4: no test b']
    """
    for place, line in enumerate(text.splitlines(), 1):
        named = re.search(r"<!-- tests?: (.*) -->", line)
        if named:
            yield from (f"line {place}: no test {name}" for name in named[1].split(", ") if name not in names)
        elif not line.startswith("#") and MEASURE.search(NO_MEASURE.sub("", line)):
            yield f"line {place}: no test"


def test_rules_name_their_tests() -> None:
    tests = [*(TOP / "python" / "tests").rglob("test_*.py"), *(TOP / "crates").glob("*/src/**/*.rt")]
    found = re.findall(r"^def (test_\w+)|#\[test\](?:\n.*?)*?\nfn (\w+)",
                       "\n".join(path.read_text(encoding="utf-8") for path in tests), re.MULTILINE)
    names = {name for pair in found for name in pair if name}
    assert not list(unnamed((TOP / "docs" / "RULES.md").read_text(encoding="utf-8"), names))
