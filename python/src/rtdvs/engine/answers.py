"""What the program prints for each command: typed answers, read strictly.

Times are in ticks. Energies are in work units times square millivolts, times 1000, or times `idle` for idle units.
"""

from dataclasses import dataclass

from rtdvs.errors import NAME, NUMBER, Crashed, TraceFault, groups
from rtdvs.model import Governor
from rtdvs.trace import End, Trace


@dataclass(frozen=True, slots=True)
class Admitted:
    """`num`/`den` is the static demand in work units per tick, not reduced.

    `speed` is the lowest that meets it, in units per tick.

    >>> parse_admitted("admitted rm 52/14 4\\n").speed
    4
    """

    scheduler: str
    num: int
    den: int
    speed: int


@dataclass(frozen=True, slots=True)
class Constrained:
    """`num` work units are due within `den` ticks; `speed` is the lowest that meets all deadlines.

    >>> parse_constrained("constrained 7/6 2\\n").den
    6
    """

    num: int
    den: int
    speed: int


@dataclass(frozen=True, slots=True)
class RunTotals(End):
    """The end line of a run: its ticks, and the energies of its `run` and of its `idle` lines.

    >>> parse_totals("trace 2\\n..\\nend 16 364000000000 1000\\n").energy
    364000001000
    """

    @property
    def energy(self) -> int:
        """Of running and idling together."""
        return self.run_energy + self.idle_energy


@dataclass(frozen=True, slots=True)
class Replayed:
    """The jobs released and complete, and the energies of the `run` and of the `idle` lines.

    >>> parse_replayed("replayed 6 5 315000000000 0\\n").finished
    5
    """

    released: int
    finished: int
    run_energy: int
    idle_energy: int


@dataclass(frozen=True, slots=True)
class Service:
    """A request, and the server's job that completes it at a position ("tick:units"), if one does.

    >>> parse_polled("pending 1 12 1\\npolled 0 7 0\\n").services
    (Service(request=1, arrival=12, units=1, job=None, position=None),)
    """

    request: int
    arrival: int
    units: int
    job: int | None = None
    position: str | None = None


@dataclass(frozen=True, slots=True)
class Polled:
    """The requests in file order, the number served, and the energies of the run.

    >>> parse_polled("served 1 0 3 1 0:3\\npolled 1 725000000000 0\\n").served
    1
    """

    services: tuple[Service, ...]
    served: int
    run_energy: int
    idle_energy: int


@dataclass(frozen=True, slots=True)
class Least:
    """The least energy: of `rounds` times the ticks, `low_ticks` have `low` work units, `high_ticks` `high`.

    A tick with w units costs, `rounds` times, at least w times `unit_price` plus `tick_price`.

    >>> least = parse_least("least 2 0 4 2 28 504000000000\\nprices 18000000000 plus 0\\n")
    >>> least.low * least.low_ticks + least.high * least.high_ticks, least.rounds
    (56, 2)
    """

    rounds: int
    low: int
    low_ticks: int
    high: int
    high_ticks: int
    energy: int
    unit_price: int
    tick_price: int


@dataclass(frozen=True, slots=True)
class GovernorTotals:
    """A governor's run of a generated workload: jobs released and complete, decisions, and the energies.

    >>> parse_workload("workload 1 32 50000\\nla 9 8 7 600 5\\n")[0].governor
    'la'
    """

    governor: str
    released: int
    finished: int
    decisions: int
    run_energy: int
    idle_energy: int


def _answer_groups(pattern: str, text: str) -> tuple[str, ...]:
    """The groups of an answer's text; raises Crashed for what the program never prints."""
    try:
        return groups(pattern, text)
    except ValueError:
        raise Crashed(f"an unknown answer: {text[:80]!r}") from None


def parse_trace(text: str) -> Trace:
    """The answer of `run` or `migrate`; raises Crashed for any other text.

    >>> parse_trace("trace 2\\n")
    Traceback (most recent call last):
    rtdvs.errors.Crashed: an unknown answer: line 2: it doesn't end with a line feed
    """
    try:
        return Trace.parse(text)
    except TraceFault as fault:
        raise Crashed(f"an unknown answer: {fault}") from None


def parse_totals(text: str) -> RunTotals:
    """The totals of a run, by the last line of its trace or of the trace's end; raises Crashed for any other text.

    >>> parse_totals("8000\\nend 16 364000000000 0\\n")
    RunTotals(ticks=16, run_energy=364000000000, idle_energy=0)
    """
    last = text[text.rfind("\n", 0, -1) + 1:]
    return RunTotals(*map(int, _answer_groups(f"end {NUMBER} {NUMBER} {NUMBER}\n", last)))


def parse_admitted(text: str) -> Admitted:
    """The answer of `admit`; raises Crashed for any other text.

    >>> parse_admitted("admitted edf 836/280 3\\n")
    Admitted(scheduler='edf', num=836, den=280, speed=3)
    """
    scheduler, *numbers = _answer_groups(f"admitted (edf|rm) {NUMBER}/{NUMBER} {NUMBER}\n", text)
    return Admitted(scheduler, *map(int, numbers))


def parse_responses(text: str) -> dict[str, int]:
    """The answer of `response`, in ticks by task; raises Crashed for any other text.

    >>> parse_responses("response t1 3\\nresponse t2 6\\n")
    {'t1': 3, 't2': 6}
    """
    lines = (_answer_groups(f"response {NAME} {NUMBER}\n", line) for line in text.splitlines(keepends=True))
    return {task: int(ticks) for task, ticks in lines}


def parse_constrained(text: str) -> Constrained:
    """The answer of `constrain`; raises Crashed for any other text.

    >>> parse_constrained("constrained 7/6 2\\n")
    Constrained(num=7, den=6, speed=2)
    """
    return Constrained(*map(int, _answer_groups(f"constrained {NUMBER}/{NUMBER} {NUMBER}\n", text)))


def parse_replayed(text: str) -> Replayed:
    """The answer of `replay`; raises Crashed for any other text.

    >>> parse_replayed("replayed 6 6 315000000000 0\\n").run_energy
    315000000000
    """
    return Replayed(*map(int, _answer_groups(f"replayed {NUMBER} {NUMBER} {NUMBER} {NUMBER}\n", text)))


def parse_polled(text: str) -> Polled:
    """The answer of `poll`; raises Crashed for any other text.

    >>> parse_polled("served 1 0 3 1 0:3\\npending 2 12 1\\npolled 1 725000000000 0\\n").services[0].position
    '0:3'
    """
    *lines, last = text.splitlines(keepends=True) or [text]
    sums = map(int, _answer_groups(f"polled {NUMBER} {NUMBER} {NUMBER}\n", last))
    return Polled(tuple(map(_service, lines)), *sums)


def _service(line: str) -> Service:
    if line.startswith("pending"):
        request, arrival, units = _answer_groups(f"pending {NUMBER} {NUMBER} {NUMBER}\n", line)
        return Service(int(request), int(arrival), int(units))
    pattern = f"served {NUMBER} {NUMBER} {NUMBER} {NUMBER} ([0-9]+:[0-9]+)\n"
    request, arrival, units, job, position = _answer_groups(pattern, line)
    return Service(int(request), int(arrival), int(units), int(job), position)


def parse_least(text: str) -> Least:
    """The answer of `least`; raises Crashed for any other text.

    >>> parse_least("least 2 0 4 2 28 504000000000\\nprices 18000000000 plus 0\\n").energy
    504000000000
    """
    least = " ".join(["least", *[NUMBER] * 6])
    *numbers, sign, tick_price = _answer_groups(f"{least}\nprices {NUMBER} (plus|minus) {NUMBER}\n", text)
    prices = [*numbers, tick_price if sign == "plus" else f"-{tick_price}"]
    return Least(*map(int, prices))


def parse_workload(text: str) -> tuple[GovernorTotals, ...]:
    """The answer of `workload`, a line for each governor; raises Crashed for any other text.

    >>> parse_workload("workload 1 32 50000\\nnone 9 8 7 600 5\\n")[0].decisions
    7
    """
    head, *lines = text.splitlines(keepends=True) or [text]
    _answer_groups(f"workload {NUMBER} {NUMBER} {NUMBER}\n", head)
    pattern = " ".join([f"({'|'.join(Governor)})", *[NUMBER] * 5]) + "\n"
    rows = (_answer_groups(pattern, line) for line in lines)
    return tuple(GovernorTotals(governor, *map(int, numbers)) for governor, *numbers in rows)
