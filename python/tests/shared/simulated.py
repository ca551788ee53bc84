"""An engine without the program: its answers by the package's simulator, and by definitions written out here."""

from collections.abc import Callable, Iterable, Mapping
from fractions import Fraction
from itertools import combinations
from pathlib import Path
from typing import Any

from rtdvs.engine import Answer, Call, Engine
from rtdvs.errors import Denied, Refused
from rtdvs.model import Demands, Machine, TaskSet
from rtdvs.rules import Plan, simulate
from tests.shared.examples import version_1


class Simulated(Engine):
    """Answers `run`, `admit`, `response` and `least` in this process; it is for what is done with answers."""

    def answer(self, call: Call[Any]) -> Answer:
        options, files = plain(call.options), plain(call.files)
        contents = {kind: file.read_bytes() if isinstance(file, Path) else file for kind, file in files.items()}
        texts = {kind: file.decode() if isinstance(file, bytes) else file for kind, file in contents.items()}
        try:
            return Answer(0, ANSWERS[call.command](options, texts).encode(), b"")
        except Refused as refused:
            return Answer(refused.status or 99, b"", f"{refused}\n".encode())


def written(file: object) -> str:
    """The text of a file that is given by its path, as bytes or as a text."""
    if isinstance(file, Path):
        return file.read_text()
    return file.decode() if isinstance(file, bytes) else str(file)


def plain(pairs: Iterable[tuple[str, str | bytes | Path]]) -> dict[str, object]:
    """Options by their names, without dashes."""
    return {name.removeprefix("--"): value for name, value in pairs}


Options = Mapping[str, object]


def set_of(texts: Options) -> tuple[TaskSet, Machine]:
    return TaskSet.parse(str(texts["tasks"])), Machine.parse(str(texts["machine"]))


def run(options: Options, texts: Options) -> str:
    tasks, machine = set_of(texts)
    demands = Demands.parse(str(texts["demands"]), tasks) if "demands" in texts else None
    scheduler, governor, ticks, version = (str(options[name]) for name in ("scheduler", "governor", "ticks", "format"))
    Plan(tasks, machine, scheduler).admit()
    text = simulate(tasks, machine, scheduler, int(ticks), governor, demands).text()
    return version_1(text) if version == "1" else text


def admit(options: Options, texts: Options) -> str:
    plan = Plan(*set_of(texts), str(options["scheduler"]))
    plan.admit()
    num, den = plan.static
    return f"admitted {options['scheduler']} {num}/{den} {plan.lowest(num, den).speed}\n"


def response(options: Options, texts: Options) -> str:
    """The first tick by which all is done that a level released before it, all together from tick 0 on."""
    tasks, machine = set_of(texts)
    late = next((task.name for task in tasks if task.offset), None)
    if late is not None:
        raise Denied("offset", task=late)
    order = sorted(tasks, key=lambda task: task.period)
    found: dict[str, int] = {}
    for place, last in enumerate(order):
        level = [(task.period, task.worst + 2 * machine.charge) for task in order[:place + 1]]
        asked = [sum(-(-tick // period) * units for period, units in level) for tick in range(1, last.period + 1)]
        ends = [tick for tick, units in enumerate(asked, 1) if units <= machine.top_speed * tick]
        if not ends:
            raise Denied("misses", asked[-1], machine.top_speed * last.period, task=last.name)
        found[last.name] = ends[0]
    return "".join(f"response {task.name} {found[task.name]}\n" for task in tasks)


def least(options: Options, texts: Options) -> str:
    """The cheapest mix of two speeds, or of one and of idling, that does the units in the ticks."""
    machine = Machine.parse(str(texts["machine"]))
    units, ticks = int(str(options["units"])), int(str(options["ticks"]))
    slowest = machine.points[0]
    corners = [(0, slowest.speed * slowest.millivolts**2 * machine.idle)]
    corners += [(point.speed, point.speed * point.millivolts**2 * 1000) for point in machine.points]
    mixes = []
    for (low, low_cost), (high, high_cost) in combinations(corners, 2):
        low_ticks, high_ticks, rounds = high * ticks - units, units - low * ticks, high - low
        energy = low_ticks * low_cost + high_ticks * high_cost
        if low_ticks >= 0 and high_ticks >= 0:
            mixes.append((Fraction(energy, rounds), rounds, low, low_ticks, high, high_ticks, energy,
                          high_cost - low_cost, low_cost * rounds - low * (high_cost - low_cost)))
    _, *numbers, price, rest = min(mixes)
    return f"least {' '.join(map(str, numbers))}\nprices {price} {'minus' if rest < 0 else 'plus'} {abs(rest)}\n"


ANSWERS: dict[str, Callable[[Options, Options], str]] = {
    "run": run, "admit": admit, "response": response, "least": least}
