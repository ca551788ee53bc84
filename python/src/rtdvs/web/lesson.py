"""A lesson: examples, pairs, a text for each, and all their runs, for one file that needs no server.

Its file is TOML, and names the files of its examples; their names begin at its folder:

    title = "Speed and deadlines"
    text = "What the lesson is about."

    [[example]]
    name = "paper"      # in links
    title = "Three tasks"
    text = "Paragraphs, with an empty line between them."
    tasks = "tasks.toml"
    machine = "machine.toml"
    demands = "demands.csv"     # may be missing
    ticks = 16

    [[example.pair]]
    scheduler = "rm"
    governor = "none"
    text = "What to look for."
    missed = "drop"     # may be missing: the package's run, if the scheduler doesn't admit the set
"""

from collections.abc import Callable, Iterator, Mapping
from dataclasses import MISSING, dataclass
from functools import partial
from itertools import combinations, permutations
from pathlib import Path
from typing import Any, TypeVar

from rtdvs import model
from rtdvs.engine import Engine, run_call
from rtdvs.errors import BadValue, FileRefused, Refused
from rtdvs.rules import simulate
from rtdvs.trace import Trace
from rtdvs.web import data

MOST_EXAMPLES = 100
MOST_LESSON_TEXT = 1    # mebibytes of explanations of a run
T = TypeVar("T")


@dataclass(frozen=True, slots=True)
class LessonPair:
    """A pair of an example, and what is said of its run. With "drop" for `missed` the set may be denied.

    >>> LessonPair((model.Scheduler.EDF, model.Governor.CC), "Watch tick 3.").name
    'edf-cc'
    """

    pair: model.Pair
    text: str
    missed: str = "stop"

    @property
    def name(self) -> str:
        """The pair in links."""
        return "-".join(self.pair)


@dataclass(frozen=True, slots=True)
class LessonExample:
    """An example of a lesson: its files, its ticks and its pairs; `name` is in links."""

    name: str
    title: str
    text: str
    tasks: model.TaskSet
    machine: model.Machine
    demands: model.Demands | None
    ticks: int
    pairs: tuple[LessonPair, ...]


@dataclass(frozen=True, slots=True)
class Lesson:
    """A lesson: a title, a text and examples."""

    title: str
    text: str
    examples: tuple[LessonExample, ...]

    @classmethod
    def read(cls, path: Path) -> "Lesson":
        """The lesson of a file, with the files that it names; raises FileRefused, and OSError for its own file.

        >>> Lesson.read(Path("/dev/null"))
        Traceback (most recent call last):
        rtdvs.errors.FileRefused: lesson: missing title
        """
        top = model.document(model.load(path), "lesson", "title", "text", "example")
        found = (_text(top.values, "title", top.fault), _text(top.values, "text", top.fault, ""))
        examples = tuple(_example(table, path.parent) for table in top.array(MOST_EXAMPLES))
        _check_different("examples", [example.name for example in examples], top.fault)
        return cls(*found, examples)


# Reading

def _text(values: Mapping[str, Any], key: str, fault: Callable[[str], Refused], default: object = MISSING) -> str:
    value = values.get(key, default)
    if not isinstance(value, str):
        raise fault(f"missing {key}" if value is MISSING else f"wrong kind of {key}")
    return value


def _check_different(of: str, names: list[str], fault: Callable[[str], Refused]) -> None:
    for (first, name), (second, other) in combinations(enumerate(names, 1), 2):
        if name == other:
            raise fault(f"{of} {first} and {second} have one name")


def _example(table: model.Table, folder: Path) -> LessonExample:
    table.refuse_others("name", "title", "text", "tasks", "machine", "demands", "ticks", "pair")
    values, text = table.values, partial(_text, table.values, fault=table.fault)
    name = model.checked_name(values.get("name", MISSING), table.fault)
    title, about = text("title"), text("text", default="")
    tasks = _read(model.TaskSet.read, folder / text("tasks"), table)
    machine = _read(model.Machine.read, folder / text("machine"), table)
    demands = None
    if "demands" in values:
        demands = _read(lambda path: model.Demands.read(path, tasks), folder / text("demands"), table)
    ticks = model.checked_number("ticks", values.get("ticks", MISSING), table.fault)
    pairs = tuple(_pairs(table))
    _check_different("pairs", [pair.name for pair in pairs], table.fault)
    return LessonExample(name, title, about, tasks, machine, demands, ticks, pairs)


def _read(read: Callable[[Path], T], path: Path, table: model.Table) -> T:
    """What is in a file; a refusal has its name and the place of the example."""
    try:
        return read(path)
    except (Refused, OSError) as fault:
        reason = fault.strerror if isinstance(fault, OSError) else fault
        raise table.fault(f"{path}: {reason}") from None


def _pairs(table: model.Table) -> Iterator[LessonPair]:
    found = table.values.get("pair", [])
    if not isinstance(found, list) or not all(isinstance(entry, dict) for entry in found):
        raise table.fault("wrong kind of pair")
    if not found:
        raise table.fault("no pairs")
    for place, entry in enumerate(found, 1):
        try:
            yield _pair(entry)
        except BadValue as fault:
            raise table.fault(f"pair {place}: {fault.reason}") from None


def _pair(entry: Mapping[str, Any]) -> LessonPair:
    if others := entry.keys() - {"scheduler", "governor", "text", "missed"}:
        raise BadValue(f"unknown key {min(others)}")
    words = [_text(entry, key, BadValue) for key in ("scheduler", "governor")]
    missed = _text(entry, "missed", BadValue, "stop")
    if missed not in ("stop", "drop"):
        raise BadValue(f"missed is stop or drop, not {missed}")
    return LessonPair(model.pair_of(*words), _text(entry, "text", BadValue, ""), missed)


# Runs

def run_of(example: LessonExample, chosen: LessonPair, engine: Engine) -> tuple[str, str]:
    """The text of a run's trace, and a note if it is the package's; raises EngineError and Refused."""
    files, (scheduler, governor) = (example.tasks, example.machine), chosen.pair
    own = partial(simulate, *files, scheduler, example.ticks, governor, example.demands, missed=chosen.missed)
    call = run_call(*files, scheduler, governor, example.ticks, example.demands)
    return data.run_text(engine, call, None if chosen.missed == "stop" else own)


def lesson_data(lesson: Lesson, engine: Engine) -> dict[str, object]:
    """The data of a lesson's page, with all runs; raises EngineError, TraceFault, and FileRefused with the place."""
    return {"lesson": {
        "title": lesson.title, "text": lesson.text,
        "examples": [example_data(example, place, engine) for place, example in enumerate(lesson.examples, 1)]}}


def example_data(example: LessonExample, place: int, engine: Engine) -> dict[str, object]:
    """The data of an example: of a page without sheets, the sheet of each pair, and where each two of them part.

    Raises as `lesson_data`; `place` is that of the example.
    """
    pages, traces = list[dict[str, Any]](), list[Trace]()
    shown = data.Shown(example.tasks, example.machine, example.demands, MOST_LESSON_TEXT)
    for number, chosen in enumerate(example.pairs, 1):
        try:
            text, note = run_of(example, chosen, engine)
            pages.append(data.page_data({"": text}, shown, {"": note}))
        except Refused as fault:  # a refusal of a run has its place in the lesson
            raise FileRefused("lesson", f"pair {number}: {fault}", place) from None
        traces.append(Trace.parse(text))
    return {
        "name": example.name, "title": example.title, "text": example.text,
        "pairs": [{"name": chosen.name, "title": " ".join(chosen.pair), "text": chosen.text}
                  for chosen in example.pairs],
        "page": {key: value for key, value in pages[0].items() if key not in ("sheets", "apart")},
        "sheets": [page["sheets"][0] for page in pages],
        "apart": {f"{one} {two}": data.apart(traces[one], traces[two])
                  for one, two in permutations(range(len(traces)), 2)},
    }
