"""A page with one or two traces of a task set: its data, and the document.

All jobs, runs and decisions are in it, compressed. Explanations are in it up to some mebibytes of text for each
trace; the page says where they end. A trace of a governor that isn't one of docs/RULES.md is checked as by
`explain --any`, and has no explanations.
"""

import base64
import hashlib
import json
import re
import zlib
from collections.abc import Callable, Iterator, Mapping, Sequence
from dataclasses import dataclass, replace
from fractions import Fraction
from itertools import groupby, islice
from operator import itemgetter
from pathlib import Path

from rtdvs.board import Units
from rtdvs.engine import Call, Engine
from rtdvs.errors import Denied
from rtdvs.model import Demands, Machine, TaskSet
from rtdvs.rules import GOVERNORS, Walk, explain
from rtdvs.trace import Idle, Release, Run, Trace, split_governor
from rtdvs.web import marks, measures

WEB = Path(__file__).parent / "static"
MEBIBYTE = 2**20
MOST_TEXT = 8       # mebibytes of explanations of a trace, unless said otherwise
CHUNK = 2**17       # characters that are compressed together
SCRIPTS = ("trace.js", "picture.js", "save.js", "view.js", "lesson.js", "editor.js", "page.js")
"""The modules of the page, each after those that it imports from; the last one starts the page."""
FIRST_JOBS = 20     # jobs in the window of a page that is opened, and three more for each task
NO_RULE = "The governor is none of the rules, so there is no explanation."
LEFT_OUT = ("The page has the explanations up to here; `python3 -m rtdvs explain` prints all. "
            "Lines after this one are not checked.")
DATA = re.compile(r'(<script id="data" type="application/json">)\{\}(</script>)')


@dataclass(frozen=True, slots=True)
class Shown:
    """What a page is of: the files, and the most mebibytes of explanations of each trace.

    With a `note` a trace is of a set that isn't admitted, whose jobs are given up at their deadlines; the page
    has the note. With `units` of a board it has milliseconds beside ticks, and joules.
    """

    tasks: TaskSet
    machine: Machine
    demands: Demands | None = None
    most: int = MOST_TEXT
    note: str = ""
    units: Units | None = None


def run_text(engine: Engine, call: Call[object], own: Callable[[], Trace] | None) -> tuple[str, str]:
    """The text of the program's run; of a set that it denies that of the package's own, and a note that says so.

    Raises EngineError and Refused; also Denied if there is no own run.
    """
    try:
        return engine.answer(call).text(), ""
    except Denied as denied:
        if own is None:
            raise
        return own().text(), (f"This run is the package's, not the program's, which says: {denied}. A job that isn't "
                              "complete at its deadline is given up there.")


# The data of a page


def pack(text: str) -> str:
    """A text compressed by zlib, in base64.

    >>> zlib.decompress(base64.b64decode(pack("release 0 t1 1")))
    b'release 0 t1 1'
    """
    return base64.b64encode(zlib.compress(text.encode())).decode()


def boards_of(walk: Walk, most: int) -> tuple[list[str], bool]:
    """The explanations of a trace's decisions, and whether all of them are within that many characters.

    Raises WrongTrace for the first wrong line before the last explanation.
    """
    boards, left = list[str](), most

    def keep(board: str) -> bool:
        nonlocal left
        left -= len(board)
        if left >= 0:
            boards.append(board)
        return left >= 0

    explain(walk, keep)
    return boards, left >= 0


def chunks(boards: Sequence[str], size: int = CHUNK) -> Iterator[dict[str, object]]:
    """Explanations in packed lists of about that many characters, each with the place of its first one.

    >>> [chunk["first"] for chunk in chunks(["a" * 5, "b" * 5, "c"], size=8)]
    [0, 2]
    """
    first = length = 0
    for place, board in enumerate(boards, 1):
        length += len(board)
        if length >= size or place == len(boards):
            yield {"first": first, "text": pack(json.dumps(boards[first:place]))}
            first, length = place, 0


def sheet(text: str, trace: Trace, shown: Shown, label: str) -> dict[str, object]:
    """What the page has of a trace and its text; raises TraceFault, WrongTrace and Denied."""
    pair, units = f"{trace.scheduler} {trace.governor}", shown.units
    head = f"{label}: {pair}" if label else pair
    boards, left = explanations(text, trace, shown)
    trace.belongs_to(shown.tasks, shown.machine)  # also what no explanation has checked
    pieces = marks.mark_pieces(trace, shown.tasks, energy=measures.job_energy(trace, units))
    return {
        "label": label or pair,
        "title": f"{head}, {measures.length_text(trace.ticks, units)}{', not admitted' if shown.note else ''}",
        "note": shown.note,
        "energy": measures.energy_text(trace, units),
        "ticks": trace.ticks,
        "pieces": [pack(json.dumps(piece, separators=(",", ":"))) for piece in pieces],
        "boards": [*chunks(boards)],
        "left": left,
        "tables": measures.trace_tables(label or pair, trace, shown.tasks, units),
    }


def explanations(text: str, trace: Trace, shown: Shown) -> tuple[list[str], str]:
    """The explanations of a trace's decisions, and what is said where one is missing; raises as `sheet`."""
    known = (trace.scheduler, split_governor(trace.governor)[0]) in GOVERNORS
    walk = Walk(shown.tasks, shown.machine, text.splitlines(keepends=True), shown.demands, not known)
    boards, whole = boards_of(walk, shown.most * MEBIBYTE)
    return boards, NO_RULE if not known else LEFT_OUT if not whole else ""


def segments(trace: Trace) -> Iterator[tuple[Fraction, Fraction, str]]:
    """Begin, end and words of each stretch of a schedule: who runs at which speed. Neighbours that are alike are one.

    >>> from rtdvs.trace import SAMPLE
    >>> [words for _, _, words in segments(Trace.parse(SAMPLE))]
    ['t 1 at speed 3', 't 1 at speed 2', 'idle at speed 2']
    """
    begin = Fraction(0)
    pieces = ((f"{note.task} {note.job}" if isinstance(note, Run) else "idle", speed, note.end)
              for note, speed in trace.at_speeds() if isinstance(note, Run | Idle))
    for (who, speed), alike in groupby(pieces, itemgetter(0, 1)):
        *_, (_, _, last) = alike
        end = last.time(speed)
        yield begin, end, f"{who} at speed {speed}"
        begin = end


def parting(first: Trace, second: Trace) -> tuple[Fraction, str, str] | None:
    """The first time at which two schedules differ, and what each does then; None if they never do.

    >>> from rtdvs.trace import SAMPLE
    >>> one, two = (Trace.parse(text) for text in (SAMPLE, SAMPLE.replace("run 1:0 1:1 t 1 1", "run 1:0 2:0 t 1 2")))
    >>> parting(one, one) is None, parting(one, two)
    (True, (Fraction(3, 2), 'idle at speed 2', 't 1 at speed 2'))
    """
    for one, two in zip(segments(first), segments(second), strict=False):
        if one != two:
            time = one[0] if one[2] != two[2] else min(one[1], two[1])
            does = [next((words for _, end, words in segments(trace) if end > time), "nothing")
                    for trace in (first, second)]
            return time, does[0], does[1]
    return None


def apart(first: Trace, second: Trace, units: Units | None = None) -> dict[str, object]:
    """Where two schedules part: the tick, and a sentence; the first demands that differ are a sentence of their own.

    >>> from rtdvs.trace import SAMPLE
    >>> one, two = (Trace.parse(text) for text in (SAMPLE, SAMPLE.replace("run 1:0 1:1 t 1 1", "run 1:0 2:0 t 1 2")))
    >>> apart(one, two)["tick"], apart(one, two)["text"]
    (1, 'The schedules part at tick 1 1/2: idle at speed 2, and t 1 at speed 2.')
    >>> apart(one, one)
    {'tick': 0, 'parts': False, 'text': 'The schedules are the same.'}
    """
    found = parting(first, second)
    text = "The schedules are the same."
    if found:
        text = f"The schedules part at tick {measures.tick_text(found[0], units)}: {found[1]}, and {found[2]}."
    if differ := other_demands(first, second):
        tick, *asked = differ
        text += f" The published demands differ from tick {measures.tick_text(tick, units)} on: {' and '.join(asked)}."
    return {"tick": int(found[0]) if found else 0, "parts": found is not None, "text": text}


def other_demands(first: Trace, second: Trace) -> tuple[int, str, str] | None:
    """The first tick from which two traces publish different demands, and both; None if there is none.

    A decision that publishes the demand in force again changes nothing.

    >>> from rtdvs.trace import SAMPLE
    >>> one, two, same = (Trace.parse(SAMPLE.replace("2 2/1", demand)) for demand in ("2 2/1", "2 3/2", "2 4/2"))
    >>> other_demands(one, two), other_demands(one, same)
    ((1, '2/1', '3/2'), None)
    """
    at = [{each.tick: each for each in trace.decisions} for trace in (first, second)]
    one = two = None
    for tick in sorted({*at[0], *at[1]}):
        one, two = at[0].get(tick, one), at[1].get(tick, two)
        if one and two and one.num * two.den != two.num * one.den:
            return tick, f"{one.num}/{one.den}", f"{two.num}/{two.den}"
    return None


def first_window(traces: Mapping[str, Trace], tasks: int) -> int:
    """The ticks that a page shows first: all of them, or those up to some job."""
    releases = (note.tick for note in next(iter(traces.values())).notes if isinstance(note, Release))
    ticks = max(trace.ticks for trace in traces.values())
    return max(min(next(islice(releases, FIRST_JOBS + 3 * tasks, None), ticks), ticks), 1)


def page_data(texts: Mapping[str, str], shown: Shown, notes: Mapping[str, str] = {}) -> dict[str, object]:
    """The data of a page of traces, by their labels, some with a note; raises TraceFault, WrongTrace and Denied."""
    charge, traces = 2 * shown.machine.charge, {label: Trace.parse(text) for label, text in texts.items()}
    first, *others = traces.values()
    return {
        "tasks": [{"name": task.name, "period": task.period, "worst": str(task.worst + charge)}
                  for task in shown.tasks],
        "question": measures.question_tables(shown.tasks, shown.machine, shown.demands, shown.units),
        "board": measures.factors(shown.units),
        "top": shown.machine.top_speed,
        "window": first_window(traces, len(shown.tasks)),
        "sheets": [sheet(texts[label], trace, replace(shown, note=notes.get(label, "")), label)
                   for label, trace in traces.items()],
        "apart": apart(first, others[0], shown.units) if others else None,
    }


# The document


def safe_json(data: object) -> str:
    r"""JSON that can be put into a page: it has no character that markup begins or ends with.

    >>> safe_json("</script>")
    '"\\u003c/script\\u003e"'
    """
    text = json.dumps(data, separators=(",", ":"))
    return re.sub("[<>&]", lambda found: f"\\u{ord(found[0]):04x}", text)


def with_data(data: object) -> str:
    """The package's page with some data, and with its style and its script as files beside it."""
    page = (WEB / "page.html").read_text(encoding="utf-8")
    return DATA.sub(lambda found: found[1] + safe_json(data) + found[2], page)


def modules() -> str:
    """The page's modules as one: in their order, without the words that import and export.

    >>> [line for line in modules().splitlines() if line.startswith(("import ", "export "))]
    []
    """
    texts = ((WEB / name).read_text(encoding="utf-8") for name in SCRIPTS)
    return "\n".join(re.sub("^export ", "", re.sub("^import .*\n", "", text, flags=re.M), flags=re.M) for text in texts)


def in_one_file(data: object) -> str:
    """The page with some data, its style and its script, and a policy that allows only these."""
    style, script = f"\n{(WEB / 'page.css').read_text(encoding='utf-8')}", f"\n{modules()}"
    policy = (f"default-src 'none'; style-src {_hash(style)}; script-src {_hash(script)}; base-uri 'none'; "
              "form-action 'none'")
    head = f'<meta http-equiv="Content-Security-Policy" content="{policy}">\n<style>{style}</style>'
    page = with_data(data).replace('<link rel="stylesheet" href="page.css">', head)
    return page.replace('<script type="module" src="page.js"></script>', f'<script type="module">{script}</script>')


def _hash(text: str) -> str:
    """A text's hash, as a policy has it."""
    return f"'sha256-{base64.b64encode(hashlib.sha256(text.encode()).digest()).decode()}'"
