"""What the server answers to an example: its run, its comparison, or a refusal with its field and its meaning."""

import sys
import traceback
from collections.abc import Callable, Mapping
from contextlib import suppress
from functools import partial
from http import HTTPStatus

from rtdvs import _numbers, errors
from rtdvs.engine import Engine, is_stopped
from rtdvs.hints import second_line
from rtdvs.rules import simulate
from rtdvs.studies import HEADING, cells, compare
from rtdvs.trace import Trace
from rtdvs.web.data import Shown, page_data, run_text
from rtdvs.web.example import Example, field_of

MOST_JOBS = 10_000      # of a run
MOST_SERVED_TEXT = 2    # mebibytes of explanations
LONGEST_LINE = 300      # characters of a fault of the server
Found = dict[str, object]
"""An answer, which is sent as JSON."""


def run_answer(example: Example, engine: Engine) -> Found:
    """The page's data of a run, or of two, and the files; raises EngineError and Refused."""
    texts, notes = dict[str, str](), dict[str, str]()
    for label, pair in example.pairs().items():
        own = partial(own_run, example, pair) if example.single["admission"] == "none" else None
        texts[label], notes[label] = run_text(engine, example.call(pair), own)
    if is_stopped():
        return {}
    data = page_data(texts, Shown(*example.parsed(), MOST_SERVED_TEXT), notes)
    return {"data": data, "files": {**example.files(), "trace": next(iter(texts.values()))}}


def own_run(example: Example, pair: tuple[str, str]) -> Trace:
    """The package's run of a set that isn't admitted, whose jobs are given up at their deadlines; raises Refused."""
    tasks, machine, demands = example.parsed()
    scheduler, governor = pair
    ticks = _numbers.whole(example.single["ticks"], 1)
    return simulate(tasks, machine, scheduler, ticks, governor, demands, missed="drop")


def compare_answer(example: Example, engine: Engine) -> Found:
    """The rows of all pairs; raises EngineError and Refused."""
    rows = compare(engine, *example.parsed()[:2], _numbers.whole(example.single["ticks"], 1), example.parsed()[2])
    heading = [*HEADING, *(f"at_{speed}" for speed in rows.speeds())]
    return {"heading": [name.replace("_", " ") for name in heading],
            "rows": [cells(row, rows.speeds()) for row in rows], "files": example.files()}


ANSWERS: Mapping[str, Callable[[Example, Engine], Found]] = {"/run": run_answer, "/compare": compare_answer}


def answer_of(path: str, example: Example, engine: Engine) -> tuple[HTTPStatus, Found]:
    """The status and the answer to what a page asks for. A fault of the program or of ours is also printed."""
    try:
        if example.jobs() > MOST_JOBS:
            raise errors.TooManyJobs(example.jobs(), MOST_JOBS)
        return HTTPStatus.OK, ANSWERS[path](example, engine)
    except errors.SystemFault as fault:
        return HTTPStatus.INTERNAL_SERVER_ERROR, failed(fault)
    except (errors.LoadFailed, errors.Differs, errors.EngineError) as fault:
        return HTTPStatus.BAD_GATEWAY, failed(fault)
    except errors.Refused as fault:
        return HTTPStatus.OK, refusal(fault, example)
    except Exception as fault:
        return HTTPStatus.INTERNAL_SERVER_ERROR, failed(fault)


def refusal(fault: errors.Refused, example: Example) -> Found:
    """A refusal with its field, what is wrong in the fields, and after a denial the offer of the package's run."""
    files = example.files()
    found: Found = {"refused": str(fault), "field": field_of(fault, example), "files": files,
                    "meaning": second_line(fault, files=files)}
    return found | {"offer": True} if isinstance(fault, errors.Denied) else found


def failed(fault: Exception) -> Found:
    """The answer of a fault of the program or of ours, which is printed on standard error.

    It isn't if the call was ended from outside: then that is why the program has no answer.
    """
    line = said(fault)
    with suppress(OSError):
        if is_stopped():
            return {}
        print(f"rtdvs: serve: {line}", file=sys.stderr, flush=True)
        if not isinstance(fault, (errors.RtdvsError, OSError, MemoryError)):
            traceback.print_exception(fault, file=sys.stderr)
    return {"refused": line, "field": ""}


def said(fault: Exception) -> str:
    """A fault in one line.

    >>> said(KeyError("speed")), said(OSError(28, "No space left on device", "/tmp/a"))
    ("KeyError: 'speed'", '/tmp/a: No space left on device')
    """
    if isinstance(fault, OSError) and fault.strerror:
        return f"{fault.filename or 'the system'}: {fault.strerror}"
    if isinstance(fault, errors.RtdvsError):
        return str(fault).replace("\n", "; ") or type(fault).__name__
    return f"{type(fault).__name__}: {fault}".replace("\n", "; ")[:LONGEST_LINE]
