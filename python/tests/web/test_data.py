"""The page of a trace: its data, what is safe in it, its explanations, and the command."""

import base64
import hashlib
import html.parser
import json
import re
import zlib
from collections.abc import Callable
from dataclasses import replace
from fractions import Fraction
from pathlib import Path
from typing import Any

import pytest
from hypothesis import given
from hypothesis import strategies as st

from rtdvs.errors import WrongTrace
from rtdvs.model import Machine, Point, Task, TaskSet
from rtdvs.rules import Walk, explain, simulate
from rtdvs.trace import TaskEnergy, Trace
from rtdvs.web import (
    SCRIPTS, Shown, apart, boards_of, chunks, first_window, in_one_file, mark_pieces, modules, page_data, residency,
    safe_json, with_data,
)
from tests.shared.examples import (
    BOARD, DATA, MINE, PAPER, SHORT, WORKED, Captured, explained, files, options, path_id, printed, refusal,
    version_1,
)

HOSTILE = '</script><img src=x onerror="document.title=1">&<!--'
WORDS = options(DATA / "paper")


class Reader(html.parser.HTMLParser):
    """The elements of a page, with their attributes, and what is in its scripts and styles."""

    def __init__(self, page: str) -> None:
        super().__init__()
        self.elements: list[tuple[str, dict[str, str | None]]] = []
        self.texts: dict[str, str] = {}
        self.feed(page)

    def handle_starttag(self, tag: str, attrs: list[tuple[str, str | None]]) -> None:
        self.elements.append((tag, dict(attrs)))

    def handle_data(self, data: str) -> None:
        tag, attributes = self.elements[-1] if self.elements else ("", {})
        if self.cdata_elem:
            name = str(attributes.get("id") or tag)
            self.texts[name] = self.texts.get(name, "") + data


def unpacked(packed: str) -> str:
    return zlib.decompress(base64.b64decode(packed)).decode()


def data_of(page: str) -> Any:
    """The data of a page, whose texts are still packed."""
    return json.loads(Reader(page).texts["data"])


def sheet_of(text: str, shown: Shown) -> Any:
    """The data of a page's only sheet."""
    (sheet,) = json.loads(json.dumps(page_data({"": text}, shown)))["sheets"]
    return sheet


def moment(time: int | str, speed: int) -> str:
    """A time of a page as a position of a trace, at a speed.

    >>> moment("2 2/3", 3), moment("1/2", 4), moment(9, 4)
    ('2:2', '0:2', '9:0')
    """
    exact = sum(map(Fraction, str(time).split()))
    return f"{exact // 1}:{exact % 1 * speed}"


def lines_of(pieces: list[dict[str, Any]], tasks: TaskSet) -> list[str]:
    """The lines of the trace that marks are of, sorted; energies of idle time and of a run aren't in marks."""
    jobs = [row for piece in pieces for row in piece["jobs"]]
    names = [f"{tasks[row[0]].name} {row[1]}" for row in jobs]
    found = [f"release {row[2]} {name}" for row, name in zip(jobs, names)]
    found += [f"done {moment(row[4], row[9])} {name} {row[7]}" for row, name in zip(jobs, names) if row[4] is not None]
    for piece in pieces:
        found += [f"speed {tick} {speed} {demand}" for tick, speed, demand, _ in piece["decisions"]]
        found += [f"run {moment(begin, speed)} {moment(end, speed)} {names[job]} {units}"
                  for job, begin, end, speed, units in piece["runs"]]
        found += [f"idle {moment(begin, speed)} {moment(end, speed)} {units}"
                  for begin, end, speed, units in piece["idles"]]
    return sorted(found)


# The data

@pytest.mark.parametrize("path", SHORT, ids=path_id)
def test_all_of_a_trace_is_in_the_page(path: Path) -> None:
    """Each line but the head, the energies and the end; the explanations as `explain` gives them; the ticks."""
    tasks, machine, named = files(path.parent.name)
    demands = named if "with_demands" in path.stem else None
    text = path.read_text()
    boards = explained(tasks, machine, demands, text)
    sheet = sheet_of(text, Shown(tasks, machine, demands))
    assert lines_of([json.loads(unpacked(piece)) for piece in sheet["pieces"]], tasks) == sorted(
        line.rpartition(" ")[0] if line.startswith(("run", "idle")) else line for line in text.splitlines()
        if line.split()[0] in ("release", "run", "idle", "done", "speed"))
    assert [board for chunk in sheet["boards"] for board in json.loads(unpacked(chunk["text"]))] == boards
    assert sheet["left"] == "" and sheet["ticks"] == Trace.parse(text).ticks


def test_explanations_up_to_a_limit() -> None:
    text = WORKED.read_text()
    walk = Walk(PAPER, BOARD, text.splitlines(keepends=True))
    boards, whole = boards_of(walk, 10**6)
    assert whole and len(boards) == 8
    some, whole = boards_of(walk, len(boards[0]) + len(boards[1]))
    assert some == boards[:2] and not whole
    sheet = sheet_of(text, Shown(PAPER, BOARD, most=0))
    assert sheet["boards"] == [] and "explain" in sheet["left"]


def test_a_governor_without_rules() -> None:
    trace = simulate(PAPER, BOARD, "edf", 16, lambda state: state.plan.static)
    sheet = sheet_of(trace.text(), Shown(PAPER, BOARD))
    assert sheet["boards"] == [] and "none of the rules" in sheet["left"]


def test_version_1_and_worst_cases_with_the_charge() -> None:
    tasks, machine = TaskSet((Task("a", 4, 2),)), Machine((Point(2, 1000),), charge=1)
    text = version_1(simulate(tasks, machine, "edf", 8, lambda state: (2, 1), name="none").text())
    data = page_data({"": text}, Shown(tasks, machine))
    assert data["tasks"] == [{"name": "a", "period": 4, "worst": "4"}]


@pytest.mark.parametrize("size", [1, 7, 4000])
def test_marks_in_pieces(size: int) -> None:
    """They are those of one piece, in the same order."""
    trace = Trace.parse(WORKED.read_text())
    (whole,), found = mark_pieces(trace, PAPER), [*mark_pieces(trace, PAPER, size)]
    assert {kind: [row for piece in found for row in piece[kind]] for kind in whole} == whole
    assert all(sum(map(len, piece.values())) == size for piece in found[:-1])


def test_jobs_have_their_facts() -> None:
    """By hand: t1's second job has 4 units from 8 on at speed 3, for 4 * 4000 * 4000 * 1000; 16 - 9 1/3 is 6 2/3."""
    (piece,) = mark_pieces(Trace.parse(WORKED.read_text()), PAPER)
    assert [0, 2, 8, 16, "9 1/3", "1 1/3", "6 2/3", 4, "64000000000", 3, 0] in piece["jobs"]


@given(st.lists(st.text(max_size=9), max_size=20), st.integers(1, 30))
def test_chunks_are_all_explanations(boards: list[str], size: int) -> None:
    found = [(chunk["first"], json.loads(unpacked(str(chunk["text"])))) for chunk in chunks(boards, size)]
    assert [board for _, part in found for board in part] == boards
    assert all(boards[first] == part[0] for first, part in found if isinstance(first, int))


def test_residency() -> None:
    rows = residency(Trace.parse(WORKED.read_text()))
    assert rows == [("2", "10", "0.6250"), ("3", "6", "0.3750"), ("idle", "4.6667", "0.2917")]


PARTED = [
    pytest.param("edf_la_with_demands", 3, "t2 1 at speed 3, and t2 1 at speed 2", "0 on: 836/280 and 21/8", id="la"),
    pytest.param("edf_static_with_demands", 4, "t3 1 at speed 2, and t3 1 at speed 3", "3 on: 696/280 and 836/280",
                 id="static"),
]


@pytest.mark.parametrize(("name", "tick", "does", "demands"), PARTED)
def test_where_schedules_part(name: str, tick: int, does: str, demands: str) -> None:
    """By the lines of the traces: the speeds at that tick, and the first `speed` lines that differ."""
    one, two = (Trace.parse((DATA / "paper" / f"{each}.trace").read_text()) for each in (WORKED.stem, name))
    assert apart(one, two) == {"tick": tick, "parts": True, "text":
                               f"The schedules part at tick {tick}: {does}. "
                               f"The published demands differ from tick {demands}."}


def test_a_demand_that_is_published_again_is_no_other() -> None:
    """EDF at full speed decides at other ticks than RM, and asks for 4/1 at each: only the schedules differ."""
    tasks, machine = TaskSet((Task("a", 4, 8), Task("b", 5, 9))), Machine((Point(4, 5000),))
    one, two = (simulate(tasks, machine, scheduler, 20, "none", missed="drop") for scheduler in ("edf", "rm"))
    assert [each.tick for each in one.decisions] != [each.tick for each in two.decisions]
    assert "demands" not in str(apart(one, two)["text"])


def test_schedules_that_never_part() -> None:
    """Other demands, and the energy of a task, make no other schedule."""
    trace = Trace.parse(MINE)
    other = replace(trace, notes=tuple(replace(note, energy=31001) if isinstance(note, TaskEnergy) else note
                                       for note in trace.notes))
    assert apart(trace, other) == {"tick": 0, "parts": False, "text": "The schedules are the same."}


@pytest.mark.parametrize(("tasks", "last"), [pytest.param(1, 230, id="a task"), pytest.param(2, 130, id="two tasks")])
def test_first_window_has_20_jobs_and_3_of_each_task(tasks: int, last: int) -> None:
    """They come in each tenth tick: 23 of one task before tick 230, 26 of two before 130."""
    ten = TaskSet(tuple(Task(f"t{place}", 10, 1) for place in range(tasks)))
    assert first_window({"": simulate(ten, Machine((Point(1, 1),)), "edf", 1000, "none")}, tasks) == last


def test_first_window() -> None:
    short = Trace.parse(WORKED.read_text())
    long = simulate(PAPER, BOARD, "edf", 1000, lambda state: state.plan.static)
    assert first_window({"": short}, 3) == 16
    assert 80 <= first_window({"": long}, 3) <= 120


# The document

@given(st.text())
def test_json_is_no_markup(text: str) -> None:
    found = safe_json({"text": text})
    assert json.loads(found) == {"text": text} and not re.search("[<>&\u2028\u2029]", found)


@pytest.mark.parametrize("whole", [in_one_file, with_data])
def test_hostile_text_stays_text(whole: Callable[[object], str]) -> None:
    """The elements are those of the page without any data, for any data."""
    page, empty = Reader(whole({"name": HOSTILE})), Reader(whole({}))
    assert page.elements == empty.elements
    assert json.loads(page.texts["data"]) == {"name": HOSTILE}


def test_policy_allows_this_script_and_style_only() -> None:
    page = Reader(in_one_file({}))
    policy = next(each["content"] for tag, each in page.elements if "http-equiv" in each)
    for name in ("script", "style"):
        digest = base64.b64encode(hashlib.sha256(page.texts[name].encode()).digest()).decode()
        assert f"{name}-src 'sha256-{digest}'" in str(policy)
    assert "default-src 'none'" in str(policy)


def test_one_file_needs_no_other() -> None:
    page = in_one_file({})
    used = [each for _, attributes in Reader(page).elements for each in ("src", "href") if attributes.get(each)]
    assert used == ["href"] and 'id="address" href="#"' in page


WEB = Path(in_one_file.__code__.co_filename).parent / "static"
TOGETHER = 1500
"""Lines of all files. They were 900 before undo, two governors, saved pictures, marks by keyboard,
refused links and lessons."""


def test_web_files_are_short() -> None:
    """Each has at most 400 lines, and each function of the modules has a comment before it."""
    texts = {path.name: path.read_text() for path in WEB.iterdir()}
    assert sorted(texts) == sorted(["page.css", "page.html", *SCRIPTS])
    assert max(text.count("\n") for text in texts.values()) <= 400
    assert sum(text.count("\n") for text in texts.values()) <= TOGETHER
    for name in SCRIPTS:
        script = texts[name].splitlines()
        bare = [line for before, line in zip(script, script[1:])
                if re.match(r"(export )?(async )?function", line) and not before.endswith("*/")]
        assert bare == [] and "innerHTML" not in texts[name] and "outerHTML" not in texts[name]


def test_modules_are_in_order() -> None:
    """Each imports by one line each, from modules before it, and no two have one name at the top."""
    seen: set[str] = set()
    names: list[str] = []
    for name in SCRIPTS:
        text = (WEB / name).read_text()
        assert set(re.findall(r'from "\./(.*)";', text)) <= seen
        whole = re.findall(r"^import \{[^{}\n]*\} from \"[^\"\n]*\";$", text, re.MULTILINE)
        assert text.count("import ") == len(whole)
        names += re.findall(r"^(?:export )?(?:async )?(?:function\*? |const |let )(\w+)", text, re.MULTILINE)
        seen.add(name)
    assert sorted(names) == sorted(set(names))


def test_modules_measure_nothing_in_a_frame() -> None:
    """What draws reads no box of an element: widths come from an observer."""
    drawing = (WEB / "picture.js").read_text()
    view = (WEB / "view.js").read_text()
    frame = view[view.index("export function drawAll"):view.index("/** Lists the jobs")]
    for word in ("getBoundingClientRect", "clientWidth", "offsetWidth", "getComputedStyle", "innerHeight", "performa"):
        assert word not in drawing and word not in frame


def test_modules_leave_no_words_of_modules() -> None:
    assert not re.search("^(import|export) ", modules(), re.MULTILINE)


# The command

def test_page_of_one_trace(capsys: Captured) -> None:
    data = data_of(printed(capsys, ["page", WORKED, *options(DATA / "paper", "demands")]))
    (sheet,) = data["sheets"]
    assert sheet["title"] == "edf cc, 16 ticks"
    assert str(sheet["energy"]).startswith("energy 364000000000: 364000000000 running, 0 idle, ")


def test_page_of_two_traces(capsys: Captured) -> None:
    other = WORKED.with_name("edf_la_with_demands.trace")
    data = data_of(printed(capsys, ["page", WORKED, other, *WORDS]))
    assert [sheet["title"] for sheet in data["sheets"]] == ["A: edf cc, 16 ticks", "B: edf la, 16 ticks"]
    assert data["apart"]["tick"] == 3


def test_page_of_three_traces(capsys: Captured) -> None:
    assert refusal(capsys, ["page", *[WORKED] * 3, *WORDS]) == "rtdvs: 3 traces, at most 2\n"


def test_page_of_a_wrong_trace(tmp_path: Path, capsys: Captured) -> None:
    """The line is that of `explain`, and no page is begun."""
    wrong, page = tmp_path / "wrong.trace", tmp_path / "page.html"
    wrong.write_text(WORKED.read_text().replace("done 4:0 t2 1 4", "done 5:0 t2 1 4"))
    with pytest.raises(WrongTrace) as fault:
        explain(Walk(PAPER, BOARD, wrong.read_text().splitlines(keepends=True)))
    assert refusal(capsys, ["page", wrong, *WORDS, "--output", page], 1) == f"{fault.value}\n" and not page.exists()
