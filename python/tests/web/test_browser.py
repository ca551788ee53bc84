"""The page in Chromium, headless: clicks, keys, zoom, and how fast it is on a run of 100,000 jobs."""

import os
from importlib import import_module
from pathlib import Path

import pytest

from rtdvs.engine import Engine
from rtdvs.model import Demands, Task, TaskSet
from rtdvs.rules import simulate
from rtdvs.web import Shown, in_one_file, page_data
from tests.shared.browsing import (
    ALL_READ, CLICK, MOVES, TOUCH, Browser, assert_board, opened, paper, press, refused, shows, text, until, write,
)
from tests.shared.examples import BOARD, PAPER, explained, files

# A page without a network

@pytest.mark.parametrize("name", ["edf_cc_with_demands", "edf_la_with_demands", "rm_cc_with_demands"])
def test_click_opens_what_explain_prints(browser: Browser, tmp_path: Path, name: str) -> None:
    (boards,) = paper(browser, tmp_path, name)
    for place, board in enumerate(boards):
        browser.execute_script(CLICK, "decision", place)
        assert_board(browser, board)


@pytest.mark.parametrize(("kind", "place", "subject", "facts", "board"), [
    ("done", 0, "t1 job 1 is complete at 2 2/3 with 8 of 12 units",
     "job t1 1;release 0;deadline 8;completion 2 2/3;response 2 2/3;laxity 5 1/3;units 8 of 12;energy 128000000000", 0),
    ("run", 2, "t2 job 1 runs from 2 2/3 to 3 at speed 3: 1 unit",
     "job t2 1;release 0;deadline 10;completion 4;response 4;laxity 6;units 4 of 12;energy 64000000000", 0),
    ("release", 1, "t1 job 2 is released at 8, due at 16",
     "job t1 2;release 8;deadline 16;completion 9 1/3;response 1 1/3;laxity 6 2/3;units 4 of 12;energy 64000000000", 4),
], ids=["done", "run", "release"])
def test_click_opens_the_job(browser: Browser, tmp_path: Path, kind: str, place: int, subject: str, facts: str,
                             board: int) -> None:
    """Its times, exactly, and the decision in force."""
    (boards,) = paper(browser, tmp_path, "edf_cc_with_demands")
    browser.execute_script(CLICK, kind, place)
    assert text(browser, "#subject").endswith(subject)
    found = browser.execute_script("return [...document.querySelectorAll('#facts div')].map("
                                   "(each) => [...each.children].map((one) => one.textContent).join(' ')).join(';')")
    assert found == facts
    assert_board(browser, boards[board])


def test_keys_step_from_decision_to_decision(browser: Browser, tmp_path: Path) -> None:
    (boards,) = paper(browser, tmp_path, "edf_cc_with_demands")
    keys = ["Home", *["ArrowRight"] * 3, *["ArrowLeft"] * 2, "End", "ArrowRight", "ArrowLeft"]
    for key, place in zip(keys, [0, 1, 2, 3, 2, 1, -1, -1, -2], strict=True):
        press(browser, key, "nav")
        assert_board(browser, boards[place])


def test_keys_zoom_and_move(browser: Browser, tmp_path: Path) -> None:
    paper(browser, tmp_path, "edf_cc_with_demands")
    window = "return [schedule.state.from, schedule.state.to]"
    press(browser, "+")
    press(browser, "+")
    first, last = browser.execute_script(window)
    assert 6 < last - first < 8
    press(browser, "ArrowRight", shiftKey=True)
    moved, _ = browser.execute_script(window)
    assert moved > first
    press(browser, "0")
    assert browser.execute_script(window) == [0, 16]


def test_minus_shows_more(browser: Browser, tmp_path: Path) -> None:
    paper(browser, tmp_path, "edf_cc_with_demands")
    span = "return schedule.state.to - schedule.state.from"
    browser.execute_script("schedule.zoom(0.25)")
    assert browser.execute_script(span) == 4
    press(browser, "-")
    assert browser.execute_script(span) == 6
    browser.execute_script("document.querySelector('#out').click()")
    assert browser.execute_script(span) == 9


def test_click_beside_a_bar(browser: Browser, tmp_path: Path) -> None:
    """In the row of t2, after its first run has ended at 4, the next run of t2 is opened: from 10 on."""
    paper(browser, tmp_path, "edf_cc_with_demands")
    browser.execute_script(
        "const svg = document.querySelector('svg.rows'), box = svg.getBoundingClientRect(); "
        "const [left, , right] = svg.querySelector('.floor').getAttribute('d').match(/[0-9.]+/g).map(Number); "
        "svg.dispatchEvent(new MouseEvent('click', { bubbles: true, clientY: box.top + 90, "
        "clientX: box.left + left + 7 * (right - left) / 16 }))")
    assert "t2 job 2 runs from 10 to 12 " in text(browser, "#subject")


def test_drag_and_wheel(browser: Browser, tmp_path: Path) -> None:
    paper(browser, tmp_path, "edf_cc_with_demands")
    actions = import_module("selenium.webdriver").ActionChains(browser)
    picture = browser.find_element("css selector", "#sheets svg.rows")
    browser.execute_script("schedule.zoom(0.25)")
    from_before = browser.execute_script("return schedule.state.from")
    actions.move_to_element(picture).click_and_hold().move_by_offset(-200, 0).release().perform()
    assert browser.execute_script("return schedule.state.from") > from_before
    browser.execute_script("arguments[0].dispatchEvent(new WheelEvent('wheel', "
                           "{ deltaY: -500, ctrlKey: true, clientX: 700, bubbles: true, cancelable: true }))", picture)
    assert browser.execute_script("return schedule.state.to - schedule.state.from") < 4


def test_two_fingers(browser: Browser, tmp_path: Path) -> None:
    """Twice as far apart they show half the ticks."""
    paper(browser, tmp_path, "edf_cc_with_demands")
    browser.execute_script(TOUCH)
    assert browser.execute_script("return schedule.state.to - schedule.state.from") == 8


def test_two_traces(browser: Browser, tmp_path: Path) -> None:
    """Below each other with their energies; the button opens the first decision that differs."""
    boards = paper(browser, tmp_path, "edf_cc_with_demands", "edf_static_with_demands")
    assert len(browser.find_elements("css selector", "#sheets svg.rows")) == 2
    page = text(browser, "body")
    assert "energy 364000000000: " in page and "energy 448000000000: " in page
    assert text(browser, "#apart").startswith(
        "The schedules part at tick 4: t3 1 at speed 2, and t3 1 at speed 3. "
        "The published demands differ from tick 3 on: 696/280 and 836/280.")
    browser.execute_script("document.querySelector('#apart button').click()")
    assert_board(browser, boards[0][2])


def test_marks_have_words(browser: Browser, tmp_path: Path) -> None:
    """Each mark that can be chosen has a title, and each kind another shape than the others."""
    paper(browser, tmp_path, "edf_cc_with_demands")
    marks = browser.execute_script("return [...document.querySelectorAll('#sheets path')].filter((each) => each.mark)"
                                   ".map((each) => [each.mark.kind, each.querySelector('title').textContent, "
                                   "each.getAttribute('d').replace(/[0-9.]+/g, '')])")
    assert all(title for _, title, _ in marks)
    kinds = {kind for kind, _, _ in marks}
    assert kinds == {"run", "release", "deadline", "done", "idle", "decision"}
    shapes = {kind: {shape for other, _, shape in marks if other == kind} for kind in kinds - {"idle"}}
    assert len(set.union(*shapes.values())) == len(shapes)


def test_all_rows_are_drawn(browser: Browser, tmp_path: Path) -> None:
    """Also those that are out of view: a capture of the whole page has all 64."""
    tasks = TaskSet(tuple(Task(f"task_{place}", 100, 1) for place in range(64)))
    trace = simulate(tasks, BOARD, "edf", 100, "cc").text()
    opened(browser, tmp_path, {"": trace}, Shown(tasks, BOARD))
    assert browser.execute_script("return document.querySelectorAll('#sheets .name').length - 1") == 64
    assert browser.execute_script("return document.querySelectorAll('#sheets .row .release').length") == 64


def test_dark_is_dark(browser: Browser, tmp_path: Path) -> None:
    paper(browser, tmp_path, "edf_cc_with_demands")
    colours = []
    for scheme in ("light", "dark"):
        browser.execute_cdp_cmd("Emulation.setEmulatedMedia",
                                {"features": [{"name": "prefers-color-scheme", "value": scheme}]})
        colours.append(browser.execute_script("return getComputedStyle(document.body).backgroundColor"))
    browser.execute_cdp_cmd("Emulation.setEmulatedMedia", {"features": []})
    assert colours[0] == "rgb(255, 255, 255)" != colours[1]


# A long run

FIRST_DRAWN = """new MutationObserver(() => {
  if (!window.firstDrawn && document.querySelector("#sheets .run")) window.firstDrawn = performance.now();
}).observe(document, { childList: true, subtree: true });"""


def processor_time(browser: Browser) -> float:
    """The seconds of processor time that the page's own thread has taken, which a busy machine doesn't change."""
    found = browser.execute_cdp_cmd("Performance.getMetrics", {})["metrics"]
    return float(next(each["value"] for each in found if each["name"] == "TaskDuration"))


def test_100000_jobs(browser: Browser, tmp_path: Path, engine: Engine) -> None:
    """The first ticks are drawn within 2 seconds, and a frame takes less than a 60th of a second of processor time;
    on a busy machine, which shares its caches, both take more. What isn't in the window isn't in the document.
    """
    trace = engine.run(PAPER, BOARD, "edf", "cc", 337_344).text()
    page = tmp_path / "page.html"
    page.write_text(in_one_file(page_data({"": trace}, Shown(PAPER, BOARD, most=1))), encoding="utf-8")
    assert page.stat().st_size < 8 * 2**20
    busy = 1 + os.getloadavg()[0] / (os.cpu_count() or 1)
    browser.execute_cdp_cmd("Performance.enable", {"timeDomain": "threadTicks"})
    watch = browser.execute_cdp_cmd("Page.addScriptToEvaluateOnNewDocument", {"source": FIRST_DRAWN})
    browser.get(page.as_uri())
    browser.execute_cdp_cmd("Page.removeScriptToEvaluateOnNewDocument", watch)
    first = until(browser, "return window.firstDrawn")
    until(browser, ALL_READ)
    read = processor_time(browser)
    assert browser.execute_script("return schedule.state.sheets[0].trace.jobs.length") == 99_999
    found = browser.execute_async_script(MOVES)
    frames, draws = found["frames"], sorted(found["draws"])
    each = (processor_time(browser) - read) / len(frames)
    rate = 1000 * (len(frames) - 1) / (frames[-1] - frames[0])
    elements = browser.execute_script("const { move, state, drawAll } = schedule; move(0, state.ticks); drawAll(); "
                                      "return document.querySelectorAll('*').length")
    print(f"first drawing after {first:.0f} ms; processor time to read all {read:.2f} s, of a frame "
          f"{1000 * each:.1f} ms; a drawing {draws[len(draws) // 2]:.1f} ms, {rate:.0f} frames a second; "
          f"{elements} elements; busy {busy:.1f}")
    assert first < 2000 * busy and each < (1 + busy) / 120 and elements < 2500


# The editor

def test_editor_round_trip(editor: Browser) -> None:
    """A change is drawn, its explanations are those of `explain`, and its files and trace can be taken along."""
    tasks, machine, demands = files("paper")
    write(editor, "governor", "la")
    shows(editor, "edf la, 16 ticks")
    trace = simulate(tasks, machine, "edf", 16, "la", demands).text()
    boards = explained(tasks, machine, demands, trace)
    for board in boards:
        press(editor, *(["ArrowRight"] if board != boards[0] else ["Home", "nav"]))
        assert_board(editor, board)
    found = editor.execute_script("return schedule.filesOfFields()")
    assert found["trace"] == trace and TaskSet.parse(found["tasks"]) == tasks
    assert Demands.parse(found["demands"], tasks) == demands
    print(text(editor, "#status"))


def test_downloads(editor: Browser) -> None:
    editor.execute_script("URL.createObjectURL = (blob) => { window.taken = blob; return '#'; }; "
                          "HTMLAnchorElement.prototype.click = function () { window.name = this.download; }")
    names = {"tasks": "tasks.toml", "machine": "machine.toml", "demands": "demands.csv", "trace": "run.trace"}
    for kind, name in names.items():
        editor.execute_script(f"document.querySelector('[data-file={kind}]').click()")
        content = editor.execute_async_script("taken.text().then(arguments[0])")
        assert content and content == editor.execute_script("return schedule.filesOfFields()[arguments[0]]", kind)
        assert editor.execute_script("return window.name") == name
        assert content.startswith({"tasks": "[[task]]", "machine": "idle", "demands": "task,job,units",
                                   "trace": "trace 2"}[kind])


def test_refusal_at_its_field(editor: Browser) -> None:
    """In the program's words; a right text takes it away, and the picture follows."""
    write(editor, "tasks.1.period", "8 ms")
    refused(editor, "tasks.1.period", "tasks: task 2: wrong kind of period")
    write(editor, "tasks.1.period", "10")
    until(editor, "return !document.querySelector('#refusal')")
    write(editor, "points.2.speed", "3")
    refused(editor, "points.2.speed", "machine: point 3: not rising")
    write(editor, "points.2.speed", "4")
    write(editor, "scheduler", "rm")
    shows(editor, "rm cc, 16 ticks")
    assert not editor.find_elements("css selector", "#refusal")


def test_rows_are_added_and_removed(editor: Browser) -> None:
    editor.execute_script("document.querySelector('[aria-label=\"remove demands 6\"]').click()")
    until(editor, "return !schedule.filesOfFields().demands?.includes('t3,2')")
    editor.execute_script("document.querySelector('#table-tasks tr:last-child button').click()")
    until(editor, "return schedule.filesOfFields().tasks?.includes('t4')")
    write(editor, "tasks.3.name", "")
    refused(editor, "tasks.3.name", "tasks: task 4: missing name")


def test_address_carries_the_example(editor: Browser) -> None:
    write(editor, "tasks.2.worst", "3")
    write(editor, "ticks", "20")
    refused(editor, "demands.4.units", "over worst: t3 1 4 3")
    write(editor, "demands.4.units", "2")
    write(editor, "demands.5.units", "2")
    shows(editor, "edf cc, 20 ticks")
    example, address = editor.execute_script("return [schedule.readExample(), document.querySelector('#address').href]")
    editor.get("about:blank")
    editor.get(address)
    shows(editor, "edf cc, 20 ticks")
    assert editor.execute_script("return schedule.readExample()") == example


@pytest.mark.parametrize("end", ["#!", "#bnVsbA==", "#W10=", "#eyJ0YXNrcyI6MX0="], ids=range(4))
def test_address_that_is_none(editor: Browser, end: str) -> None:
    """No example, null, a list, and tasks that are a number: the page has fields and says what is wrong, or
    shows the first example."""
    address = editor.execute_script("return location.origin") + "/" + end
    editor.get("about:blank")
    editor.get(address)
    until(editor, "return document.querySelector('#refusal') || document.querySelector('#sheets h2')")


def test_hostile_names(editor: Browser) -> None:
    """A name stays a text, in the fields, in the refusal and by the address."""
    name = '<img src=x onerror="document.title=1"></script><script>document.title=2</script>'
    write(editor, "tasks.0.name", name)
    refused(editor, "tasks.0.name", "tasks: task 1: bad name")
    write(editor, "tasks.0.name", "t1")
    shows(editor, "edf cc, 16 ticks")
    write(editor, "demands.0.task", name)
    refused(editor, "demands.0.task", "demands: row 1: unknown task ?img?src?x?onerror??document?tit")
    address = editor.execute_script("return location.href")
    editor.get("about:blank")
    editor.get(address)
    refused(editor, "demands.0.task", "demands: row 1: unknown task ?img?src?x?onerror??document?tit")
    assert editor.title == "A schedule, tick for tick" and not editor.find_elements("css selector", "img")


def test_all_pairs(editor: Browser) -> None:
    editor.execute_script("document.querySelector('#compare').click()")
    names = "[...document.querySelectorAll('#pairs tbody tr')].map((row) => row.cells[1].textContent)"
    rows = until(editor, f"const names = {names}; return names.length && names")
    assert rows == ["none", "static", "cc", "la", "none", "static", "cc"]


def test_menu(editor: Browser) -> None:
    editor.execute_script("const menu = document.querySelector('#menu'); "
                          "menu.selectedIndex = [...menu.options].findIndex((each) => each.text === 'controller'); "
                          "menu.dispatchEvent(new Event('change'))")
    until(editor, f"return schedule.state.data.tasks?.length === {len(files('controller')[0])}")
