"""What a class sees: one screen, a phone, paper, saved pictures, the keyboard, and what a screen reader is told."""

import base64
import re
import shutil
import subprocess
from pathlib import Path
from typing import Any
from xml.etree import ElementTree

import pytest

from rtdvs.model import Task, TaskSet
from rtdvs.rules import simulate
from rtdvs.web import Shown
from tests.shared.browsing import Browser, assert_board, click, opened, paper, press, sized, text, until, write
from tests.shared.examples import BOARD, TEST_DATA

CONTRAST, ROVE = ((TEST_DATA / f"{name}.js").read_text() for name in ("contrast", "rove"))
SVG = "{http://www.w3.org/2000/svg}"
BOX = ("const box = document.querySelector(arguments[0]).getBoundingClientRect(); "
       "return [box.left, box.top, box.right, box.bottom]")


def box(browser: Browser, selector: str) -> list[float]:
    """Left, top, right and bottom in the window, in pixels."""
    found: list[float] = browser.execute_script(BOX, selector)
    return found


def inside(browser: Browser, selector: str, width: int, height: int) -> bool:
    left, top, right, bottom = box(browser, selector)
    return left >= 0 and top >= 0 and right <= width and bottom <= height


def pictured(browser: Browser, folder: Path, name: str) -> None:
    """Keeps a picture of the window for those who look at it."""
    assert browser.save_screenshot(str(folder / f"{name}.png"))


# One screen

def test_one_screen(editor: Browser, tmp_path: Path) -> None:
    """At 1280 by 720 the schedule, the speed, each decision's reasons and the editor are seen without scrolling."""
    sized(editor, 1280, 720)
    editor.execute_script("schedule.drawAll()")
    for place in range(8):
        press(editor, *(["ArrowRight"] if place else ["Home", "nav"]))
        until(editor, "return document.querySelector('#subject').textContent.includes('decision at tick') && "
                      "document.querySelector('#board').textContent.includes(', tick ')")
        assert inside(editor, "svg.rows", 1280, 720) and inside(editor, "#board", 1280, 720)
        assert box(editor, "svg.rows")[3] <= box(editor, "#panel")[1]
        assert editor.execute_script("const { scrollHeight, clientHeight } = document.querySelector('#panel'); "
                                     "return scrollHeight <= clientHeight && scrollY === 0")
    assert box(editor, "#side")[2] < box(editor, "svg.rows")[0] and box(editor, "#side")[3] <= 720
    pictured(editor, tmp_path, "one_screen")
    before = box(editor, "svg.rows")
    click(editor, "#compare")
    until(editor, "return document.querySelectorAll('#pairs tbody tr').length === 7")
    assert box(editor, "svg.rows") == before and box(editor, "#pairs")[1] < 720


def test_a_phone(editor: Browser, tmp_path: Path) -> None:
    """At 390 pixels nothing leaves its panel, with the editor folded and open."""
    sized(editor, 390, 844)
    for is_open in (False, True):
        editor.execute_script("document.querySelector('#side').open = arguments[0]", is_open)
        until(editor, "return document.querySelector('svg.rows').getBoundingClientRect().right <= 390")
        assert editor.execute_script("return document.documentElement.scrollWidth") == 390
        out = editor.execute_script(
            "const edge = (each) => each.getBoundingClientRect().right; "
            "return [...document.querySelectorAll('#side *, #view button, #board, h2')].filter((each) => "
            "each.checkVisibility() && edge(each) > edge(each.closest('#side') ?? document.body) + 0.5)"
            ".map((each) => each.outerHTML.slice(0, 80))")
        assert out == []
    pictured(editor, tmp_path, "phone")


def test_the_axis_stays_in_view(browser: Browser, tmp_path: Path) -> None:
    tasks = TaskSet(tuple(Task(f"task_{place}", 100, 1) for place in range(20)))
    opened(browser, tmp_path, {"": simulate(tasks, BOARD, "edf", 100, "cc").text()}, Shown(tasks, BOARD))
    sized(browser, 1280, 720)
    for share in (0, 0.5, 1):
        browser.execute_script("const rows = document.querySelector('svg.rows').getBoundingClientRect(); "
                               "scrollTo(0, scrollY + rows.top + arguments[0] * (rows.height - 200))", share)
        assert inside(browser, "svg.axis", 1280, 720)


# Paper and files

def test_printed_whole(editor: Browser, tmp_path: Path) -> None:
    """The last tick of a sheet of A4 is 16, and tasks, machine and demands are above the schedule."""
    reader = shutil.which("pdftotext")
    if reader is None:
        pytest.skip("no pdftotext")
    sized(editor, 1280, 720)
    click(editor, "#after")
    for turned in (False, True):
        file = tmp_path / "page.pdf"
        file.write_bytes(base64.b64decode(editor.execute_cdp_cmd("Page.printToPDF", {
            "landscape": turned, "paperWidth": 8.27, "paperHeight": 11.69})["data"]))
        words, *more = subprocess.run([reader, "-layout", file, "-"], capture_output=True, text=True,
                                      check=True).stdout.split("\f")
        axis = next(line for line in words.splitlines() if re.fullmatch(r"\s*0(\s+\d+)+\s*", line))
        assert axis.split()[-1] == "16"
        question = words[:words.index(axis)]
        for part in (r"t3 +14 +4 +0", "Machine: idle share 0 thousandths, charge 0 units", r"t2 +2 +4"):
            assert re.search(part, question)
        assert "decision at tick" in "".join([words, *more])


def test_pictures_are_saved(browser: Browser, tmp_path: Path) -> None:
    """The SVG file has the page's marks with their looks; the PNG file has the colour of a run where it is."""
    paper(browser, tmp_path, "edf_cc_with_demands")
    root = ElementTree.fromstring(browser.execute_script("return schedule.svgText(schedule.state.sheets[0])"))
    paths = "return [...document.querySelectorAll('.sheet path')].map((each) => each.getAttribute('d'))"
    assert [each.get("d") for each in root.iter(f"{SVG}path")] == browser.execute_script(paths)
    assert all(each.get("fill") and each.get("stroke") for each in root.iter(f"{SVG}path"))
    assert "16" in [each.text for each in root.iter(f"{SVG}text")]
    pixel = browser.execute_script(
        "const canvas = schedule.canvasOf(schedule.state.sheets[0]); "
        "const path = document.querySelector('.run').getAttribute('d'); "
        "const [left, floor, , right] = path.match(/[0-9.]+/g).map(Number); "
        "const x = 2 * (left + (right - left) / 4), y = 2 * (30 + 22 + floor - 4); "
        "return [...canvas.getContext('2d').getImageData(x, y, 1, 1).data].slice(0, 3)")
    colour = browser.execute_script("return getComputedStyle(document.querySelector('.run')).fill")
    assert pixel == [*map(int, re.findall(r"\d+", colour))]


# The keyboard and a screen reader

def test_marks_by_keyboard(browser: Browser, tmp_path: Path) -> None:
    """One mark is a stop of the Tab key; arrows go to the others, and Enter opens one."""
    (boards,) = paper(browser, tmp_path, "edf_cc_with_demands")
    stops = "return document.querySelectorAll('.rows [tabindex=\"0\"]').length"
    assert browser.execute_script(stops) == 1
    seen = {*browser.execute_script(ROVE)}
    every = browser.execute_script("return [...document.querySelectorAll('.rows [tabindex] title')].map("
                                   "(each) => each.textContent)")
    assert seen == {*every} and browser.execute_script(stops) == 1
    browser.execute_script(PRESS, "Enter")
    until(browser, "return document.querySelector('#subject').textContent.includes('decision at tick')")
    kept = browser.execute_script("schedule.drawAll(); return document.activeElement.querySelector('title').textContent")
    assert text(browser, "#subject").endswith(kept)
    assert_board(browser, boards[0])


PRESS = ("document.activeElement.dispatchEvent(new KeyboardEvent('keydown', "
         "{ key: arguments[0], bubbles: true, cancelable: true }))")


def test_the_table_of_jobs_opens_a_job(browser: Browser, tmp_path: Path) -> None:
    (boards,) = paper(browser, tmp_path, "edf_cc_with_demands")
    until(browser, "return document.querySelector('#jobs button')")
    browser.execute_script("[...document.querySelectorAll('#jobs button')].find((each) => "
                           "each.textContent === 't1 2').click()")
    assert_board(browser, boards[4])
    assert text(browser, "#subject").endswith("t1 job 2 is complete at 9 1/3 with 4 of 12 units")


def test_one_sentence_is_spoken(editor: Browser) -> None:
    """There is one region that speaks, beside the alert of a wrong address, and it has one sentence."""
    live = ("return [...document.querySelectorAll('[aria-live], [role=status], [role=alert], output')].map("
            "(each) => each.id)")
    assert editor.execute_script(live) == ["said", "link"]
    click(editor, "#after")
    until(editor, "return document.querySelector('#said').textContent.includes('decision')")
    assert re.fullmatch("[^.]*decision at tick 3: speed 3 for 696/280[.]", text(editor, "#said"))
    write(editor, "tasks.0.period", "x")
    until(editor, "return document.querySelector('#said').textContent.startsWith('Refused')")
    assert text(editor, "#said") == "Refused: tasks: task 1: wrong kind of period."


@pytest.mark.parametrize("scheme", ["light", "dark"])
def test_texts_have_contrast(editor: Browser, scheme: str) -> None:
    """At least 4.5 to 1, in the editor, the picture and the explanation."""
    features: list[dict[str, Any]] = [{"name": "prefers-color-scheme", "value": scheme}]
    editor.execute_cdp_cmd("Emulation.setEmulatedMedia", {"features": features})
    click(editor, "#after")
    editor.execute_script("document.querySelectorAll('details').forEach((each) => { each.open = true; })")
    found = editor.execute_script(CONTRAST)
    editor.execute_cdp_cmd("Emulation.setEmulatedMedia", {"features": []})
    assert len(found) > 60 and found[0][0] >= 4.5, found[0]


def test_letters_can_be_switched_off(browser: Browser, tmp_path: Path) -> None:
    """And Home and End stay the browser's outside of the picture."""
    paper(browser, tmp_path, "edf_cc_with_demands")
    press(browser, "End")
    assert text(browser, "#subject") == "Explanation"
    span = "return schedule.state.to - schedule.state.from"
    click(browser, "#letters")
    press(browser, "+")
    assert browser.execute_script(span) == 16
    click(browser, "#letters")
    press(browser, "+")
    assert browser.execute_script(span) < 16


def test_headings_have_a_scope(editor: Browser) -> None:
    click(editor, "#compare")
    until(editor, "return document.querySelector('#pairs th') && document.querySelector('#jobs th')")
    assert editor.execute_script("return document.querySelectorAll('th:not([scope])').length") == 0


def test_no_name_hides_the_browsers(browser: Browser, tmp_path: Path) -> None:
    """The page adds one name to the window; another one is the driver's."""
    empty = tmp_path / "empty.html"
    empty.write_text("<!doctype html><title>empty</title>")
    browser.get(empty.as_uri())
    before = {*browser.execute_script("return Object.getOwnPropertyNames(window)")}
    paper(browser, tmp_path, "edf_cc_with_demands")
    after = {*browser.execute_script("return Object.getOwnPropertyNames(window)")}
    assert after - before - {"ret_nodes"} == {"schedule"}
    assert browser.execute_script("return String(print).includes('native code')")
