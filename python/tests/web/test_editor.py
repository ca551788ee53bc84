"""The editor in Chromium: what is said of old pictures, undo, two pairs, rows that follow a task, and typing."""

import base64
import json
import re
from typing import Any

import pytest

from rtdvs.model import Demands
from tests.shared.browsing import Browser, click, refused, shows, text, until, write
from tests.shared.examples import files

FILES = "return schedule.filesOfFields()"


def disabled(browser: Browser, kind: str) -> bool:
    return bool(browser.execute_script("return document.querySelector(`[data-file=${arguments[0]}]`).disabled", kind))


def link(example: Any) -> str:
    """An example as an address's last part."""
    return base64.urlsafe_b64encode(json.dumps(example).encode()).decode()


def opened_at(browser: Browser, end: str) -> None:
    address = browser.execute_script("return location.origin") + "/#" + end
    browser.get("about:blank")
    browser.get(address)
    shows(browser, "edf cc, 16 ticks")


# Nothing old

def test_a_refusal_marks_what_is_old(editor: Browser) -> None:
    """The picture is greyed, with what it is of; the files are those of the fields, and there is no trace."""
    write(editor, "tasks.2.worst", "40")
    refused(editor, "scheduler", "denied edf 1556 1120")
    assert text(editor, "#stale").startswith(
        "The tasks ask for 5.56 units a tick, and the highest speed is 4. This is 1.39 times the work of the highest speed. "
        "Lower worst cases, lengthen periods, or add a faster point. "
        "What is below is of earlier values (edf cc, 16 ticks), not of those in the fields.")
    opacity = "return getComputedStyle(document.querySelector('#sheets')).opacity"
    assert float(editor.execute_script(opacity)) < 0.6
    assert "worst = 40" in editor.execute_script(FILES)["tasks"]
    assert disabled(editor, "trace") and not disabled(editor, "tasks")
    write(editor, "tasks.2.worst", "4")
    shows(editor, "edf cc, 16 ticks")
    assert float(editor.execute_script(opacity)) == 1 and not disabled(editor, "trace")


def test_a_set_that_is_not_admitted_is_shown(editor: Browser) -> None:
    """At speed 4 t1 and t2 have 6 of the 14 ticks up to t3's deadline, so t3 has 32 of its 40 units. It is given up,
    and t1's second job, which waited for it, has ticks 14 and 15 only.
    """
    editor.execute_script("const example = schedule.readExample(); example.tasks[2].worst = '40'; "
                          "schedule.edit({ ...example, demands: [] })")
    refused(editor, "scheduler", "denied edf 1556 1120")
    click(editor, "#stale button")
    until(editor, "return document.querySelector('#sheets h2').textContent.endsWith('not admitted')")
    assert "not the program's" in text(editor, ".note")
    titles = "return [...document.querySelectorAll('#sheets .miss title')].map((each) => each.textContent)"
    assert editor.execute_script(titles) == ["t1 job 2 misses its deadline at 16: 8 of 12 units",
                                             "t3 job 1 misses its deadline at 14: 32 of 40 units"]


def test_the_heading_follows_the_run(editor: Browser) -> None:
    click(editor, "#after")
    until(editor, "return document.querySelector('#subject').textContent.startsWith('edf cc: decision')")
    write(editor, "governor", "la")
    shows(editor, "edf la, 16 ticks")
    assert text(editor, "#subject") == "Explanation"


EMPTY: dict[str, object] = {"tasks": [], "points": [], "demands": []}
LINKS = [
    pytest.param("!", "is cut or broken", id="no base64"),
    pytest.param(link({"tasks": [{"name": "t1"}]})[:-7], "is cut or broken", id="cut"),
    pytest.param(link([1]), "is of another page", id="a list"),
    pytest.param(link({"tasks": 1}), "is of another page", id="foreign"),
    pytest.param(link(EMPTY | {"tasks": [None]}), "has rows that are none", id="null"),
    pytest.param(link(EMPTY | {"demands": [{}] * 2000}), "has more than 1000 rows", id="2,000 rows"),
]


@pytest.mark.parametrize(("end", "words"), LINKS)
def test_a_link_that_is_wrong_says_so(editor: Browser, end: str, words: str) -> None:
    opened_at(editor, end)
    assert text(editor, "#link") == f"The address {words}, so this is the first example of the menu."


# A teacher's work

def test_undo_and_redo(editor: Browser) -> None:
    """Also of a row that was removed, with its demands."""
    before = editor.execute_script("return schedule.readExample()")
    click(editor, '[aria-label="remove tasks 3"]')
    until(editor, "return schedule.filesOfFields().tasks?.includes('t3') === false")
    after = editor.execute_script("return schedule.readExample()")
    assert {row["task"] for row in after["demands"]} == {"t1", "t2"}
    write(editor, "governor", "la")
    shows(editor, "edf la, 16 ticks")
    click(editor, "#undo")
    shows(editor, "edf cc, 16 ticks")
    assert editor.execute_script("return schedule.readExample()") == after
    click(editor, "#undo")
    until(editor, "return schedule.filesOfFields().tasks?.includes('t3')")
    assert editor.execute_script("return schedule.readExample()") == before
    click(editor, "#redo")
    until(editor, "return schedule.filesOfFields().tasks?.includes('t3') === false")
    assert editor.execute_script("return schedule.readExample()") == after


def test_two_pairs_beside_each_other(editor: Browser) -> None:
    """By the stored traces: static stays at speed 3 when t3 begins at tick 4."""
    write(editor, "beside", "edf static")
    shows(editor, "A: edf cc, 16 ticks")
    assert editor.execute_script("return document.querySelectorAll('.sheet h2')[1].textContent") \
        == "B: edf static, 16 ticks"
    assert text(editor, "#apart").startswith("The schedules part at tick 4: t3 1 at speed 2, and t3 1 at speed 3. ")
    click(editor, "#apart button")
    until(editor, "return document.querySelector('#subject').textContent.startsWith('A: decision at tick 4: speed 2')")


def test_a_new_name_goes_to_the_demands(editor: Browser) -> None:
    """Letter by letter, also where a part of it is the name of another task."""
    write(editor, "tasks.2.name", "t1x")
    until(editor, "return schedule.filesOfFields().demands?.includes('t1x,1,4')")
    editor.execute_script("schedule.fieldOf('tasks.2.name').focus()")
    for name in ("t1", "t", "tt"):
        editor.execute_script("const field = schedule.fieldOf('tasks.2.name'); field.value = arguments[0]; "
                              "field.dispatchEvent(new Event('input', { bubbles: true }))", name)
    tasks = [row["task"] for row in editor.execute_script("return schedule.readExample()")["demands"]]
    assert tasks == ["t1", "t1", "t2", "t2", "tt", "tt"]


@pytest.mark.parametrize(("kind", "row"), [
    pytest.param("tasks", {"name": "t4", "period": "14", "worst": "1", "offset": "0"}, id="tasks"),
    pytest.param("points", {"speed": "5", "millivolts": "5000"}, id="points"),
    pytest.param("demands", {"task": "t1", "job": "3", "units": "12"}, id="demands"),
])
def test_a_new_row_is_right_and_has_the_cursor(editor: Browser, kind: str, row: dict[str, str]) -> None:
    places = len(editor.execute_script("return schedule.readExample()")[kind])
    click(editor, f"#table-{kind} .add")
    shows(editor, "edf cc, 16 ticks")
    assert editor.execute_script("return schedule.readExample()")[kind][places] == row
    assert editor.execute_script("return document.activeElement.dataset.field") == f"{kind}.{places}.{[*row][0]}"


def test_demands_as_shares(editor: Browser) -> None:
    """Half of 12, of 12 and of 4, for each job of 16 ticks: 2 of each task; and a quarter in one field."""
    click(editor, "#fill")
    write(editor, "demands.0.units", "25%")
    until(editor, "return schedule.filesOfFields().demands?.includes('t1,1,3')")
    tasks, _, _ = files("paper")
    found = Demands.parse(editor.execute_script(FILES)["demands"], tasks).units
    assert found == {("t1", 1): 3, ("t1", 2): 6, ("t2", 1): 6, ("t2", 2): 6, ("t3", 1): 2, ("t3", 2): 2}


def test_each_field_and_example_has_a_sentence(editor: Browser) -> None:
    titles = editor.execute_script("return [...document.querySelectorAll('#editor [data-field], #menu option')].map("
                                   "(each) => each.title)")
    assert len(titles) > 30 and all(re.fullmatch("[A-Za-z].{15,}\\.", title) for title in titles)
    names = editor.execute_script("return [...document.querySelectorAll('#menu option')].map((each) => each.text)")
    assert names[0] == "paper" and not {"long", "templates", "server", "deadlines"} & {*names}
    words = text(editor, "#meanings")
    assert all(word in words for word in ("worst case", "charge", "idle share", "work unit", "demand"))


def test_a_comparison_leaves_the_run(editor: Browser) -> None:
    """Its files stay, and a change just before it is still drawn; the pairs are then those of the change."""
    click(editor, "#compare")
    until(editor, "return document.querySelectorAll('#pairs tbody tr').length === 7")
    assert not disabled(editor, "trace") and not editor.execute_script("return document.body.matches('.stale')")
    editor.execute_script("const field = schedule.fieldOf('governor'); field.value = 'la'; "
                          "field.dispatchEvent(new Event('input', { bubbles: true })); "
                          "document.querySelector('#compare').click()")
    shows(editor, "edf la, 16 ticks")
    assert not editor.execute_script("return document.querySelector('#compared').hidden")


# Typing

STAND_IN = """
window.calls = []; window.answers = arguments[0]; window.rests = [];
const own = window.fetch, wait = window.setTimeout;
window.setTimeout = (act, time, ...more) => {
  rests.push(time);
  return wait(act, time, ...more);
};
window.fetch = (path, given) => {
  const call = { body: JSON.parse(given.body), ended: false };
  calls.push(call);
  given.signal.addEventListener("abort", () => { call.ended = true; });
  const answer = answers.shift();
  if (answer === "busy") return Promise.resolve(new Response("", { status: 503 }));
  if (answer === "late") return new Promise((resolve, reject) => {
    given.signal.addEventListener("abort", () => reject(given.signal.reason));
  });
  return own(path, given);
};"""


def typed(browser: Browser, name: str, value: str) -> None:
    """Types a text into a field, letter by letter, without a rest."""
    browser.execute_script("const field = schedule.fieldOf(arguments[0]); field.value = ''; "
                           "for (const letter of arguments[1]) { field.value += letter; "
                           "field.dispatchEvent(new Event('input', { bubbles: true })); }", name, value)


def test_letters_are_one_call(editor: Browser) -> None:
    """It waits for a rest of 150 milliseconds after each."""
    editor.execute_script(STAND_IN, [])
    typed(editor, "ticks", "0000018")
    shows(editor, "edf cc, 18 ticks")
    assert [each["body"]["ticks"] for each in editor.execute_script("return calls")] == ["0000018"]
    assert editor.execute_script("return rests").count(150) == 7


def test_a_newer_call_ends_the_older(editor: Browser) -> None:
    editor.execute_script(STAND_IN, ["late"])
    typed(editor, "ticks", "17")
    until(editor, "return calls.length === 1")
    typed(editor, "ticks", "18")
    shows(editor, "edf cc, 18 ticks")
    assert [each["ended"] for each in editor.execute_script("return calls")] == [True, False]


def test_a_busy_server_is_asked_again(editor: Browser) -> None:
    editor.execute_script(STAND_IN, ["busy", "busy"])
    typed(editor, "ticks", "18")
    shows(editor, "edf cc, 18 ticks")
    assert len(editor.execute_script("return calls")) == 3 and not editor.find_elements("css selector", "#refusal")
