"""Lessons: their files and what is refused in them, the data of their pages, and the page in Chromium."""

import re
from collections.abc import Iterator
from pathlib import Path
from typing import Any

import pytest

from rtdvs.engine import Engine
from rtdvs.errors import FileRefused
from rtdvs.model import PAIRS, TaskSet
from rtdvs.web import Lesson, in_one_file, lesson_data
from tests.shared.browsing import ALL_READ, Browser, press, text, until
from tests.shared.examples import BOARD, PAPER, TOP, Captured, fake, printed, refusal
from tests.shared.simulated import Simulated

FILE = TOP / "examples" / "lesson" / "lesson.toml"
SIMULATED = Simulated(Path("simulated"))
LESSON = """title = "Two pairs"
text = "One.\\n\\nTwo."

[[example]]
name = "first"
title = "The first"
tasks = "tasks.toml"
machine = "machine.toml"
ticks = 16

[[example.pair]]
scheduler = "edf"
governor = "cc"
text = "Look at tick 3."

[[example.pair]]
scheduler = "rm"
governor = "none"
"""
PAIR = '[[example.pair]]\nscheduler = "edf"\ngovernor = "cc"\n'


def written(folder: Path, content: str = LESSON, tasks: TaskSet = PAPER) -> Path:
    """A lesson's file, beside the files that it names."""
    tasks.write(folder / "tasks.toml")
    BOARD.write(folder / "machine.toml")
    path = folder / "lesson.toml"
    path.write_text(content, encoding="utf-8")
    return path


# The file

def test_a_lesson_is_read(tmp_path: Path) -> None:
    lesson = Lesson.read(written(tmp_path))
    (example,) = lesson.examples
    assert (lesson.title, lesson.text, example.name, example.title, example.text) == (
        "Two pairs", "One.\n\nTwo.", "first", "The first", "")
    assert (example.tasks, example.machine, example.demands, example.ticks) == (PAPER, BOARD, None, 16)
    assert [(pair.name, pair.text, pair.missed) for pair in example.pairs] == [
        ("edf-cc", "Look at tick 3.", "stop"), ("rm-none", "", "stop")]


REFUSED = [
    ("title = ", "titel = ", "lesson: unknown key titel"),
    ('title = "Two pairs"', "title = 3", "lesson: wrong kind of title"),
    ('title = "Two pairs"\n', "", "lesson: missing title"),
    ('title = "Two pairs"', "title = ", "lesson: not TOML"),
    ('name = "first"', 'name = "the first"', "lesson: example 1: bad name"),
    ('name = "first"', "", "lesson: example 1: missing name"),
    ('tasks = "tasks.toml"', "", "lesson: example 1: missing tasks"),
    ('tasks = "tasks.toml"', 'tasks = "machine.toml"', "lesson: example 1: {}/machine.toml: tasks: unknown key charge"),
    ('"machine.toml"', '"absent.toml"', "lesson: example 1: {}/absent.toml: No such file or directory"),
    ("ticks = 16", "ticks = 0", "lesson: example 1: ticks out of range"),
    ("ticks = 16", "", "lesson: example 1: missing ticks"),
    ("ticks = 16", 'ticks = 16\ncolour = "red"', "lesson: example 1: unknown key colour"),
    (LESSON[LESSON.index("[[example.pair]]"):], "", "lesson: example 1: no pairs"),
    (LESSON[LESSON.index("[[example.pair]]"):], "pair = 3", "lesson: example 1: wrong kind of pair"),
    (LESSON[LESSON.index("[[example]]"):], "", "lesson: no examples"),
    (LESSON[LESSON.index("[[example]]"):], "example = 3", "lesson: wrong kind of example"),
    ('scheduler = "rm"', "", "lesson: example 1: pair 2: missing scheduler"),
    ('scheduler = "rm"', 'scheduler = "fifo"', "lesson: example 1: pair 2: a scheduler is edf or rm, not fifo"),
    ('governor = "none"', 'governor = "la"', "lesson: example 1: pair 2: rm has no governor la"),
    ('governor = "none"', 'governor = "none"\nmissed = "on"',
     "lesson: example 1: pair 2: missed is stop or drop, not on"),
    ('governor = "none"', 'governor = "none"\nspeed = 3', "lesson: example 1: pair 2: unknown key speed"),
    ('text = "Look at tick 3."', "text = 3", "lesson: example 1: pair 1: wrong kind of text"),
    (LESSON[LESSON.rindex("[[example.pair]]"):], PAIR, "lesson: example 1: pairs 1 and 2 have one name"),
    ("[[example]]", LESSON[LESSON.index("[[example]]"):] + "[[example]]", "lesson: examples 1 and 2 have one name"),
]


@pytest.mark.parametrize(("old", "new", "line"), REFUSED, ids=[line for _, _, line in REFUSED])
def test_what_a_lesson_can_t_be(old: str, new: str, line: str, tmp_path: Path, capsys: Captured) -> None:
    """The line has the place, and no page is begun."""
    path = written(tmp_path, LESSON.replace(old, new, 1))
    with pytest.raises(FileRefused) as fault:
        Lesson.read(path)
    assert str(fault.value) == line.format(tmp_path)
    page, program = tmp_path / "lesson.html", fake(tmp_path, "exit 9")
    assert refusal(capsys, ["page", "--lesson", path, "-o", page, "--program", program]) == (
        f"rtdvs: {line.format(tmp_path)}\n")
    assert not page.exists()


@pytest.mark.parametrize("words", [["run.trace"], ["--tasks", "t.toml"], ["--machine=m.toml"], ["--demands", "d.csv"]],
                         ids=" ".join)
def test_a_lesson_has_its_own_files(words: list[str], capsys: Captured) -> None:
    other = words[0].partition("=")[0] if words[0].startswith("--") else "a trace"
    assert refusal(capsys, ["page", "--lesson", FILE, *words]) == (
        f"rtdvs: --lesson names its files, so {other} has no place beside it\n")


@pytest.mark.parametrize(("words", "line"), [
    pytest.param([], "a trace or two, or --lesson", id="nothing"),
    pytest.param(["run.trace", "--machine=m.toml"], "a page of traces needs --tasks", id="tasks"),
    pytest.param(["run.trace", "--tasks=t.toml"], "a page of traces needs --machine", id="machine")])
def test_a_page_without_a_lesson(words: list[str], line: str, capsys: Captured) -> None:
    assert refusal(capsys, ["page", *words]) == f"rtdvs: {line}\n"


# The data

LATE = TaskSet.of([("a", 4, 8), ("b", 5, 9)])


def data_of(path: Path, engine: Engine = SIMULATED) -> Any:
    return lesson_data(Lesson.read(path), engine)["lesson"]


def test_runs_are_made_beforehand(tmp_path: Path) -> None:
    """A sheet for each pair, and where each two of them part."""
    data = data_of(written(tmp_path))
    (example,) = data["examples"]
    assert [sheet["title"] for sheet in example["sheets"]] == ["edf cc, 16 ticks", "rm none, 16 ticks"]
    assert all(sheet["boards"] and sheet["pieces"] and not sheet["note"] for sheet in example["sheets"])
    assert [(pair["name"], pair["title"], pair["text"]) for pair in example["pairs"]] == [
        ("edf-cc", "edf cc", "Look at tick 3."), ("rm-none", "rm none", "")]
    assert example["apart"].keys() == {"0 1", "1 0"} and example["apart"]["0 1"]["tick"] == 0
    assert "at speed 3" in example["apart"]["0 1"]["text"] and example["page"]["top"] == 4


def test_a_run_that_is_denied(tmp_path: Path) -> None:
    """Its place is said; with `drop` it is the package's, and says so. Under EDF the set is admitted."""
    path = written(tmp_path, tasks=LATE)
    with pytest.raises(FileRefused, match="^lesson: example 1: pair 2: denied rm b 25 20$"):
        data_of(path)
    path.write_text(f'{LESSON}missed = "drop"\n')
    first, second = data_of(path)["examples"][0]["sheets"]
    assert first["note"] == "" and "says: denied rm b 25 20." in second["note"]
    assert second["title"] == "rm none-drop, 16 ticks, not admitted"


def test_a_fault_of_the_program(tmp_path: Path, capsys: Captured) -> None:
    page, program = tmp_path / "lesson.html", fake(tmp_path, "exit 77")
    words = ["page", "--lesson", written(tmp_path), "-o", page, "--program", program]
    assert refusal(capsys, words) == "rtdvs: the program ended with status 77\n" and not page.exists()


# The lesson of the examples

def test_the_example_is_small_and_whole() -> None:
    """All seven pairs, a deadline that RM misses and EDF meets, look-ahead beside cycle conservation, idle power."""
    lesson = Lesson.read(FILE)
    found = {example.name: [tuple(pair.pair) for pair in example.pairs] for example in lesson.examples}
    assert found["paper"] == [*PAIRS] and found["late"] == [("edf", "none"), ("rm", "none")]
    assert found["ahead"] == [("edf", "cc"), ("edf", "la")] and lesson.examples[3].machine.idle == 500
    assert len(in_one_file(lesson_data(lesson, SIMULATED)).encode()) <= 300_000


def test_the_energies_that_it_says() -> None:
    """Those of the paper's example are README's; idle units cost half: 9 ticks of 4, 20/3 of 3, 14/3 and 7/2 at the
    speeds that `cc` and `la` have there."""
    energies = {example["name"]: [int(sheet["energy"].split()[1].rstrip(":")) for sheet in example["sheets"]]
                for example in data_of(FILE)["examples"]}
    said = {example.name: [[float(number) for number in re.findall(r"\d+\.\d+|\d+", pair.text)]
                           for pair in example.pairs] for example in Lesson.read(FILE).examples}
    assert energies["paper"] == [number * 10**9 for number in (700, 448, 364, 315, 700, 700, 514)]
    assert energies["ahead"] == [2688 * 10**9, 2788 * 10**9] and energies["idle"][3] == 346_500_000_000
    for name in ("paper", "ahead", "idle"):
        for energy, numbers in zip(energies[name], said[name], strict=True):
            assert energy / 10**9 in numbers or energy / 10**9 == 700


def test_the_runs_are_the_program_s(engine: Engine) -> None:
    assert data_of(FILE, engine) == data_of(FILE)


def test_the_command(tmp_path: Path, capsys: Captured, monkeypatch: pytest.MonkeyPatch) -> None:
    """One file, which is that of the data."""
    monkeypatch.setattr("rtdvs.cli.options.engine_of", lambda args: SIMULATED)
    page = tmp_path / "lesson.html"
    assert printed(capsys, ["page", "--lesson", FILE, "-o", page]) == ""
    assert page.read_text(encoding="utf-8") == in_one_file(lesson_data(Lesson.read(FILE), SIMULATED))


# The page

@pytest.fixture
def lesson(browser: Browser, tmp_path: Path) -> Iterator[str]:
    """The address of the example's page, as a file."""
    page = tmp_path / "lesson.html"
    page.write_text(in_one_file(lesson_data(Lesson.read(FILE), SIMULATED)), encoding="utf-8")
    yield page.as_uri()
    browser.get("about:blank")


TITLES = "[...document.querySelectorAll('#sheets h2')].map((each) => each.textContent).join('; ')"


def shows(browser: Browser, titles: str, subject: str) -> None:
    """Waits until the page shows runs, and a decision's explanation."""
    until(browser, f"{ALL_READ} && {TITLES} === arguments[0] && "
                   "document.querySelector('#subject').textContent.includes(arguments[1])", titles, subject)


def choose(browser: Browser, menu: str, title: str) -> None:
    """Chooses from a menu."""
    browser.execute_script("const menu = document.querySelector(arguments[0]); "
                           "menu.selectedIndex = [...menu.options].findIndex((each) => each.text === arguments[1]); "
                           "menu.dispatchEvent(new Event('change', { bubbles: true }))", f"#{menu}-menu", title)


def end_of(browser: Browser) -> str:
    """The last part of the address."""
    return str(browser.execute_script("return location.hash"))


def test_the_page_begins_with_the_first_run(browser: Browser, lesson: str) -> None:
    browser.get(lesson)
    shows(browser, "edf none, 16 ticks", "decision at tick 0: speed 4")
    assert browser.title == text(browser, "h1") == "Speed, deadlines and energy"
    assert "Three tasks of Pillai and Shin (2001)." in text(browser, "#lesson")
    assert "The highest speed, always." in text(browser, "#lesson-text")
    assert browser.execute_script("return document.querySelector('#side').hidden")


def test_menus_steps_and_two_pairs(browser: Browser, lesson: str) -> None:
    """Each has its place in the address; a step stays at its tick when another pair is chosen."""
    browser.get(lesson)
    shows(browser, "edf none, 16 ticks", "decision at tick 0")
    choose(browser, "pair", "edf cc")
    shows(browser, "edf cc, 16 ticks", "decision at tick 0: speed 3 for 836/280")
    press(browser, "ArrowRight")
    shows(browser, "edf cc, 16 ticks", "decision at tick 3: speed 3 for 696/280")
    until(browser, "return location.hash === '#example=paper&pair=edf-cc&tick=3'")
    choose(browser, "beside", "edf la")
    shows(browser, "edf cc, 16 ticks; edf la, 16 ticks", "decision at tick 3: speed 3 for 696/280")
    assert end_of(browser) == "#example=paper&pair=edf-cc&beside=edf-la&tick=3"
    assert text(browser, "#apart").startswith("The schedules part at tick 3")
    assert "Look-ahead puts off" in text(browser, "#lesson-text")
    choose(browser, "example", "Idle power")
    shows(browser, "edf none, 16 ticks", "decision at tick 0")
    assert end_of(browser) == "#example=idle&pair=edf-none&tick=0"


def test_a_link_leads_to_its_place(browser: Browser, lesson: str) -> None:
    """Also one that comes while the page is open. Under RM the deadline of b at tick 5 is missed, and marked."""
    browser.get(f"{lesson}#example=ahead&pair=edf-la&tick=24")
    shows(browser, "edf la, 56 ticks", "decision at tick 24: speed 4 for 14/4")
    browser.execute_script("location.hash = '#example=late&pair=rm-none&beside=edf-none&tick=4'")
    shows(browser, "rm none-drop, 20 ticks, not admitted; edf none, 20 ticks", "decision at tick 4: speed 4 for 4/1")
    missed = "[...document.querySelectorAll('#sheets path.miss title')].map((each) => each.textContent).join('; ')"
    assert "b job 1" in browser.execute_script(f"return {missed}") and "b job 2" in browser.execute_script(
        f"return {missed}")
    assert "the package's, not the program's" in text(browser, "#sheets .note")
    assert browser.execute_script("return document.querySelector('#link').hidden")


@pytest.mark.parametrize("end", ["#example=none", "#example=paper&pair=edf-fifo", "#pair=edf-cc&beside=x", "#tick=-1",
                                 "#tick=x", "#example=%FF&&&="])
def test_a_link_that_leads_nowhere(browser: Browser, lesson: str, end: str) -> None:
    """The page says so, and shows what is near it."""
    browser.get(lesson + end)
    until(browser, f"{ALL_READ} && !document.querySelector('#link').hidden")
    assert "doesn't have" in text(browser, "#link") and text(browser, "#sheets h2").endswith("16 ticks")


def test_a_hostile_lesson(browser: Browser, tmp_path: Path) -> None:
    """Its texts stay texts."""
    markup = '</script><img src=x onerror=\\"document.title=1\\">'
    content = LESSON.replace("Look at tick 3.", markup).replace("One.", markup).replace("The first", markup)
    page = tmp_path / "lesson.html"
    page.write_text(in_one_file(lesson_data(Lesson.read(written(tmp_path, content)), SIMULATED)), encoding="utf-8")
    browser.get(page.as_uri())
    shows(browser, "edf cc, 16 ticks", "decision at tick 0")
    assert browser.title == "Two pairs" and not browser.find_elements("css selector", "img")
    assert text(browser, "#lesson-text").count("onerror") == 2
