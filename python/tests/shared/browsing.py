"""Chromium without a window, and what a reader does in it."""

import shutil
from importlib import import_module
from pathlib import Path
from time import monotonic, sleep
from typing import Any

import pytest

from rtdvs.web import Shown, in_one_file, page_data
from tests.shared.examples import DATA, TEST_DATA, explained, files

Browser = Any
WAIT = 120      # seconds that anything may take on a busy machine
ALL_READ = "return document.body.classList.contains('whole')"
CLICK, MOVES, TOUCH = ((TEST_DATA / f"{name}.js").read_text() for name in ("click", "moves", "touch"))


def chromium() -> Browser:
    """Chromium without a window; as root it needs to be without its sandbox. Skips where something is missing."""
    webdriver = pytest.importorskip("selenium.webdriver", reason="no selenium")
    binary, driver = shutil.which("chromium"), shutil.which("chromedriver")
    if not binary or not driver:
        pytest.skip("no chromium with chromedriver")
    options = webdriver.ChromeOptions()
    options.binary_location = binary
    for word in ("--headless=new", "--no-sandbox", "--disable-dev-shm-usage", "--window-size=1280,1000", "--disable-gpu",
                 "--disable-extensions", "--no-first-run"):
        options.add_argument(word)
    options.set_capability("goog:loggingPrefs", {"browser": "ALL"})
    service = import_module("selenium.webdriver.chrome.service").Service(driver)
    browser = webdriver.Chrome(options=options, service=service)
    browser.set_script_timeout(WAIT)
    return browser


def until(browser: Browser, script: str, *words: object) -> Any:
    """Waits until a script gives anything true, and gives that."""
    end = monotonic() + WAIT
    while not (found := browser.execute_script(script, *words)):
        assert monotonic() < end, browser.execute_script("return document.body.innerText")
        sleep(0.03)
    return found


def text(browser: Browser, selector: str) -> str:
    found: str = browser.execute_script(f"return document.querySelector('{selector}').textContent")
    return found


def click(browser: Browser, selector: str) -> None:
    browser.execute_script("document.querySelector(arguments[0]).click()", selector)


def press(browser: Browser, key: str, at: str = "body", **held: bool) -> None:
    """Presses a key at an element, as if it had the focus."""
    event = "new KeyboardEvent('keydown', { key: arguments[0], bubbles: true, cancelable: true, ...arguments[2] })"
    browser.execute_script(f"document.querySelector(arguments[1]).dispatchEvent({event})", key, at, held)


def sized(browser: Browser, width: int, height: int) -> None:
    """Gives the window a size in pixels."""
    browser.execute_cdp_cmd("Emulation.setDeviceMetricsOverride", {
        "width": width, "height": height, "deviceScaleFactor": 1, "mobile": width < 500})
    until(browser, "return innerWidth === arguments[0]", width)


def opened(browser: Browser, folder: Path, traces: dict[str, str], shown: Shown) -> None:
    """Opens the page of traces as a file, without a network, and waits until it is read."""
    open_data(browser, folder, page_data(traces, shown))


def open_data(browser: Browser, folder: Path, data: object) -> None:
    """Opens the page of some data as a file."""
    page = folder / "page.html"
    page.write_text(in_one_file(data), encoding="utf-8")
    browser.get(page.as_uri())
    until(browser, ALL_READ)


def paper(browser: Browser, folder: Path, *names: str) -> list[list[str]]:
    """Opens the page of stored traces of the paper's example, and gives the explanations of each."""
    tasks, machine, demands = files("paper")
    texts = {name: (DATA / "paper" / f"{name}.trace").read_text() for name in names}
    opened(browser, folder, texts, Shown(tasks, machine, demands))
    return [explained(tasks, machine, demands, trace) for trace in texts.values()]


def assert_board(browser: Browser, board: str) -> None:
    until(browser, "return document.querySelector('#board').textContent === arguments[0]", board)


# The editor


def shows(browser: Browser, title: str) -> None:
    """Waits until the picture has that title, and nothing is said to be old."""
    until(browser, f"{ALL_READ} && document.querySelector('#stale').hidden "
                   "&& document.querySelector('#sheets h2')?.textContent === arguments[0]", title)


def write(browser: Browser, name: str, value: str) -> None:
    """Gives a field another text, as a reader does."""
    browser.execute_script("const field = schedule.fieldOf(arguments[0]); field.focus(); field.value = arguments[1]; "
                           "field.dispatchEvent(new Event('input', { bubbles: true })); field.blur()", name, value)


def refused(browser: Browser, name: str, line: str) -> None:
    """Waits until a field has a refusal."""
    until(browser, "const field = document.querySelector('[aria-invalid]'); "
                   "return field?.dataset.field === arguments[0] "
                   "&& field.nextElementSibling.textContent === arguments[1]", name, line)
