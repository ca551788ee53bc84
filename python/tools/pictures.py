"""Makes the pictures of the pages again: cd python && PYTHONPATH=src python3 -m tools.pictures"""

from collections.abc import Iterator
from io import BytesIO
from itertools import chain
from pathlib import Path

from rtdvs._files import write_whole
from rtdvs.engine import Engine, find_engine
from rtdvs.plot import View, parse_means, save_compare, save_means, save_trace
from rtdvs.studies import PAIRS, compare
from rtdvs.trace import Trace
from tests.shared.examples import TOP, files, serving

TRACES = {  # a picture's name: the folder, the pair, the ticks, the view and the width
    "edf_cc_with_demands": ("paper", ("edf", "cc"), 16, View(top=4), 1000),
    **{f"{scheduler}_{governor}": ("paper", (scheduler, governor), 16, View(top=4), 500) for scheduler,
       governor in PAIRS},
    "look_ahead": ("ahead", ("edf", "la"), 3, View(), 700),
    "controller": ("controller", ("edf", "cc"), 100, View(top=100, charge=2), 1000),
}
FIGURES = {"demands": 2, "idle": 2, "machines": 3, "tasks": 3}     # the evaluation's, and their columns


def draw_pictures(engine: Engine, target: Path) -> Iterator[Path]:
    """Draws traces, and the comparison of the pairs on the controller, into a folder."""
    for name, (folder, pair, ticks, view, width) in TRACES.items():
        tasks, machine, demands = files(folder)
        trace = engine.run(tasks, machine, *pair, ticks, demands)
        save_trace(trace, target / f"{name}.svg", view, width)
        yield target / f"{name}.svg"
    tasks, machine, demands = files("controller")
    save_compare(compare(engine, tasks, machine, 2000, demands), target / "compare.svg")
    yield target / "compare.svg"


def draw_figures(target: Path) -> Iterator[Path]:
    """Draws the figures of the evaluation into a folder, from their tables."""
    for name, columns in FIGURES.items():
        table = (TOP / "examples" / "evaluation" / f"{name}.tsv").read_text(encoding="utf-8")
        save_means(parse_means(table), target / f"{name}.svg", columns)
        yield target / f"{name}.svg"


def draw_page(engine: Engine, target: Path) -> Path:
    """Draws what a browser shows of the server's page, in 128 colours; it needs selenium and Chromium."""
    from tests.shared.browsing import chromium, until

    browser, path = chromium(), target / "page.png"
    with serving(engine) as server:
        browser.set_window_size(1280, 860)
        browser.get(f"http://127.0.0.1:{server.port}/")
        until(browser, "return document.body.classList.contains('whole') && (schedule.step(1), true)")
        until(browser, "return document.querySelector('#board').textContent.startsWith('line 13')")
        browser.execute_script("document.documentElement.style.overflow = 'hidden'")
        write_small(browser.get_screenshot_as_png(), path)
    browser.quit()
    return path


def write_small(picture: bytes, path: Path) -> None:
    """Writes a picture in 128 colours, in PNG; raises OSError."""
    from PIL import Image

    made = BytesIO()
    Image.open(BytesIO(picture)).convert("RGB").quantize(128).save(made, "PNG", optimize=True)
    write_whole(path, made.getvalue())


if __name__ == "__main__":
    pages, program = TOP / "examples", find_engine()
    for made in chain(draw_pictures(program, pages / "pictures"), [draw_page(program, pages / "pictures")],
                      draw_figures(pages / "evaluation")):
        print(made)
