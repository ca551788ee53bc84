"""Runs the notebook of the examples and stores what it shows.

It needs nbconvert, ipykernel and the built program: cd python && PYTHONPATH=src python3 -m tools.tour
"""

import json
import os
import subprocess
import sys
from collections.abc import Iterator
from pathlib import Path
from tempfile import TemporaryDirectory
from typing import Any

from rtdvs._files import write_whole
from tests.shared.examples import SOURCE, TOP

NOTEBOOK = TOP / "examples" / "tour.ipynb"
METADATA = {"kernelspec": {"display_name": "Python 3", "language": "python", "name": "python3"},
            "language_info": {"name": "python"}}
SECONDS = 1200

Cell = dict[str, Any]
Notebook = dict[str, Any]


class RunFailed(Exception):
    """A cell raised, or nbconvert failed; the text is the end of what it said."""


def read() -> Notebook:
    """The stored notebook."""
    found: Notebook = json.loads(NOTEBOOK.read_text(encoding="utf-8"))
    return found


def text_of(notebook: Notebook) -> str:
    """The file of a notebook, in the form in which Jupyter writes it.

    >>> text_of({"nbformat": 4, "cells": []})
    '{\\n "cells": [],\\n "nbformat": 4\\n}\\n'
    """
    return json.dumps(notebook, indent=1, ensure_ascii=False, sort_keys=True) + "\n"


def code_cells(notebook: Notebook) -> list[Cell]:
    """The cells that are run.

    >>> code_cells({"cells": [{"cell_type": "markdown"}, {"cell_type": "code"}]})
    [{'cell_type': 'code'}]
    """
    return [cell for cell in notebook["cells"] if cell["cell_type"] == "code"]


def executed(notebook: Notebook, folder: Path) -> Notebook:
    """What the notebook is after a run from its top in an empty folder; raises RunFailed, TimeoutExpired."""
    prepare(notebook, folder)
    words = [sys.executable, "-m", "nbconvert", "--to", "notebook", "--execute", "--stdout", "--log-level",
             "ERROR", f"--ExecutePreprocessor.startup_timeout={SECONDS}", NOTEBOOK.name]
    run = subprocess.run(words, cwd=folder / "examples", env=environment(folder), stdin=subprocess.DEVNULL,
                         capture_output=True, encoding="utf-8", timeout=SECONDS)
    if run.returncode != 0:
        raise RunFailed(run.stderr[-3000:])
    found: Notebook = json.loads(run.stdout)
    return found


def prepare(notebook: Notebook, folder: Path) -> None:
    """Writes the notebook beside the repository's data, and this interpreter as the kernel."""
    kernel, place = folder / "jupyter" / "kernels" / "python3", folder / "examples"
    for made in (kernel, place):
        made.mkdir(parents=True)
    words = [sys.executable, "-m", "ipykernel_launcher", "-f", "{connection_file}"]
    started = json.dumps({"argv": words, **METADATA["kernelspec"]})
    (kernel / "kernel.json").write_text(started, encoding="utf-8")
    (place / NOTEBOOK.name).write_text(text_of(notebook), encoding="utf-8")
    (folder / "crates").symlink_to(TOP / "crates")


def environment(folder: Path) -> dict[str, str]:
    """The environment of a run: the repository's package, and Jupyter without the user's settings."""
    names = ("JUPYTER_PATH", "JUPYTER_DATA_DIR", "JUPYTER_CONFIG_DIR", "JUPYTER_RUNTIME_DIR", "IPYTHONDIR")
    own = {**dict.fromkeys(names, str(folder / "jupyter")), "PYTHONPATH": SOURCE}
    return {**os.environ, **own, "PYTHONDONTWRITEBYTECODE": "1"}


def shown(cell: Cell) -> Iterator[str]:
    """What a cell shows: the texts, and the kind of each picture. What is said on standard error isn't shown.

    >>> [*shown({"outputs": [{"output_type": "stream", "name": "stdout", "text": ["a\\n", "b"]}]})]
    ['a\\nb']
    >>> data = {"image/png": "iVBORw", "text/plain": ["a picture"]}
    >>> [*shown({"outputs": [{"output_type": "display_data", "data": data}]})]
    ['image/png', 'a picture']
    """
    printed = ["".join(output["text"]) for output in cell["outputs"]
               if output["output_type"] == "stream" and output["name"] == "stdout"]
    if printed:
        yield "".join(printed)
    for output in cell["outputs"]:
        for kind, content in sorted(output.get("data", {}).items()):
            yield kind if kind.startswith("image/") else "".join(content)


def stored(notebook: Notebook) -> Notebook:
    """A notebook after a run without what differs from run to run.

    >>> cell = {"cell_type": "code", "id": "a", "metadata": {"execution": {}}, "outputs": []}
    >>> stored({"cells": [cell], "metadata": {}, "nbformat": 4, "nbformat_minor": 5})["cells"][0]["metadata"]
    {}
    """
    cells: list[Cell] = [{**cell, "metadata": {}} for cell in notebook["cells"]]
    for cell in code_cells({"cells": cells}):
        cell["outputs"] = [output for output in cell["outputs"] if output.get("name") != "stderr"]
    return {**notebook, "cells": cells, "metadata": METADATA}


def write(path: Path) -> None:
    """Runs the stored notebook, and writes it with what it shows; raises RunFailed, TimeoutExpired and OSError."""
    with TemporaryDirectory(prefix="rtdvs-") as empty:
        write_whole(path, text_of(stored(executed(read(), Path(empty)))))


if __name__ == "__main__":
    write(NOTEBOOK)
    print(NOTEBOOK)
