"""Files that are whole or as before, where there is no room for the new one, or no right to write it."""

import os
import resource
import subprocess
import sys
from collections.abc import Callable, Iterator
from concurrent.futures import ThreadPoolExecutor
from contextlib import contextmanager
from pathlib import Path

import pytest

from rtdvs._files import write_whole
from rtdvs.cli import main as cli
from rtdvs.studies import Sweep, evaluate, exercise
from tests.cli.test_outputs import EVALUATE, SIMULATED, Flat
from tests.shared.examples import DATA, SOURCE, TEST_DATA, TOP, Captured, printed, refusal
from tools import messages, pictures, tour

OLD = b"as it was\n"


@pytest.mark.parametrize("content", [pytest.param("\u00e4\r\n", id="text"), pytest.param(b"\xff\0", id="bytes"),
                                     pytest.param("", id="nothing")])
def test_what_is_written(content: str | bytes, tmp_path: Path) -> None:
    """A file has the bytes, and the rights and links that it had."""
    new, kept, link = (tmp_path / name for name in ("new", "kept", "link"))
    kept.write_bytes(OLD)
    kept.chmod(0o640)
    link.symlink_to(kept)
    for path in (new, link):
        write_whole(path, content)
        assert path.read_bytes() == (content if isinstance(content, bytes) else content.encode())
    mask = os.umask(0)
    os.umask(mask)
    assert (new.stat().st_mode & 0o777, kept.stat().st_mode & 0o777) == (0o666 & ~mask, 0o640)
    assert link.is_symlink() and sorted(tmp_path.iterdir()) == sorted([new, kept, link])


def test_texts_come_one_after_the_other(tmp_path: Path) -> None:
    """What fails while they come leaves the file as it was."""
    def texts(last: int) -> Iterator[str]:
        for number in range(last):
            yield f"{number}\n"
        if last < 3:
            raise ValueError("a fault of the texts")

    (file := tmp_path / "file").write_bytes(OLD)
    with pytest.raises(ValueError, match="a fault of the texts"):
        write_whole(file, texts(2))
    assert file.read_bytes() == OLD and [*tmp_path.iterdir()] == [file]
    write_whole(file, texts(3))
    assert file.read_bytes() == b"0\n1\n2\n"


def test_what_is_no_file(tmp_path: Path) -> None:
    """A pipe is written as it is, and a folder is refused."""
    pipe = tmp_path / "pipe"
    os.mkfifo(pipe)
    reader = os.open(pipe, os.O_RDONLY | os.O_NONBLOCK)
    write_whole(pipe, "trace 2\n")
    assert os.read(reader, 100) == b"trace 2\n" and pipe.is_fifo()
    os.close(reader)
    with pytest.raises(IsADirectoryError) as caught:
        write_whole(tmp_path, "x")
    assert caught.value.filename == str(tmp_path)


def test_an_interrupt_leaves_the_old_file(tmp_path: Path, monkeypatch: pytest.MonkeyPatch) -> None:
    def interrupt(number: int) -> None:
        raise KeyboardInterrupt

    (file := tmp_path / "file").write_bytes(OLD)
    monkeypatch.setattr("os.fsync", interrupt)
    with pytest.raises(KeyboardInterrupt):
        write_whole(file, "new")
    assert file.read_bytes() == OLD and [*tmp_path.iterdir()] == [file]


# Commands that write more than there is room for

LIMITED = """import resource, runpy, sys
resource.setrlimit(resource.RLIMIT_FSIZE, (36, resource.getrlimit(resource.RLIMIT_FSIZE)[1]))
sys.argv[0] = "rtdvs"
runpy.run_module("rtdvs", run_name="__main__", alter_sys=True)
"""
TRACE = DATA / "paper" / "edf_cc_with_demands.trace"
FILES = [f"--tasks={DATA}/paper/tasks.toml", f"--machine={DATA}/paper/machine.toml"]
DESIGN = ["design", "--device-tree", str(TEST_DATA / "old.dts")]
WRITERS = {
    "convert": (["convert", "--to", "csv", "--trace", str(TRACE), *FILES, "--output", "OUT"], "OUT"),
    "page": (["page", str(TRACE), *FILES, "--output", "OUT"], "OUT"),
    "plot": (["plot", "trace", "--trace", str(TRACE), *FILES, "--output", "OUT.svg"], "OUT.svg"),
    "design": ([*DESIGN, "--output", "OUT"], "OUT"),
    "design, a folder": ([*DESIGN, "--board", str(TEST_DATA / "board.toml"), "--folder", "OUT"], "OUT/tasks.toml"),
    "generate": (["generate", "demands", FILES[0], "--ticks", "100", "--share", "0.7", "--output", "OUT"], "OUT"),
    "evaluate": (["evaluate", "--program", "/bin/true", "--sets", "1", "--folder", "OUT"], "OUT/sweep"),
}


@pytest.mark.parametrize(("words", "name"), WRITERS.values(), ids=WRITERS)
def test_a_file_without_room(words: list[str], name: str, tmp_path: Path) -> None:
    """The error names the file, which is as it was, and there is no other one."""
    if words[0] == "plot":  # the limit is for the picture: the list of fonts is there before, for any user
        pytest.importorskip("matplotlib.font_manager")
    file = tmp_path / name
    if words[0] != "evaluate":
        file.parent.mkdir(exist_ok=True)
        file.write_bytes(OLD)
    call = [sys.executable, "-c", LIMITED, *(word.replace("OUT", str(tmp_path / "OUT")) for word in words)]
    made = subprocess.run(call, env=os.environ | {"PYTHONPATH": SOURCE}, capture_output=True, text=True, timeout=120)
    assert (made.returncode, made.stderr) == (2, f"rtdvs: {file}: File too large\n")
    assert [path.read_bytes() for path in tmp_path.rglob("*") if path.is_file()] == [OLD] * (words[0] != "evaluate")


@contextmanager
def room_for(most: int) -> Iterator[None]:
    """No file of this process gets more bytes for a time."""
    before, hard = resource.getrlimit(resource.RLIMIT_FSIZE)
    resource.setrlimit(resource.RLIMIT_FSIZE, (most, hard))
    try:
        yield
    finally:
        resource.setrlimit(resource.RLIMIT_FSIZE, (before, hard))


def write_results(folder: Path) -> None:
    """A result that isn't whole is made again."""
    with ThreadPoolExecutor(1) as executor:
        assert [*evaluate(Flat(Path("flat")), folder, Sweep(most=1, counts=[5], tenths=[8]), executor)]


def write_picture(folder: Path) -> None:
    pictures.write_small((TOP / "examples" / "pictures" / "page.png").read_bytes(), folder / "page.png")


OTHERS: dict[str, tuple[Callable[[Path], object], str]] = {
    "an exercise": (exercise(SIMULATED, 7).write, "tasks.toml"),
    "a result of an evaluation": (write_results, "results/5_8_1.tsv"),
    "the notebook": (lambda folder: tour.write(folder / "tour.ipynb"), "tour.ipynb"),
    "the tables of messages": (lambda folder: messages.write(folder / "MESSAGES.md"), "MESSAGES.md"),
    "the picture of the page": (write_picture, "page.png"),
}


@pytest.mark.parametrize(("write", "name"), OTHERS.values(), ids=OTHERS)
def test_what_the_package_writes_without_room(write: Callable[[Path], object], name: str, tmp_path: Path,
                                              monkeypatch: pytest.MonkeyPatch) -> None:
    """The error names the file, which is as it was; with room it is written."""
    monkeypatch.setattr(tour, "executed", lambda notebook, folder: notebook)
    file = tmp_path / name
    file.parent.mkdir(exist_ok=True)
    file.write_bytes(OLD)
    with room_for(40), pytest.raises(OSError, match="File too large") as caught:
        write(tmp_path)
    assert caught.value.filename == str(file) and file.read_bytes() == OLD
    assert {path.name for path in tmp_path.rglob("*") if path.is_file()} <= {file.name, "sweep"}
    write(tmp_path)
    assert len(file.read_bytes()) > 40


def test_a_table_of_an_evaluation_without_room(tmp_path: Path, monkeypatch: pytest.MonkeyPatch, capsys: Captured) -> None:
    monkeypatch.setattr("rtdvs.cli.options.find_engine", lambda *words: Flat(Path("flat")))
    words = EVALUATE.replace("OUT", str(tmp_path)).split()
    printed(capsys, words)
    tables = [*tmp_path.glob("sweep/*.tsv")]
    for file in tables:
        file.write_bytes(OLD)
    with room_for(40):
        assert refusal(capsys, words) in [f"rtdvs: {file}: File too large\n" for file in tables]
    assert [file.read_bytes() for file in tables] == [OLD] * 4


def test_grades_without_room(tmp_path: Path, capsys: Captured) -> None:
    file, handed = tmp_path / "grades.csv", tmp_path / "handed"
    file.write_bytes(OLD)
    handed.mkdir()
    (handed / "anna.trace").write_bytes(TRACE.read_bytes())
    words = ["explain", *FILES, f"--trace={TRACE}", f"--demands={DATA}/paper/demands.csv", f"--grade={handed}", f"--csv={file}"]
    with room_for(36):
        assert cli.main(words) == 2
    assert capsys.readouterr().err == f"rtdvs: {file}: File too large\n"
    assert file.read_bytes() == OLD and {*tmp_path.iterdir()} == {file, handed}
