"""The shared library: how the package calls it, by a stand-in, and that it answers as the program does, byte for byte."""

import os
import re
import shutil
import subprocess
import sys
import time
from collections.abc import Callable, Sequence
from concurrent.futures import Executor, ProcessPoolExecutor, ThreadPoolExecutor
from ctypes import CDLL, c_int
from pathlib import Path

import pytest
from hypothesis import given
from hypothesis import strategies as st

from rtdvs.engine import (
    Answer, Call, Engine, LibraryEngine, Word, admit_call, answer, constrain_call, find_engine, least_call,
    library as library_module, main, migrate_call, poll_call, replay_call, response_call, run_call,
    workload_call,
)
from rtdvs.errors import Crashed, NoEngine, OutOfMemory, TimedOut
from rtdvs.model import Deadlines, Demands, Request, Requests
from tests.conftest import compiled
from tests.shared.examples import (
    BOARD, DATA, PAPER, SOURCE, Captured, cases, fake, machines, options, printed, task_sets,
)
from tools import speed


# What a library is given, and what it leaves

def given_words(stand_in: Path, *words: Word) -> list[str]:
    """The words and the three files that the stand-in is given, each after its length; the first word is `least`."""
    return answer(stand_in, ["least", *words]).out.decode(errors="surrogateescape").splitlines()


def test_words_and_files(stand_in: Path, tmp_path: Path) -> None:
    """Paths and contents are the three files, under the library's own names."""
    (path := tmp_path / "a b").write_bytes(b"of\0three")
    assert given_words(stand_in, "--tasks", path, "--machine", b"", "--probes", "--demands", str(path)) == [
        "65 least --tasks tasks --machine machine --probes --demands demands ", "8 of three", "0 ", "8 of three"]


@pytest.mark.parametrize("option", ["--demands", "--trace", "--deadlines", "--requests"])
def test_names_of_the_third_file(option: str, stand_in: Path) -> None:
    words, *files = given_words(stand_in, option, b"x")
    assert words.endswith(f"least {option} {option.removeprefix('--')} ")
    assert files == ["0 ", "0 ", "1 x"]


@pytest.mark.parametrize("name", ["absent", ".", "a" * 300, "a/../b/c"])
def test_files_that_cannot_be_read(name: str, stand_in: Path, tmp_path: Path) -> None:
    """The library knows no such name, so it says which file it lacks, in the program's order."""
    assert given_words(stand_in, "--machine", tmp_path / name)[0].endswith("least --machine absent ")


def test_files_longer_than_may_be(stand_in: Path) -> None:
    """One byte more than the most is read, also of a file without an end."""
    assert given_words(stand_in, "--tasks", Path("/dev/zero"))[1].startswith(f"{2**24 + 1} ")


@pytest.mark.parametrize("words", [
    ["--tasks", ""], ["--units", "tasks.toml"], ["tasks.toml", "--tasks"], ["--probes", "--units", "--tasks", "x"],
    ["--tasks", os.fsdecode(b"\xff")],
], ids=ascii)
def test_words_that_are_kept(words: list[str], stand_in: Path) -> None:
    """Those that are refused, and those that are no files' names."""
    assert given_words(stand_in, *words)[0].partition(" ")[2] == " ".join(["least", *words, ""])


@pytest.mark.parametrize("words", [["workload", "--seed", "1\0"], ["admit", "--tasks", "\0"]], ids=ascii)
def test_a_word_with_a_zero_byte(words: list[str], stand_in: Path, tmp_path: Path) -> None:
    call = Call[str](words[0], ((words[1], words[2]),))
    for engine in (LibraryEngine(stand_in), Engine(Path(sys.executable))):
        with pytest.raises(ValueError, match="embedded null byte"):
            engine.answer(call)


@pytest.mark.parametrize("length", [0, 1, 2**12, 2**12 + 1, 2**16, 2**16 + 1, 10**6])
def test_long_answers(length: int, stand_in: Path) -> None:
    """One that is longer than the room takes a second call; the room is used again."""
    for _ in range(2):
        found = answer(stand_in, ["run", "--ticks", str(length)])
        assert found == Answer(0, b"o" * length, b"n" * length)
    assert any(len(room) >= length for room in library_module.ROOMS)


def test_an_answer_that_grows_from_call_to_call(stand_in: Path) -> None:
    with pytest.raises(Crashed, match="longer answer than the first"):
        LibraryEngine(stand_in).answer(Call("migrate"))


def test_memory_that_runs_out(stand_in: Path) -> None:
    found = LibraryEngine(stand_in).answer(Call("admit"))
    assert found == Answer(9, b"", b"no memory\n")
    with pytest.raises(OutOfMemory, match="no memory"):
        found.text()


def test_threads_call_at_the_same_time(stand_in: Path) -> None:
    """A call that waits lets others go on: of 8 that wait 0.2 seconds each, some are in the library at a time."""
    engine, most = LibraryEngine(stand_in), c_int.in_dll(CDLL(str(stand_in)), "most_callers")
    most.value = 0
    with ThreadPoolExecutor(8) as executor:
        assert [found.out for found in engine.answers([workload_call(1)] * 8, executor)] == [b"1\n"] * 8
    assert 2 <= most.value <= 8


# Time limits

def test_a_call_that_never_ends(stand_in: Path) -> None:
    before = time.monotonic()
    with pytest.raises(TimedOut, match="no answer within 1.5 seconds"):
        LibraryEngine(stand_in, 1.5).answer(Call("response"))
    assert time.monotonic() - before < 30


def test_a_call_that_ends_in_time(stand_in: Path, monkeypatch: pytest.MonkeyPatch, tmp_path: Path) -> None:
    """The process has this package, for calls made in any folder, also if Python has another one on its path."""
    (tmp_path / "rtdvs").mkdir()
    (tmp_path / "statistics.py").write_text("raise ImportError")
    monkeypatch.chdir(tmp_path)
    (other := tmp_path / "other" / "rtdvs").mkdir(parents=True)
    (other / "__init__.py").write_text("raise ImportError('another one')")
    monkeypatch.setenv("PYTHONPATH", str(other.parent))
    call = Call[str]("least", files=(("--tasks", b"a"), ("--machine", Path("/absent"))))
    assert LibraryEngine(stand_in, 60).answer(call) == LibraryEngine(stand_in).answer(call)
    long = Call[str]("run", (("--ticks", "100000"),))
    assert LibraryEngine(stand_in, 60).answer(long) == LibraryEngine(stand_in).answer(long)


@pytest.mark.parametrize(("words", "status"), [(["workload", "--seed", "7"], 0), (["admit"], 9)], ids=str)
def test_command_line(words: list[str], status: int, stand_in: Path,
                      capfdbinary: pytest.CaptureFixture[bytes]) -> None:
    assert main([str(stand_in), *words]) == status
    wanted = {0: (b"7\n", b""), 9: (b"", b"no memory\n")}[status]
    sys.stderr.flush()
    assert tuple(capfdbinary.readouterr()) == wanted


# Files that are no such library

def built(text: str, folder: Path) -> Path:
    """The shared library of these lines of C."""
    (folder / "library.c").write_text(text)
    return compiled(folder / "library.c", folder)


@pytest.mark.parametrize("timeout", [None, 60])
def test_files_that_are_no_library(timeout: float | None, tmp_path: Path) -> None:
    (tmp_path / "folder.so").mkdir()
    (tmp_path / "empty.so").touch()
    (tmp_path / "text.so").write_text("no library\n" * 1000)
    for name in ("absent.so", "folder.so", "empty.so", "text.so"):
        said = rf"^{tmp_path}/{name}: [^/]*: build the library again \(docs"
        with pytest.raises(NoEngine, match=said):
            find_engine(tmp_path / name, timeout)
        with pytest.raises(NoEngine, match=said):
            LibraryEngine(tmp_path / name, timeout).answer(workload_call(1))


CALLS = ("rtdvs_call", "rtdvs_end", "rtdvs_admit", "rtdvs_constrain", "rtdvs_response", "rtdvs_least")


def functions(names: Sequence[str], body: str) -> str:
    return "".join(f"unsigned char {name}() {{ {body} }}\n" for name in names)


@pytest.mark.parametrize("absent", CALLS)
def test_a_library_without_a_function(absent: str, tmp_path: Path) -> None:
    others = [name for name in CALLS if name != absent]
    with pytest.raises(NoEngine, match=f"librtdvs.so: it has no {absent}: build the library again"):
        find_engine(built(functions(others, "return 0;"), tmp_path))


@pytest.mark.parametrize("body", ["return 0;", "return 2;", "return 9;", "return 10;"])
def test_a_library_of_another_version(body: str, tmp_path: Path) -> None:
    """A known call is made once, and another answer refuses the library."""
    with pytest.raises(NoEngine, match="librtdvs.so: it is of another version: build the library again"):
        find_engine(built(functions(CALLS, body), tmp_path))


@pytest.mark.parametrize(("name", "is_right"), [
    ("librtdvs.so", True), ("librtdvs.so.1", True), ("librtdvs.so.1.1", True), ("librtdvs.so.1.0", False),
    ("librtdvs.so.1.10", False), ("librtdvs.so.1.1.1", False), ("librtdvs.so.2", False)])
def test_the_version_in_a_name(name: str, is_right: bool, stand_in: Path, tmp_path: Path) -> None:
    """It is that of the file to which `librtdvs.so` leads, as a package installs it."""
    shutil.copy(stand_in, tmp_path / name)
    if name != "librtdvs.so":
        (tmp_path / "librtdvs.so").symlink_to(name)
    if is_right:
        assert find_engine(tmp_path / "librtdvs.so") == LibraryEngine(tmp_path / "librtdvs.so")
    else:
        with pytest.raises(NoEngine, match="librtdvs.so: it is of another version: build the library again"):
            find_engine(tmp_path / "librtdvs.so")


def test_two_libraries_of_which_one_is_of_another_version(stand_in: Path, tmp_path: Path) -> None:
    """It is refused, and the other one goes on with its calls."""
    right, other = tmp_path / "right", tmp_path / "other"
    for folder, name in ((right, "librtdvs.so.1.1"), (other, "librtdvs.so.1.0")):
        folder.mkdir()
        shutil.copy(stand_in, folder / name)
        (folder / "librtdvs.so").symlink_to(name)
    engine, call = find_engine(right / "librtdvs.so"), Call[str]("least")
    before = engine.answer(call)
    uses: list[Callable[[Path], object]] = [find_engine, lambda path: LibraryEngine(path).answer(call)]
    for use in uses:
        with pytest.raises(NoEngine, match=f"^{other}/librtdvs.so: it is of another version: build the library again"):
            use(other / "librtdvs.so")
    assert engine.answer(call) == before


FOUND = "from rtdvs import find_engine; print(find_engine())"


@pytest.mark.parametrize("module", ["lib/python3/dist-packages", "lib/python3.11/site-packages"])
def test_the_library_of_an_installed_package(module: str, stand_in: Path, tmp_path: Path) -> None:
    """It is in lib, where tools/package.sh puts it, and comes before the program on the path."""
    shutil.copytree(SOURCE, tmp_path / module, ignore=shutil.ignore_patterns("__pycache__"))
    shutil.copy(stand_in, tmp_path / "lib" / "librtdvs.so.1.1")
    (tmp_path / "lib" / "librtdvs.so").symlink_to("librtdvs.so.1.1")
    environment = {"PYTHONPATH": str(tmp_path / module), "PATH": str(fake(tmp_path / "bin", "").parent)}
    made = subprocess.run([sys.executable, "-c", FOUND], env=environment, capture_output=True, text=True, check=True)
    assert made.stdout == f"LibraryEngine(program={tmp_path / 'lib' / 'librtdvs.so'!r}, timeout=None)\n"


# The library answers as the program does

def by_program(program: Path, words: Sequence[str | Path]) -> Answer:
    made = subprocess.run([program, *words], stdin=subprocess.DEVNULL, capture_output=True)
    return Answer(made.returncode, made.stdout, made.stderr)


def alike(program: Path, library: Path, words: Sequence[str | Path]) -> Answer:
    """The answer of both."""
    found = answer(library, words)
    assert found == by_program(program, words), words
    return found


EXAMPLES = (DATA / "calls.txt").read_text().splitlines()
PROBED = [line for line in EXAMPLES if line.startswith("run ")]


@pytest.mark.parametrize("line", [*EXAMPLES, *(f"{line} --probes" for line in PROBED)])
def test_example_calls(line: str, program: Path, library: Path, monkeypatch: pytest.MonkeyPatch) -> None:
    """All nine commands are among them."""
    monkeypatch.chdir(DATA)
    alike(program, library, line.split())


SETS = "--tasks paper/tasks.toml --machine paper/machine.toml"
LA = "paper/edf_la_with_demands.trace"


@pytest.mark.parametrize(("line", "status"), cases("statuses"))
def test_each_status(line: str, status: str, program: Path, library: Path, tmp_path: Path,
                     monkeypatch: pytest.MonkeyPatch) -> None:
    (tmp_path / "paper").symlink_to(DATA / "paper")
    (tmp_path / "over.csv").write_text("task,job,units\nt1,1,13\n")
    wrong = (DATA / LA).read_text().replace("speed 3 2", "speed 3 3")
    (tmp_path / "wrong.trace").write_text(wrong)
    monkeypatch.chdir(tmp_path)
    words = line.replace("SETS", SETS).replace("LA", LA).split()
    assert alike(program, library, words).status == int(status)


WORDS = ["run", "admit", "least", "workload", "--tasks", "--machine", "--demands", "--trace", "--deadlines",
         "--requests", "--server", "--scheduler", "--governor", "--ticks", "--seed", "--units", "--probes",
         "--format", "edf", "rm", "cc", "1", "2", "t1", "", "tasks", str(DATA / "paper" / "tasks.toml"),
         str(DATA / "paper" / "machine.toml"), str(DATA / "absent"), "\udcff", "é"]


@given(st.lists(st.sampled_from(WORDS), max_size=9))
def test_random_words(program: Path, library: Path, words: list[str]) -> None:
    alike(program, library, words)


@st.composite
def random_calls(draw: st.DrawFn) -> Call[object]:
    """A call of one of the commands but `workload`, `replay` and `migrate`, of tasks that are mostly admitted."""
    tasks = draw(task_sets(4, st.integers(1, 12), st.integers(1, 10), st.integers(0, 4)))
    machine, ticks, units = draw(machines(3, 30, 2)), draw(st.integers(1, 60)), draw(st.integers(0, 40))
    pair = draw(st.sampled_from(["edf", "rm"])), draw(st.sampled_from(["none", "static", "cc", "la"]))
    names, work = [task.name for task in tasks.tasks], draw(st.integers(0, 12))
    demands = draw(st.none() | st.just(Demands({(names[-1], 1): work})))
    deadlines = Deadlines({task.name: max(1, task.period - work) for task in tasks.tasks})
    requests = Requests(tuple(Request(arrival, 1 + units % 3) for arrival in range(0, units, 3)))
    return draw(st.sampled_from([
        run_call(tasks, machine, *pair, ticks, demands, version=1 + units % 2), admit_call(tasks, machine, pair[0]),
        response_call(tasks, machine), constrain_call(tasks, machine, deadlines), least_call(machine, units, ticks),
        poll_call(tasks, machine, requests, names[0], *pair, ticks),
    ]))


@given(call=random_calls(), place=st.integers(0, 10**6), byte=st.integers(0, 255))
def test_random_sets(program: Path, library: Path, call: Call[object], place: int, byte: int) -> None:
    """Also a trace that was made, as it is and with another byte."""
    by_library, by_process = LibraryEngine(library), Engine(program)
    found = by_library.answer(call)
    assert found == by_process.answer(call)
    if call.command == "run" and found.status == 0:
        files, at = {name: str(text).encode() for name, text in call.files}, place % len(found.out)
        changed = found.out[:at] + bytes([byte]) + found.out[at + 1:]
        for make, trace in ((replay_call, found.out), (migrate_call, found.out), (replay_call, changed),
                            (migrate_call, changed)):
            traced = make(files["--tasks"], files["--machine"], trace)
            assert by_library.answer(traced) == by_process.answer(traced)


def test_a_long_run(program: Path, library: Path) -> None:
    """Its answer is longer than the first room."""
    call = run_call(PAPER, BOARD, "edf", "cc", 100_000)
    found = LibraryEngine(library).answer(call)
    assert len(found.out) > 2**20 and found == Engine(program).answer(call)


@pytest.mark.parametrize("kind", [ThreadPoolExecutor, ProcessPoolExecutor])
def test_answers_on_executors(kind: type[Executor], library: Path) -> None:
    calls = [run_call(PAPER, BOARD, "edf", "cc", ticks) for ticks in range(1, 400)]
    engine = LibraryEngine(library)
    with kind(4) as executor:  # type: ignore[call-arg]
        assert [*engine.answers(calls, executor)] == [*engine.answers(calls)]


def test_tools_by_the_library(program: Path, library: Path, capsys: Captured) -> None:
    """`--program` names either."""
    words = ["compare", *options(DATA / "paper"), "--ticks", "16", "--program"]
    by_program, by_library = (printed(capsys, [*words, path]) for path in (program, library))
    assert by_program == by_library != ""


def test_a_time_limit_changes_no_answer(library: Path) -> None:
    call = admit_call(DATA / "paper" / "tasks.toml", BOARD, "edf")
    assert LibraryEngine(library, 60).answer(call) == LibraryEngine(library).answer(call)


def test_the_measurement(stand_in: Path) -> None:
    """A line for each list and number of threads."""
    engine = LibraryEngine(stand_in)
    found = [*speed.lines(engine, engine, {"short calls": [workload_call(4)] * 9})]
    assert [re.sub(r"[0-9.]+ us|[0-9.]+$|[0-9]+ and", "_", line) for line in found] == [
        f"9 short calls{kind}: program _ _, library _ _, ratio _" for kind in ("", ", four at a time")]
    with pytest.raises(RuntimeError, match="not done"):
        speed.cost(engine, [Call("admit")], None)
