"""The engine: typed answers, an exception for each status, failing programs, and lists of calls."""

import json
import os
import pickle
import shutil
import subprocess
import sys
import time
from collections.abc import Callable, Iterator
from concurrent.futures import Executor, ProcessPoolExecutor, ThreadPoolExecutor
from pathlib import Path

import pytest

from rtdvs.engine import (
    Admitted, Answer, Call, Constrained, Engine, Least, LibraryEngine, Service, TryEngine, admit_call,
    engine as engine_module, find_engine, parse_admitted, parse_least, parse_polled, parse_replayed,
    parse_responses, parse_workload, workload_call,
)
from rtdvs.errors import (
    Crashed, Denied, Differs, EngineError, FileRefused, LoadFailed, NoEngine, NoText, OutOfMemory,
    OverWorst, RtdvsError, TimedOut, TooManyJobs, WordsRefused, WriteFailed,
)
from rtdvs.model import Deadlines, Demands, Requests, Task, TaskSet
from tests.shared.examples import BOARD, DATA, PAPER, SOURCE, TEST_DATA, rows, fake, files


@pytest.fixture(params=["program", "library"])
def engine(request: pytest.FixtureRequest) -> Engine:
    """The program, which may take a minute for a call, and the library: both answer alike."""
    timeout = 60.0 if request.param == "program" else None
    return find_engine(request.getfixturevalue(request.param), timeout)


# Answers; the expected ones are those of docs/COMMANDS.md.

def test_admitted(engine: Engine) -> None:
    assert engine.admit(PAPER, BOARD, "edf") == Admitted("edf", 836, 280, 3)
    assert engine.admit(PAPER, BOARD, "rm") == Admitted("rm", 52, 14, 4)


def test_run(engine: Engine) -> None:
    paper, (_, _, demands) = DATA / "paper", files("paper")
    stored = (paper / "edf_cc_with_demands.trace").read_text()
    assert engine.run(PAPER, BOARD, "edf", "cc", 16, demands, version=1).text() == stored
    second = engine.run(paper / "tasks.toml", BOARD, "edf", "cc", 16, demands)
    assert second.text().startswith("trace 2\nplan edf cc 16\ntask t1 8 0 12\n")


def test_replay_and_migrate(engine: Engine) -> None:
    trace = DATA / "paper" / "edf_la_with_demands.trace"
    found = engine.replay(PAPER, BOARD, trace)
    assert (found.released, found.finished, found.run_energy, found.idle_energy) == (6, 6, 315_000_000_000, 0)
    assert engine.migrate(PAPER, BOARD, trace).version == 2


def test_responses(engine: Engine) -> None:
    assert engine.respond(PAPER, BOARD) == {"t1": 3, "t2": 6, "t3": 7}


def test_constrained(engine: Engine) -> None:
    folder = DATA / "deadlines"
    tasks = TaskSet.read(folder / "tasks.toml")
    deadlines = Deadlines.read(folder / "deadlines.csv", tasks)
    assert engine.constrain(tasks, folder / "machine.toml", deadlines) == Constrained(7, 6, 2)


def test_polled(engine: Engine) -> None:
    folder = DATA / "server"
    requests = Requests.read(folder / "requests.csv")
    found = engine.poll(folder / "tasks.toml", folder / "machine.toml", requests, "s", "edf", "none", 15)
    assert found.services[1:] == (Service(2, 1, 6, 3, "10:2"), Service(3, 12, 1))
    assert (found.served, found.run_energy, found.idle_energy) == (2, 725_000_000_000, 0)


def test_least(engine: Engine) -> None:
    assert engine.least(BOARD, 28, 16) == Least(2, 0, 4, 2, 28, 504_000_000_000, 18_000_000_000, 0)


def test_workload(engine: Engine) -> None:
    none, static, cc, la = engine.workload(1)
    assert (none.governor, none.finished, none.run_energy) == ("none", 29150, 644_393_500_000_000_000)
    assert (static.decisions, cc.decisions, la.decisions) == (23323, 23379, 24710)


PARSERS = (parse_admitted, parse_least, parse_polled, parse_replayed, parse_responses, parse_workload)


@pytest.mark.parametrize("parse", PARSERS)
@pytest.mark.parametrize("text", ["x", "admitted edf 1/2 3", "least 1\n", "polled 1 2\n", "response a 01\n"])
def test_texts_that_no_program_prints(parse: Callable[[str], object], text: str) -> None:
    with pytest.raises(Crashed, match="an unknown answer"):
        parse(text)


def test_an_answer_that_is_no_text() -> None:
    with pytest.raises(Crashed, match="not UTF-8"):
        Answer(0, b"\xff", b"").text()


def test_a_price_below_nothing() -> None:
    assert parse_least("least 1 2 3 4 5 6\nprices 7 minus 8\n").tick_price == -8


# Statuses

LINES = rows("errors")


@pytest.mark.parametrize(("status", "line", "kind", "fields"), LINES, ids=[line for _, line, _, _ in LINES])
def test_each_status(status: str, line: str, kind: str, fields: str) -> None:
    with pytest.raises(RtdvsError) as caught:
        Answer(int(status), b"", f"{line}\n".encode()).text()
    error, wanted = caught.value, json.loads(fields)
    assert (type(error).__name__, error.status, str(error)) == (kind, int(status), line)
    assert {name: getattr(error, name) for name in wanted} == wanted
    again = pickle.loads(pickle.dumps(error))
    assert (type(again), vars(again)) == (type(error), vars(error))


@pytest.mark.parametrize(("status", "kind"), [(9, OutOfMemory), (10, NoText)])
def test_statuses_without_a_line(status: int, kind: type[EngineError]) -> None:
    with pytest.raises(kind, match="."):
        Answer(status, b"", b"").text()


@pytest.mark.parametrize("status", range(1, 8))
@pytest.mark.parametrize("notes", [b"", b"\xff\n", b"denied\n", b"load: tasks: x\n", b"differs: line 1\n"])
def test_unknown_lines(status: int, notes: bytes) -> None:
    with pytest.raises(Crashed, match=f"status {status} and an unknown line"):
        Answer(status, b"", notes).text()


@pytest.mark.parametrize("status", [11, 127, 255])
def test_unknown_statuses(status: int) -> None:
    with pytest.raises(Crashed, match=f"status {status}: no"):
        Answer(status, b"", b"no\n").text()


def test_refusals_of_the_program(engine: Engine, tmp_path: Path) -> None:
    with pytest.raises(Denied, match="denied edf"):
        engine.admit(TaskSet((Task("a", 1, 5),)), BOARD, "edf")
    with pytest.raises(WordsRefused, match="rm has no governor la"):
        engine.run(PAPER, BOARD, "rm", "la", 16)
    with pytest.raises(LoadFailed, match="load: tasks"):
        engine.admit(tmp_path / "absent", BOARD, "edf")
    with pytest.raises(LoadFailed, match="load: machine"):
        engine.admit(PAPER, tmp_path, "edf")
    with pytest.raises(FileRefused, match="tasks: not TOML"):
        engine.admit(b"\xff", BOARD, "edf")
    with pytest.raises(TooManyJobs):
        engine.run(PAPER, BOARD, "edf", "none", 2**40)
    with pytest.raises(OverWorst):
        engine.run(PAPER, BOARD, "edf", "none", 16, Demands({("t1", 1): 13}))
    trace = (DATA / "paper" / "edf_la_with_demands.trace").read_text().replace("speed 3 2", "speed 3 3").encode()
    with pytest.raises(Differs, match="differs: line 10\nwanted: speed 3 2 8/5\nfound: speed 3 3 8/5"):
        engine.replay(PAPER, BOARD, trace)


# Programs that fail

@pytest.mark.parametrize(("name", "said"), [
    ("absent", "absent: No such file or directory"), (".", "Permission denied"), ("broken", "Exec format error"),
])
def test_what_is_no_program(name: str, said: str, tmp_path: Path) -> None:
    fake(tmp_path, "", "broken").write_bytes(b"\x7fELF broken")
    with pytest.raises(NoEngine, match=said):
        Engine(tmp_path / name).workload(1)


@pytest.mark.parametrize(("end", "kind", "said"), [
    ("kill -9 $$", Crashed, "signal 9"), ("exit 8", WriteFailed, "write: out failed"), ("exit 9", OutOfMemory, "no memory"),
    ("exit 42", Crashed, "status 42"),
])
def test_a_program_that_fails(end: str, kind: type[EngineError], said: str, tmp_path: Path) -> None:
    with pytest.raises(kind, match=said):
        Engine(fake(tmp_path, f"echo workload; {end}")).workload(1)


def test_a_program_that_never_ends(tmp_path: Path) -> None:
    """The program is killed with all that it started."""
    program = fake(tmp_path, f"sleep 60 & echo $! > {tmp_path}/child; wait")
    before = time.monotonic()
    with pytest.raises(TimedOut, match="no answer within 0.5 seconds"):
        Engine(program, timeout=0.5).workload(1)
    assert time.monotonic() - before < 20
    assert not running(int((tmp_path / "child").read_text()))


def running(process: int) -> bool:
    """Whether a process does anything still; one that ended may wait for its parent."""
    for _ in range(50):
        try:
            state = Path(f"/proc/{process}/stat").read_text().rpartition(") ")[2][0]
        except FileNotFoundError:
            return False
        if state == "Z":
            return False
        time.sleep(0.1)
    return True


def test_what_a_program_gets(tmp_path: Path, monkeypatch: pytest.MonkeyPatch) -> None:
    """The folder and the environment of the caller, no input, and files that are gone after the call."""
    monkeypatch.chdir(tmp_path)
    monkeypatch.setenv("LEFT_ALONE", "as it was")
    engine = Engine(fake(tmp_path, 'pwd; echo "$LEFT_ALONE"; cat; cat "$5"; echo "$@"'))
    out = engine.answer(admit_call(Path("a b.toml"), b"idle = 1\n", "edf")).out.decode().splitlines()
    assert out[:2] == [str(tmp_path), "as it was"]
    words = out[-1].split(" --")
    assert words[:3] == ["admit", "scheduler edf", f"tasks {tmp_path}/a b.toml"]
    assert not Path(words[3].removeprefix("machine ")).exists()
    assert os.environ["LEFT_ALONE"] == "as it was"


def test_output_in_plenty(tmp_path: Path) -> None:
    """Both streams are read at once, so neither blocks the program."""
    program = fake(tmp_path, "head -c 300000 /dev/zero >&2; head -c 300000 /dev/zero; exit 9")
    answer = Engine(program, timeout=30).answer(workload_call(1))
    assert (answer.status, len(answer.out), len(answer.notes)) == (9, 300_000, 300_000)


# Which engine

@pytest.fixture
def bare(tmp_path: Path, monkeypatch: pytest.MonkeyPatch) -> Path:
    """A place with no program and no library at all."""
    monkeypatch.delenv("RTDVS", raising=False)
    monkeypatch.setenv("PATH", str(tmp_path / "bin"))
    monkeypatch.setattr(engine_module, "CRATE", tmp_path / "crate")
    monkeypatch.setattr(engine_module, "LIBRARIES", (tmp_path / "wheel.so", tmp_path / "built.so"))
    return tmp_path


def test_no_engine(bare: Path) -> None:
    with pytest.raises(NoEngine, match="build it with .* install the Debian package"):
        find_engine()
    with pytest.raises(NoEngine, match="absent: no such program"):
        find_engine(Path("absent"))


def test_order_of_engines(bare: Path, monkeypatch: pytest.MonkeyPatch) -> None:
    """Each one that is there is preferred to those before it."""
    (bare / "crate").mkdir()
    fake(bare / "bin", "", "rt")
    assert find_engine(timeout=3) == TryEngine(bare / "crate", 3)
    on_path = fake(bare / "bin", "")
    assert find_engine() == Engine(on_path)
    built = fake(bare / "crate" / "out", "")
    assert find_engine() == Engine(built)
    monkeypatch.setenv("RTDVS", str(fake(bare / "named", "")))
    assert find_engine() == Engine(bare / "named" / "rtdvs")
    monkeypatch.chdir(bare)
    assert find_engine(Path("./bin/rtdvs")) == Engine(on_path)
    assert find_engine(Path("rtdvs")) == Engine(on_path)
    monkeypatch.setenv("RTDVS", str(bare))
    with pytest.raises(NoEngine, match="no such program"):
        find_engine()


def test_order_of_libraries(bare: Path, stand_in: Path, monkeypatch: pytest.MonkeyPatch) -> None:
    """Each is preferred to those before it; with a time limit a program is."""
    on_path = fake(bare / "bin", "")
    for name in ("built.so", "wheel.so", "named.so.1"):
        shutil.copy(stand_in, bare / name)
        monkeypatch.setenv("RTDVS", str(bare / name) if name == "named.so.1" else "")
        assert find_engine() == LibraryEngine(bare / name)
    assert find_engine(timeout=3) == LibraryEngine(bare / name, 3)
    monkeypatch.delenv("RTDVS")
    assert find_engine(timeout=3) == Engine(on_path, 3)
    on_path.unlink()
    assert find_engine(timeout=3) == LibraryEngine(bare / "wheel.so", 3)
    monkeypatch.chdir(bare)
    assert find_engine(Path("built.so")) == LibraryEngine(bare / "built.so")


def test_a_library_that_is_none_is_not_passed_over(bare: Path) -> None:
    fake(bare / "bin", "")
    (bare / "wheel.so").touch()
    with pytest.raises(NoEngine, match="wheel.so: .*: build the library again"):
        find_engine()


def test_folder_named_as_the_program(bare: Path) -> None:
    (bare / "crate" / "out" / "rtdvs").mkdir(parents=True)
    with pytest.raises(NoEngine):
        find_engine()


# Lists of calls

CALLS = [workload_call(seed) for seed in range(12)]


@pytest.fixture(params=["program", "library"])
def echo(request: pytest.FixtureRequest, tmp_path: Path) -> Engine:
    """A program, or a library, that prints its seed, the later ones sooner."""
    if request.param == "library":
        return LibraryEngine(request.getfixturevalue("stand_in"))
    return Engine(fake(tmp_path, '[ "$3" -gt 3 ] || sleep 0.2; echo "$3"'))


def seeds(answers: Iterator[Answer]) -> list[int]:
    return [int(answer.out) for answer in answers]


def test_answers_are_lazy(echo: Engine) -> None:
    assert int(next(echo.answers(iter(CALLS[5:]))).out) == 5


@pytest.mark.parametrize("kind", [ThreadPoolExecutor, ProcessPoolExecutor])
def test_answers_on_executors(kind: type[Executor], echo: Engine) -> None:
    with kind(2) as executor:  # type: ignore[call-arg]
        assert seeds(echo.answers(CALLS, executor)) == [*range(12)]


def test_errors_on_executors(tmp_path: Path) -> None:
    with ProcessPoolExecutor(1) as executor, pytest.raises(NoEngine, match="absent"):
        list(Engine(tmp_path / "absent").answers(CALLS, executor))


def test_answers_on_dask(echo: Engine, tmp_path: Path) -> None:
    distributed = pytest.importorskip("distributed")
    options = {"processes": False, "dashboard_address": ":0", "local_directory": str(tmp_path)}
    with distributed.LocalCluster(1, **options) as cluster, distributed.Client(cluster) as client:
        assert seeds(echo.answers(CALLS, client.get_executor())) == [*range(12)]


def test_answers_on_mpi(echo: Engine, tmp_path: Path) -> None:
    pytest.importorskip("mpi4py")
    if not shutil.which("mpiexec"):
        pytest.skip("no mpiexec")
    shutil.copy(TEST_DATA / "sweep.txt", tmp_path / "sweep.py")
    words = ["mpiexec", "-n", "2", sys.executable, "-m", "mpi4py.futures", "sweep.py", str(echo.program)]
    allowed = ("ALLOW_RUN_AS_ROOT", "ALLOW_RUN_AS_ROOT_CONFIRM", "MCA_rmaps_base_oversubscribe")
    variables = {f"OMPI_{name}": "1" for name in allowed}
    environment = os.environ | variables | {"PYTHONPATH": SOURCE}
    ran = subprocess.run(words, cwd=tmp_path, env=environment, capture_output=True, text=True, timeout=300)
    assert ran.stdout.split() == [str(seed) for seed in range(12)], ran.stderr


# rt try

@pytest.fixture
def tried(bare: Path, monkeypatch: pytest.MonkeyPatch) -> TryEngine:
    """The stand-in for `rt try --cases` of stand_in.sh."""
    (bare / "crate").mkdir()
    fake(bare / "bin", (Path(__file__).parents[1] / "stand_in.sh").read_text(), "rt")
    monkeypatch.setenv("PATH", f"{bare}/bin:/usr/bin:/bin")
    return TryEngine(bare / "crate")


def test_one_build_for_all_calls(tried: TryEngine, bare: Path) -> None:
    admits = [admit_call(PAPER, BOARD, "edf"), admit_call(PAPER, bare / "absent", "rm")]
    found = [*tried.answers([workload_call(1), *admits, workload_call(2)])]
    assert [answer.status for answer in found] == [0, 1, 1, 0]
    assert [found[0].out, found[3].out] == [b"1\n", b"2\n"]
    assert found[1] == Answer(1, b"", b"denied edf 248 240\n")
    log = (bare / "bin" / "rt.log").read_text()
    assert log.count("try") == 1 and log.count("--data") == 2 and "absent" not in log
    assert [*tried.answers([])] == []


def test_the_end_of_an_answer_by_rt_try(tried: TryEngine) -> None:
    seeds = (("--seed", "4711"),)
    found = tried.answers([Call("workload", seeds, last_bytes=2), Call("workload", seeds, last_bytes=9)])
    assert [answer.out for answer in found] == [b"1\n", b"4711\n"]


def test_a_case_without_an_answer(tried: TryEngine) -> None:
    answers = tried.answers([workload_call(1), Call("run", (("--ticks", "seven"),)), workload_call(2)])
    assert next(answers).out == b"1\n"
    with pytest.raises(Crashed, match="rt try has no answer: checked: no-answer: too much"):
        next(answers)


def test_a_build_that_fails(tried: TryEngine, bare: Path) -> None:
    fake(bare / "bin", "echo 'error: no crate' >&2; exit 2", "rt")
    with pytest.raises(Crashed, match="rt try has no answer: error: no crate"):
        tried.answer(workload_call(1))
