"""Programs end with their caller: after an exception, a signal or a crash no process and no folder of a call is left."""

import json
import os
import random
import signal
import socket
import subprocess
import sys
import tempfile
import time
from collections.abc import Callable, Iterator, Sequence
from concurrent.futures import ThreadPoolExecutor
from contextlib import suppress
from pathlib import Path
from typing import Any

import pytest

from rtdvs.engine import Engine, Stop, process as process_module, stop_calls, workload_call
from rtdvs.errors import Crashed, NoEngine, SystemFault, TimedOut
from tests.shared.examples import DATA, SOURCE, fake, options

LONG = "sleep 900 & wait"
MARK = "RTDVS_TEST_OF_WHAT_IS_LEFT"
IGNORED = (signal.SIGINT, signal.SIGHUP, signal.SIGQUIT)
"""What a shell lets the processes in its background ignore, or `nohup`."""


@pytest.fixture(autouse=True)
def calls(tmp_path: Path, monkeypatch: pytest.MonkeyPatch) -> Iterator[Path]:
    """The folder in which calls make theirs; the processes of a test have its name in their environment.

    They get the signals that the process of the tests may be told to ignore.
    """
    before = [signal.signal(number, signal.default_int_handler) for number in IGNORED]
    folder = tmp_path / "calls"
    folder.mkdir()
    monkeypatch.setattr(tempfile, "tempdir", str(folder))
    monkeypatch.setenv(MARK, str(tmp_path))
    monkeypatch.setattr(process_module, "IDLE", [])
    yield folder
    stop_calls()
    for number, handler in zip(IGNORED, before):
        signal.signal(number, handler)


def left(folder: Path) -> list[str]:
    """The processes that have the mark of this folder after a minute, and files of calls that none of them removes."""
    for _ in range(1200):
        processes = [*marked(f"{MARK}={folder}\0".encode())]
        files = [str(path) for path in (folder / "calls").iterdir()]
        if not processes:
            return files
        time.sleep(0.05)
    return processes + files


def marked(mark: bytes) -> Iterator[str]:
    """The command lines of other processes that have this in their environment."""
    for path in Path("/proc").glob("[0-9]*"):
        with suppress(OSError):
            state = (path / "stat").read_text().rpartition(") ")[2][0]
            if state != "Z" and mark in (path / "environ").read_bytes() and int(path.name) != os.getpid():
                yield (path / "cmdline").read_bytes().decode().replace("\0", " ")


def started(folder: Path) -> None:
    """Waits for the first call."""
    until(lambda: any((folder / "calls").iterdir()))


def until(condition: Callable[[], bool]) -> None:
    for _ in range(6000):
        if condition():
            return
        time.sleep(0.05)
    raise AssertionError("nothing in five minutes")


# Calls of this process

def test_a_guard_is_used_again(tmp_path: Path) -> None:
    """Calls one after the other need one guard, which is no child of the program's and has no file."""
    engine = Engine(fake(tmp_path, "echo $PPID"))
    assert [engine.answer(workload_call(1)).out for _ in range(3)] == [f"{os.getpid()}\n".encode()] * 3
    (guard,) = process_module.IDLE
    assert not guard.folder.exists()
    os.kill(guard.group, signal.SIGKILL)
    until(lambda: Path(f"/proc/{guard.group}/stat").read_text().split()[2] == "Z")
    assert engine.answer(workload_call(1)).status == 0
    assert process_module.IDLE[0].group != guard.group


def test_threads_have_guards_of_their_own(tmp_path: Path) -> None:
    engine = Engine(fake(tmp_path, 'sleep 0.1; echo "$3"'))
    with ThreadPoolExecutor(4) as executor:
        found = [int(answer.out) for answer in engine.answers(map(workload_call, range(12)), executor)]
    assert found == [*range(12)] and 2 <= len(process_module.IDLE) <= 4


@pytest.mark.parametrize(("end", "timeout", "fault"), [
    pytest.param(LONG, 0.5, TimedOut, id="too long"),
    pytest.param("sleep 900 & kill -9 0", None, Crashed, id="all of its group killed"),
    pytest.param("sleep 900 > /dev/null 2>&1 & exit 42", None, Crashed, id="a child is left")])
def test_what_a_program_leaves(end: str, timeout: float | None, fault: type[Exception], tmp_path: Path) -> None:
    with pytest.raises(fault):
        Engine(fake(tmp_path, end), timeout).workload(1)
    stop_calls()
    assert left(tmp_path) == []


class Interrupted(subprocess.Popen[bytes]):
    """Ctrl and C are pressed when the program runs already, and its number isn't known yet."""

    def __init__(self, *words: Any, **options: Any) -> None:
        super().__init__(*words, **options)
        until(Path(os.environ[MARK], "runs").exists)
        raise KeyboardInterrupt


def test_an_interrupt_between_start_and_wait(tmp_path: Path, monkeypatch: pytest.MonkeyPatch) -> None:
    monkeypatch.setattr(process_module, "Popen", Interrupted)
    with pytest.raises(KeyboardInterrupt):
        Engine(fake(tmp_path, f"touch {tmp_path}/runs; {LONG}")).workload(1)
    assert left(tmp_path) == []


def test_calls_that_are_stopped(tmp_path: Path) -> None:
    """Another thread ends them, and later calls are made."""
    engine = Engine(fake(tmp_path, f'[ "$3" = 1 ] || {LONG}'))
    with ThreadPoolExecutor(2) as executor:
        found = executor.map(engine.answer, map(workload_call, (2, 3)))
        until(lambda: len([*(tmp_path / "calls").iterdir()]) == 2)
        stop_calls()
        assert {answer.status for answer in found} <= {-signal.SIGTERM, -signal.SIGKILL}
    assert left(tmp_path) == [] and engine.answer(workload_call(1)).status == 0


def test_calls_of_one_block_are_stopped(tmp_path: Path) -> None:
    """Its program ends, and it makes no more calls; the call of another thread goes on, with a guard of its own."""
    script = f'[ "$3" = 1 ] || {{ {LONG}; }}; until [ -e {tmp_path}/end ]; do sleep 0.01; done'
    engine, stop = Engine(fake(tmp_path, script)), Stop()

    def stopped() -> tuple[int, str]:
        with stop.of_calls():
            status = engine.answer(workload_call(2)).status
            with pytest.raises(Crashed) as fault:
                engine.answer(workload_call(1))
        return status, str(fault.value)

    with ThreadPoolExecutor(2) as executor:
        first, other = executor.submit(stopped), executor.submit(engine.answer, workload_call(1))
        until(lambda: len([*(tmp_path / "calls").iterdir()]) == 2)
        stop.end()
        status, line = first.result()
        assert status in {-signal.SIGTERM, -signal.SIGKILL} and line == "this process makes no more calls"
        (tmp_path / "end").touch()
        assert other.result().status == 0
    assert len(process_module.IDLE) == 1
    stop_calls()
    assert left(tmp_path) == []


# Callers that end

CALLER = f"""import os, sys, threading, time
from pathlib import Path
from rtdvs.engine import Engine, end_calls
call = threading.Thread(target=Engine(Path(sys.argv[1])).workload, args=[1], daemon=True)
call.start()
while not os.listdir(os.environ["TMPDIR"]):
    time.sleep(0.01)
time.sleep(float(sys.argv[2]))
"""
ENDS = {
    "the end of the process": "",
    "an exit without any handler": "os._exit(1)",
    "a crash": "import ctypes; ctypes.string_at(0)",
    "the terminal's end": "os.kill(os.getpid(), 1)",
    "a signal to end": "os.kill(os.getpid(), 15)",
    "a signal that nothing handles": "os.kill(os.getpid(), 9)",
    "a fork that lives on": "os.fork() or (time.sleep(1), os._exit(0))",
    "the end of all calls": "end_calls(); call.join(50); assert not call.is_alive()",
}


@pytest.mark.parametrize("end", ENDS.values(), ids=ENDS)
def test_callers_that_end(end: str, tmp_path: Path) -> None:
    """The caller's own handlers do nothing for its calls."""
    words = [sys.executable, "-c", CALLER + end, str(fake(tmp_path, LONG)), str(random.Random(end).random() / 10)]
    subprocess.run(words, env=environment(tmp_path), stderr=subprocess.DEVNULL, timeout=300)
    assert left(tmp_path) == []


def environment(folder: Path) -> dict[str, str]:
    """That of a caller. What Python compiles is kept for the other tests, or each caller would begin late."""
    compiled = {"PYTHONDONTWRITEBYTECODE": "", "PYTHONPYCACHEPREFIX": str(folder.parent / "compiled")}
    return os.environ | compiled | {"TMPDIR": str(folder / "calls"), "PYTHONPATH": SOURCE, MARK: str(folder)}


PAPER_FILES = options(DATA / "paper")
COMMANDS = {
    "compare": [*PAPER_FILES, "--ticks", "16", "--jobs", "2"],
    "evaluate": ["--sets", "2", "--counts", "5", "--utilisations", "0.1", "0.2", "--jobs", "2"],
    "sensitivity": [*PAPER_FILES, "--test", "edf", "--jobs", "3"],
    "serve": ["--port", "0", "--timeout", "60"],
}
SIGNALS = {"Ctrl-C": [signal.SIGINT], "Ctrl-C twice": [signal.SIGINT] * 2, "terminated": [signal.SIGTERM],
           "hung up": [signal.SIGHUP], "Ctrl-\\": [signal.SIGQUIT], "killed": [signal.SIGKILL]}


def ended(command: str, signals: list[signal.Signals], wait: float, folder: Path,
          python: Sequence[str] = ("-m", "rtdvs")) -> int:
    """Starts a command, sends the signals that many seconds after its first call, and returns its status.

    A number of seconds below 0 is that after its start.
    """
    words = [sys.executable, *python, command, *COMMANDS[command], "--program", str(fake(folder, LONG))]
    words += ["--folder", str(folder / "sweep")] if command == "evaluate" else []
    with subprocess.Popen(words, stdout=subprocess.PIPE, stderr=subprocess.DEVNULL, env=environment(folder),
                          text=True) as process:
        try:
            page = asked(process) if command == "serve" and wait >= 0 else None
            if wait >= 0:
                started(folder)
            time.sleep(abs(wait))
            for number in signals:
                process.send_signal(number)
                time.sleep(0.02)
            return process.wait(timeout=300)
        finally:
            process.kill()
            if page is not None:
                page.close()


def asked(process: "subprocess.Popen[str]") -> socket.socket | None:
    """A browser that asks the page for a run."""
    assert process.stdout is not None
    port = process.stdout.readline().split("/")[2].split(":")[1]
    example = {"tasks": [{"name": "a", "period": "4", "worst": "2"}], "points": [{"speed": "1", "millivolts": "1"}],
               "demands": [], "scheduler": "edf", "governor": "cc", "ticks": "4", "idle": "0", "charge": "0"}
    body = json.dumps(example)
    page = socket.create_connection(("127.0.0.1", int(port)))
    page.sendall(f"POST /run HTTP/1.0\r\nHost: 127.0.0.1:{port}\r\nContent-Type: application/json\r\n"
                 f"Content-Length: {len(body)}\r\n\r\n{body}".encode())
    return page


@pytest.mark.parametrize("signals", SIGNALS.values(), ids=SIGNALS)
@pytest.mark.parametrize("command", COMMANDS)
def test_signals_end_a_command(command: str, signals: list[signal.Signals], tmp_path: Path) -> None:
    """It ends at once, with the signal's status, though its program takes a quarter of an hour."""
    status = ended(command, signals, random.Random(f"{command}{signals}").random() / 10, tmp_path)
    handled = signals[0] not in (signal.SIGQUIT, signal.SIGKILL)
    assert status == (128 + signals[0] if handled else -signals[0])
    assert left(tmp_path) == []


@pytest.mark.parametrize("number", [
    pytest.param(signal.SIGINT, id="Ctrl-C"),
    pytest.param(signal.SIGTERM, id="terminated"),
    pytest.param(signal.SIGHUP, id="hung up")])
@pytest.mark.parametrize("command", COMMANDS)
def test_a_signal_at_any_moment(command: str, number: signal.Signals, tmp_path: Path) -> None:
    """Also before the command handles signals, and while it starts its programs; RTDVS_TIMES asks for more times."""
    moments = random.Random(f"{command}{number}")
    for place in range(int(os.environ.get("RTDVS_TIMES", 1))):
        ended(command, [number], -moments.random() if place % 2 == 0 else moments.random() / 4, tmp_path)
        assert left(tmp_path) == []


@pytest.fixture
def short() -> Iterator[Path]:
    """A folder as `tmp_path`, with that of calls, in whose path there is room for the name of a socket."""
    with tempfile.TemporaryDirectory(dir="/tmp") as top:
        folder = Path(top, "test")
        (folder / "calls").mkdir(parents=True)
        yield folder


FORK_SERVER = """import multiprocessing
from rtdvs.cli.main import entry
multiprocessing.set_start_method("forkserver")
entry()
"""


def test_a_signal_leaves_no_socket(short: Path) -> None:
    """Where a fork server is the default, its socket would be in a folder of TMPDIR."""
    assert ended("evaluate", [signal.SIGTERM], 0.05, short, ["-c", FORK_SERVER]) == 128 + signal.SIGTERM
    assert left(short) == []


def test_a_command_that_is_not_to_hear_of_a_hang_up(tmp_path: Path) -> None:
    """`nohup` ignores the signal, and so does the command."""
    program = fake(tmp_path, "sleep 1; exit 8")
    words = ["nohup", sys.executable, "-m", "rtdvs", "compare", *COMMANDS["compare"], "--program", str(program)]
    with subprocess.Popen(words, env=environment(tmp_path), stdout=subprocess.DEVNULL,
                          stderr=subprocess.DEVNULL) as process:
        started(tmp_path)
        process.send_signal(signal.SIGHUP)
        assert process.wait(timeout=300) == 2


# What the system refuses

def test_a_folder_that_is_not_there(calls: Path, tmp_path: Path) -> None:
    calls.rmdir()
    with pytest.raises(SystemFault, match=f"^{calls}/rtdvs-[0-9a-f]*: No such file or directory$"):
        Engine(fake(tmp_path, "exit 0")).workload(1)
    calls.mkdir()


SHORT_OF = """import resource, sys, tempfile
from pathlib import Path
from rtdvs.engine import Engine, admit_call
from rtdvs.errors import EngineError
tempfile.gettempdir()
limit = getattr(resource, sys.argv[2])
resource.setrlimit(limit, (int(sys.argv[3]), resource.getrlimit(limit)[1]))
try:
    Engine(Path(sys.argv[1])).answer(admit_call(b"a" * 9999, b"", "edf"))
except EngineError as fault:
    print(type(fault).__name__, fault)
"""


@pytest.mark.parametrize(("limit", "most", "said"), [
    pytest.param("RLIMIT_NOFILE", 3, "a call of the program: Too many open files", id="no pipe for a guard"),
    pytest.param("RLIMIT_NOFILE", 6, "a call of the program: Too many open files", id="no pipe for a program"),
    pytest.param("RLIMIT_FSIZE", 100, "a call of the program: File too large", id="no room for a file")])
def test_what_the_system_refuses(limit: str, most: int, said: str, tmp_path: Path) -> None:
    words = [sys.executable, "-c", SHORT_OF, str(fake(tmp_path, LONG)), limit, str(most)]
    made = subprocess.run(words, env=environment(tmp_path), capture_output=True, text=True, timeout=300)
    assert (made.stdout, made.stderr) == (f"SystemFault {said}\n", "")
    assert left(tmp_path) == []


def test_what_is_no_program(tmp_path: Path) -> None:
    with pytest.raises(NoEngine, match="absent: No such file or directory"):
        Engine(tmp_path / "absent").workload(1)
    assert left(tmp_path) == []
