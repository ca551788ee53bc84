"""Programs that end with their caller.

Each program is in the process group of a guard: a shell that waits for the end of a pipe from this process. An
exception, a signal or a crash closes the pipe; the guard then removes the call's folder and ends the group, with all
that the program started. A guard of a call that ended is used again.
"""

import atexit
import os
import signal
from collections.abc import Iterator, Sequence
from contextlib import contextmanager, suppress
from contextvars import ContextVar
from dataclasses import dataclass, field
from io import FileIO
from pathlib import Path
from selectors import EVENT_READ, DefaultSelector
from shutil import rmtree
from subprocess import DEVNULL, PIPE, Popen, TimeoutExpired
from tempfile import gettempdir
from threading import Lock
from time import monotonic, sleep

from rtdvs.engine.calls import Answer
from rtdvs.errors import Crashed, NoEngine, SystemFault, TimedOut

GUARD = """trap '' HUP INT QUIT TERM
cd /
folder=
while IFS= read -r line; do folder=$line; done
if [ -e "$folder" ]; then
    kill -TERM 0
    /bin/rm -rf -- "$folder"
    sleep 0.1
fi
kill -KILL 0"""
"""The last line also ends what ignores the first signal, or was only just put into the group."""

PIECE = 2**16
"""The bytes of a read from a program."""


@dataclass(eq=False, slots=True)
class Guard:
    """A process group that ends when `line` is closed, and the folder of its call, which goes with it.

    >>> with guarded() as guard:
    ...     guard.folder.is_dir()
    True
    """

    group: int
    line: FileIO
    folder: Path


RUNNING: set[Guard] = set()
IDLE: list[Guard] = []
ENDED: list[bool] = []
"""Of this process: guards of calls, guards that are free, and whether it makes no more calls."""


@dataclass(eq=False, slots=True)
class Stop:
    """Ends the programs that run for a block, from another thread; the block then makes no more calls.

    >>> stop = Stop()
    >>> stop.end()
    >>> with stop.of_calls(), guarded():
    ...     pass
    Traceback (most recent call last):
    rtdvs.errors.Crashed: this process makes no more calls
    """

    is_ended: bool = False
    guards: set[Guard] = field(default_factory=set)
    lock: Lock = field(default_factory=Lock)

    @contextmanager
    def of_calls(self) -> Iterator[None]:
        """All calls that this thread makes in the block are ended by `end`."""
        before = _STOP.set(self)
        try:
            yield
        finally:
            _STOP.reset(before)

    def end(self) -> None:
        """Ends the programs that run. It doesn't wait for them."""
        with self.lock:
            self.is_ended = True
            for guard in self.guards:
                guard.line.close()

    def begin(self, guard: Guard) -> None:
        """Begins a call: the guard gets its folder's name. Raises Crashed, and OSError."""
        with self.lock:
            if ENDED or self.is_ended:
                raise Crashed("this process makes no more calls")
            self.guards.add(guard)
            guard.line.write(os.fsencode(guard.folder) + b"\n")

    def leave(self, guard: Guard) -> None:
        """Has no more part in a call that is over: its guard is then used for others."""
        with self.lock:
            self.guards.discard(guard)


_STOP: ContextVar[Stop | None] = ContextVar("stop", default=None)


def is_stopped() -> bool:
    """Whether the calls of this block, or of the whole process, have been ended: their answers aren't wanted any more.

    >>> is_stopped()
    False
    """
    stop = _STOP.get()
    return bool(ENDED) or stop is not None and stop.is_ended


@contextmanager
def guarded() -> Iterator[Guard]:
    """A guard for one call, whose folder is there until the call ends; raises SystemFault.

    If the block isn't left at its end, the group is killed.

    >>> with guarded() as guard:
    ...     (guard.folder / "0").write_bytes(b"idle = 1")
    8
    >>> guard.folder.exists()
    False
    """
    guard, stop = _taken(), _STOP.get() or Stop()
    RUNNING.add(guard)
    try:
        with _refusals():
            stop.begin(guard)
            guard.folder.mkdir(0o700)
            yield guard
        rmtree(guard.folder, ignore_errors=True)
    except BaseException:
        _end(guard)
        raise
    finally:
        stop.leave(guard)
        RUNNING.discard(guard)
    if guard.folder.exists() or guard.line.closed:
        _end(guard)
    else:
        IDLE.append(guard)


def stop_calls() -> None:
    """Ends all programs that run for this process. It waits for nothing, so a signal's handler may call it."""
    for guard in [*RUNNING, *IDLE]:
        guard.line.close()


def end_calls() -> None:
    """As stop_calls, and this process then makes no more calls: it is about to end."""
    ENDED.append(True)
    stop_calls()


def wait_for_calls(seconds: float) -> None:
    """Waits until no program runs for this process and no folder of a call is left, at most that long."""
    end = monotonic() + seconds
    while RUNNING and monotonic() < end:
        sleep(0.005)


def program_answer(words: Sequence[str], guard: Guard, timeout: float | None, folder: Path | None = None,
                   last_bytes: int | None = None) -> Answer:
    """What a program leaves that runs in the guard's group, and in that folder; of its output the last bytes or all.

    Raises NoEngine for what is no program, SystemFault, and TimedOut after that many seconds.

    >>> with guarded() as guard:
    ...     program_answer(["sh", "-c", "echo 3; exit 1"], guard, timeout=60)
    Answer(status=1, out=b'3\\n', notes=b'')
    """
    try:
        process = Popen(words, stdin=DEVNULL, stdout=PIPE, stderr=PIPE, process_group=guard.group, cwd=folder)
    except OSError as error:
        if error.filename is None:
            raise
        raise NoEngine(f"{words[0]}: {error.strerror}") from None
    with process:
        try:
            if guard.line.closed:  # then the guard may have ended its group before this one was in it
                process.kill()
            if last_bytes is None:
                out, notes = process.communicate(timeout=timeout)
            else:
                out, notes = _read_ends(process, timeout, last_bytes)
        except TimeoutExpired:
            raise TimedOut(timeout or 0) from None
        finally:
            if process.returncode is None:
                guard.line.close()
                process.kill()
    return Answer(process.wait(), out, notes)


def _read_ends(process: Popen[bytes], timeout: float | None, last_bytes: int) -> tuple[bytes, bytes]:
    """The last bytes of standard output, which is read in pieces, and standard error; then the process has ended.

    Raises TimeoutExpired after that many seconds.
    """
    end = None if timeout is None else monotonic() + timeout
    kept = {process.stdout: bytearray(), process.stderr: bytearray()}
    with DefaultSelector() as waiting:
        for stream in kept:
            waiting.register(stream, EVENT_READ, stream)  # type: ignore[arg-type]
        while waiting.get_map():
            left = None if end is None else end - monotonic()
            if left is not None and left <= 0:
                raise TimeoutExpired(process.args, left)
            for key, _ in waiting.select(left):
                piece = os.read(key.fd, PIECE)
                kept[key.data] += piece
                if key.data is process.stdout:
                    del kept[key.data][:max(len(kept[key.data]) - last_bytes, 0)]
                if not piece:
                    waiting.unregister(key.fileobj)
    process.wait(None if end is None else max(end - monotonic(), 0))
    return bytes(kept[process.stdout]), bytes(kept[process.stderr])


@contextmanager
def _refusals() -> Iterator[None]:
    """An OSError of the system becomes a SystemFault."""
    try:
        yield
    except OSError as error:
        raise SystemFault(error.filename or "a call of the program", error.strerror or str(error)) from None


def _taken() -> Guard:
    """A guard that is free and lives still, or a new one."""
    with suppress(IndexError):
        while True:
            guard = IDLE.pop()
            if _lives(guard):
                guard.folder = _new_name()
                return guard
            guard.line.close()
    with _refusals():
        return _started()


def _new_name() -> Path:
    return Path(gettempdir(), f"rtdvs-{os.urandom(8).hex()}")


def _started() -> Guard:
    """A new guard. Its group is there when this returns, so a program can be put into it."""
    folder = _new_name()
    end, line = os.pipe()
    try:
        given = [(os.POSIX_SPAWN_DUP2, end, 0), *((os.POSIX_SPAWN_OPEN, stream, os.devnull, os.O_WRONLY, 0)
                                                  for stream in (1, 2))]
        group = os.posix_spawn("/bin/sh", ["sh", "-c", GUARD], os.environ, file_actions=given, setpgroup=0)
    except BaseException:
        os.close(line)
        raise
    finally:
        os.close(end)
    return Guard(group, FileIO(line, "w"), folder)


def _lives(guard: Guard) -> bool:
    try:
        return os.waitpid(guard.group, os.WNOHANG) == (0, 0) and not guard.line.closed
    except ChildProcessError:
        return False


def _end(guard: Guard) -> None:
    """Removes a guard's folder and ends its group. If this is interrupted, the guard does it."""
    guard.line.close()
    rmtree(guard.folder, ignore_errors=True)
    with suppress(ChildProcessError):
        if guard.folder.exists():  # a process without free descriptors can't remove it, but its guard can
            os.waitid(os.P_PID, guard.group, os.WEXITED | os.WNOWAIT)
    with suppress(ProcessLookupError, PermissionError):
        os.killpg(guard.group, signal.SIGKILL)
    with suppress(ChildProcessError):
        while True:
            os.waitpid(-guard.group, 0)


def _forget() -> None:
    """A forked process has no part in the calls of the one that it is from."""
    stop_calls()
    RUNNING.clear()
    IDLE.clear()


atexit.register(end_calls)
os.register_at_fork(after_in_child=_forget)
