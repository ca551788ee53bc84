"""The nine commands of the program, handed on: its bytes and its status, and a second line below a refusal."""

import io
import os
import sys
from pathlib import Path
from threading import Thread

import pytest

from rtdvs.cli.main import main
from rtdvs.cli.program import hand_on
from rtdvs.engine import Answer, Call, Engine
from rtdvs.errors import Crashed
from rtdvs.hints import COMMANDS
from tests.shared.examples import DATA, WORKED, Captured, fake

RUN = "run --tasks tasks.toml --machine machine.toml --scheduler edf --governor cc --ticks 16 --demands demands.csv"


class Said(Engine):
    """A program that prints the words, of which a path has no folder and a content is marked."""

    def answer(self, call: Call[object]) -> Answer:
        words = (f"<{word.decode()}>" if isinstance(word, bytes) else Path(word).name for word in call.words())
        return Answer(0, " ".join(words).encode(), b"")


SAID = Said(Path("said"))


@pytest.fixture(autouse=True)
def folder(monkeypatch: pytest.MonkeyPatch) -> Path:
    monkeypatch.chdir(DATA / "paper")
    return DATA / "paper"


def program(folder: Path, monkeypatch: pytest.MonkeyPatch, body: str) -> None:
    """Makes the program one that runs these lines of the shell."""
    monkeypatch.setenv("RTDVS", str(fake(folder / "bin", body)))


@pytest.mark.parametrize("command", COMMANDS)
def test_each_command(command: str, tmp_path: Path, capfdbinary: pytest.CaptureFixture[bytes],
                      monkeypatch: pytest.MonkeyPatch) -> None:
    """Words, bytes and status are left as they are."""
    program(tmp_path, monkeypatch, 'echo "$@"; printf "\\\\377\\\\n"; echo note >&2')
    assert main([command, "--ticks", "--help", "-x"]) == 0
    assert capfdbinary.readouterr() == (f"{command} --ticks --help -x\n".encode() + b"\xff\n", b"note\n")


@pytest.mark.parametrize(("status", "line", "second"), [
    (1, "denied units 65 64", "  The highest speed does 64 units in these ticks, not 65. Fewer units, or more ticks.\n"),
    (2, "words: missing --units", "  The value of `--units` is a whole number from 0 to 18446744073709551615, in digits "
     "only. `least` needs `--machine`, `--units` and `--ticks`.\n"),
    (7, "something else", ""),
])
def test_second_lines(status: int, line: str, second: str, tmp_path: Path, capfd: Captured,
                      monkeypatch: pytest.MonkeyPatch) -> None:
    program(tmp_path, monkeypatch, f"echo '{line}' >&2; exit {status}")
    assert main(["least"]) == status
    assert capfd.readouterr() == ("", f"{line}\n{second}")


def test_a_program_that_crashes(tmp_path: Path, monkeypatch: pytest.MonkeyPatch, capfd: Captured) -> None:
    program(tmp_path, monkeypatch, "kill -9 $$")
    assert main(["least"]) == 2
    assert capfd.readouterr() == ("", "rtdvs: the program was ended by signal 9\n")
    with pytest.raises(Crashed):
        hand_on(["least"], Engine(fake(tmp_path / "bin", "kill -9 $$")))


def test_standard_input(monkeypatch: pytest.MonkeyPatch, capfd: Captured) -> None:
    """A file `-` is standard input; `-` of another option is a word as any, as are names of what isn't there."""
    monkeypatch.setattr(sys, "stdin", io.TextIOWrapper(io.BytesIO(b"idle = 0")))
    hand_on("least --units - --machine - --probes --tasks absent --trace .. --demands demands.csv".split(), SAID)
    assert capfd.readouterr().out == ("least --units - --machine <idle = 0> --probes --tasks absent --trace .. "
                                      "--demands demands.csv")


def test_a_pipe(tmp_path: Path, capfd: Captured) -> None:
    """What a shell gives for `<(..)` is read here."""
    pipe = tmp_path / "pipe"
    os.mkfifo(pipe)
    writer = Thread(target=pipe.write_bytes, args=(b"idle = 0",))
    writer.start()
    hand_on(["least", "--machine", str(pipe)], SAID)
    writer.join()
    assert capfd.readouterr().out == "least --machine <idle = 0>"


def test_the_first_trace(engine: Engine, capfd: Captured) -> None:
    assert hand_on(RUN.split(), engine) == 0
    assert capfd.readouterr() == (WORKED.read_text(), "")
