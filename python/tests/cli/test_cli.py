"""The command line: usage, failures in one line, standard streams that are closed, full or left."""

import argparse
import io
import multiprocessing
import re
import subprocess
import sys
from collections.abc import Callable
from fractions import Fraction
from pathlib import Path
from types import ModuleType
from unittest.mock import Mock

import pytest

from rtdvs._version import __version__
from rtdvs.cli import main as cli, options as commandline
from rtdvs.engine import Engine
from rtdvs.errors import Crashed, FileRefused, NoEngine, OverWorst
from rtdvs.hints import COMMANDS as PROGRAM
from rtdvs.model import Demands, TaskSet
from tests.shared.examples import BOARD, DATA, PAPER, SOURCE, Captured, options, printed, refusal

Handler = Callable[[argparse.Namespace], int]
Stub = Callable[[Handler], None]


@pytest.fixture
def stub(monkeypatch: pytest.MonkeyPatch) -> Stub:
    """Makes a handler the only command, `stub`, with the options that commands share."""

    def replace(handler: Handler) -> None:
        def add_command(commands: "argparse._SubParsersAction[argparse.ArgumentParser]") -> None:
            parser = commands.add_parser("stub", help="a stand-in")
            add_options(parser, ["tasks"], ["machine", "demands"])
            parser.set_defaults(handler=handler)

        monkeypatch.setattr(cli, "COMMANDS", {"stub": "stub"})
        module = ModuleType("stub")
        setattr(module, "add_command", add_command)
        monkeypatch.setitem(sys.modules, "rtdvs.cli.stub", module)

    return replace


def parsed(*words: str) -> argparse.Namespace:
    """The arguments of the stub's options."""
    parser = argparse.ArgumentParser()
    add_options(parser, [], ["tasks", "machine", "demands"])
    return parser.parse_args(words)


def add_options(parser: argparse.ArgumentParser, required: list[str], optional: list[str]) -> None:
    commandline.add_files(parser, required, optional)
    commandline.add_output(parser)
    commandline.add_engine_options(parser, jobs=True)


def standard_input(content: bytes) -> io.TextIOWrapper:
    return io.TextIOWrapper(io.BytesIO(content))


# Commands

COMMANDS = re.findall(r"^    ([a-z-]+)", cli.parser().format_help(), re.M)


@pytest.mark.parametrize("command", COMMANDS)
def test_help_of_each_command(command: str, capsys: Captured) -> None:
    out = printed(capsys, [command, "--help"])
    assert out.startswith(f"usage: python3 -m rtdvs {command}")
    assert f"rtdvs {command} " in out.split("options:")[1], "no example in the epilog"


@pytest.mark.parametrize("command", COMMANDS)
def test_unknown_option_of_each_command(command: str, capsys: Captured) -> None:
    of_board = ["--board", "board.toml"] if command in PROGRAM else []
    assert refusal(capsys, [command, *of_board, "--foo"]).startswith("usage: python3 -m rtdvs ")


def test_no_word(capsys: Captured) -> None:
    """It leads on to all commands: the package's, and the program's."""
    out = printed(capsys, [])
    assert out == printed(capsys, ["--help"]) and f"\n  {', '.join(PROGRAM)}\n" in out


def test_version_of_the_package(capsys: Captured) -> None:
    assert printed(capsys, ["--version"]) == f"rtdvs {__version__}\n"


@pytest.mark.parametrize("name", ["rtdvs-tools", "sh rtdvs.sh"])
def test_another_name(name: str, capsys: Captured) -> None:
    """Usage and examples have the name by which the commands were called."""
    assert cli.main(["generate", "uunifast", "--help"], name) == 0
    out = capsys.readouterr().out
    assert out.startswith(f"usage: {name} generate uunifast") and f"\n  {name} generate uunifast --count" in out
    assert "python3" not in out


@pytest.mark.parametrize(
    "words", [["--foo"], ["foo"], ["stub"], ["stub", "--tasks"], ["stub", "--foo"]], ids=" ".join)
def test_usage(words: list[str], stub: Stub, capsys: Captured) -> None:
    stub(lambda args: 0)
    assert "python3 -m rtdvs" in refusal(capsys, words)


@pytest.mark.parametrize(("word", "line"), [
    ("Compare", "no command Compare; near it is compare; --help lists all"),
    ("replays", "no command replays; near it is replay; --help lists all"),
    ("xyz", "no command xyz; --help lists all"),
])
def test_unknown_command(word: str, line: str, capsys: Captured) -> None:
    """What is near is found among the package's commands and the program's."""
    assert refusal(capsys, [word]).endswith(f": error: {line}\n")


def test_two_files_from_one_input(stub: Stub, capsys: Captured, monkeypatch: pytest.MonkeyPatch) -> None:
    stub(lambda args: 0)
    monkeypatch.setattr(sys, "stdin", standard_input(b"x"))
    assert "only one file can be standard input" in refusal(capsys, ["stub", "--tasks", "-", "--machine", "-"])


@pytest.mark.parametrize("status", [0, 1, 2])
def test_status(status: int, stub: Stub) -> None:
    stub(lambda args: status)
    assert cli.main(["stub", "--tasks", "x"]) == status


FAULTS = [
    (FileRefused("tasks", "no tasks"), "tasks: no tasks\n  The file has a table `[[task]]` for each task."),
    (OverWorst("a", 1, 3, 2), "over worst: a 1 3 2\n  Job 1 of `a` has 3 units, and the worst case is 2. "
     "Lower the units, or raise `worst`."),
    (NoEngine("no program"), "no program"),
    (Crashed("signal 9"), "signal 9"),
    (FileNotFoundError(2, "No such file or directory", "a.toml"), "a.toml: No such file or directory"),
    (IsADirectoryError(21, "Is a directory"), "input or output: Is a directory"),
    (MemoryError(), "no memory"),
]


@pytest.mark.parametrize(("fault", "line"), FAULTS, ids=[line for _, line in FAULTS])
def test_faults(fault: Exception, line: str, stub: Stub, capsys: Captured) -> None:
    stub(Mock(side_effect=fault))
    assert refusal(capsys, ["stub", "--tasks", "x"]) == f"rtdvs: {line}\n"


def test_second_line_of_a_file(stub: Stub, capsys: Captured, tmp_path: Path) -> None:
    """A refusal by a command has what is in the file that its options name."""
    (tmp_path / "tasks.toml").write_text('[[task]]\nname = "a"\nperiod = 8\nworst = 0\n')
    stub(lambda args: len(commandline.read_tasks(args)))
    said = refusal(capsys, ["stub", "--tasks", tmp_path / "tasks.toml"])
    assert said == ("rtdvs: tasks: task 1: worst out of range\n  Line 4: `worst` is a whole number from 1 to "
                    "1152921504606846976, without quotes. It is `0`.\n")


def test_interrupted(stub: Stub, capsys: Captured) -> None:
    stub(Mock(side_effect=KeyboardInterrupt))
    assert cli.main(["stub", "--tasks", "x"]) == 130
    assert capsys.readouterr() == ("", "")


@pytest.mark.parametrize(("command", "others"), [
    ("explain", {"board", "export", "plot", "studies", "web"}),
    ("statistics", {"board", "export", "plot", "rules", "studies", "web"}),
    ("simulate", {"board", "export", "plot", "studies", "web"}),
    ("convert", {"board", "plot", "rules", "studies", "web"}), ("compare", {"board", "export", "plot", "web"}),
    ("response", {"board", "export", "plot", "rules", "studies", "web"}),
    ("sensitivity", {"board", "export", "plot", "web"})], ids=str)
def test_a_command_imports_what_it_needs(command: str, others: set[str]) -> None:
    """No other command, no package that it doesn't use, no server, no pool of processes, and no pattern of a line, and
    none or no row of a refusal, before one is read."""
    script = ("import sys; from rtdvs.cli.main import main; main([sys.argv[1], '--help']); "
              "from rtdvs.hints import table; from rtdvs.trace import reader; "
              "print(*sorted(sys.modules), reader._line.cache_info().currsize + table.sections.cache_info().currsize + "
              "table._pattern.cache_info().currsize)")
    made = subprocess.run([sys.executable, "-c", script, command], env={"PYTHONPATH": SOURCE}, capture_output=True,
                          text=True, check=True)
    *names, patterns = made.stdout.splitlines()[-1].split()
    packages = {name.split(".")[1] for name in names if name.startswith("rtdvs.")}
    commands = {name for name in names if name.startswith("rtdvs.cli.")} - {"rtdvs.cli.main", "rtdvs.cli.options"}
    assert commands - {"rtdvs.cli.boards"} == {f"rtdvs.cli.{cli.COMMANDS[command]}"}
    heavy = {"concurrent.futures.process", "http.server", "matplotlib", "multiprocessing", "pandas"}
    assert not packages & others and not heavy & {*names} and patterns == "0"


# Standard streams

EXPLAIN = "explain --tasks tasks.toml --machine machine.toml --trace"
PRINTING = ["--help", f"{EXPLAIN} edf_none.trace", f"{EXPLAIN} - --quiet < edf_none.trace"]
STREAMS = [
    (">&-", 2, "rtdvs: standard output is closed\n"),
    ("> /dev/full", 2, "rtdvs: input or output: No space left on device\n"),
    ("2>&- > /dev/full", 2, ""),
    ("> /dev/null 2>&-", 0, ""),
]


@pytest.mark.parametrize("words", PRINTING)
@pytest.mark.parametrize(("streams", "status", "line"), STREAMS)
def test_streams(words: str, streams: str, status: int, line: str) -> None:
    ran = in_shell(f'"$0" -m rtdvs {words} {streams}')
    assert (ran.returncode, ran.stdout, ran.stderr) == (status, "", line)


def test_a_reader_that_leaves() -> None:
    ran = in_shell('{ sleep 1; "$0" -m rtdvs --help; echo $? >&2; } | exec true')
    assert (ran.stdout, ran.stderr) == ("", "2\n")


def in_shell(line: str) -> "subprocess.CompletedProcess[str]":
    return subprocess.run(["sh", "-c", line, sys.executable], cwd=DATA / "paper", env={"PYTHONPATH": SOURCE},
                          capture_output=True, text=True, timeout=60)


# What commands share

def test_files_of_options() -> None:
    args = parsed(*options(DATA / "paper", "demands"))
    assert (commandline.read_tasks(args), commandline.read_machine(args)) == (PAPER, BOARD)
    demands = commandline.read_demands(args, PAPER)
    assert demands is not None and demands.units["t1", 1] == 8
    assert commandline.read_demands(parsed(), PAPER) is None


def test_files_from_standard_input(monkeypatch: pytest.MonkeyPatch) -> None:
    tasks = TaskSet.parse('task = [{name = "a", period = 1, worst = 1}]')
    monkeypatch.setattr(sys, "stdin", standard_input(tasks.text().encode()))
    assert commandline.read_tasks(parsed("--tasks", "-")) == tasks
    monkeypatch.setattr(sys, "stdin", standard_input(b"point = [{speed = 7, millivolts = 1}]"))
    assert commandline.read_machine(parsed("--machine", "-")).top_speed == 7
    monkeypatch.setattr(sys, "stdin", standard_input(b"task,job,units\na,1,0\n"))
    assert commandline.read_demands(parsed("--demands", "-"), tasks) == Demands({("a", 1): 0})


def test_closed_standard_input(monkeypatch: pytest.MonkeyPatch, capsys: Captured) -> None:
    monkeypatch.setattr(sys, "stdin", None)
    with pytest.raises(SystemExit):
        parsed("--tasks", "-")
    assert "standard input is closed" in capsys.readouterr().err


def test_text_of_a_file(tmp_path: Path) -> None:
    (tmp_path / "trace").write_bytes("trace \u00e4\r\n".encode())
    assert commandline.read_text(tmp_path / "trace", "trace") == "trace \u00e4\r\n"
    with pytest.raises(FileNotFoundError):
        commandline.read_text(tmp_path / "absent", "trace")


def test_output(tmp_path: Path, capsysbinary: pytest.CaptureFixture[bytes]) -> None:
    commandline.write_output(parsed("--output", str(tmp_path / "out")), "\u00e4\n")
    assert (tmp_path / "out").read_bytes() == b"\xc3\xa4\n"
    commandline.write_output(parsed(), b"\xff")
    assert capsysbinary.readouterr().out == b"\xff"


@pytest.mark.parametrize("word", ["", "-1", "+1", "01", "1.0", "1e3", "65", "0", "\u0661", "1" * 5000])
def test_numbers_that_are_none(word: str) -> None:
    with pytest.raises(argparse.ArgumentTypeError, match="a whole number from 1 to 64, not"):
        commandline.whole_number(word, (1, 64))


@pytest.mark.parametrize(("word", "value"), [
    ("0", Fraction(0)), ("0.10", Fraction(1, 10)), ("14/4", Fraction(7, 2)), ("007/070", Fraction(1, 10)),
], ids=str)
def test_fractions(word: str, value: Fraction) -> None:
    assert commandline.exact_fraction(word) == value


@pytest.mark.parametrize("word", ["", "1/0", "1/00", "-1", ".5", "1,5", "1e3", "nan", "0.5/2"])
def test_fractions_that_are_none(word: str) -> None:
    with pytest.raises(argparse.ArgumentTypeError, match="a number such as"):
        commandline.exact_fraction(word)


@pytest.mark.parametrize("word", ["0", "0.0", "1000001", "x"])
def test_seconds_that_are_none(word: str) -> None:
    with pytest.raises(argparse.ArgumentTypeError):
        commandline.seconds(word)


def test_engine_of_options() -> None:
    args = parsed("--program", sys.executable, "--timeout", "0.5")
    assert commandline.engine_of(args) == Engine(Path(sys.executable), 0.5)


def test_executor_of_options() -> None:
    with commandline.executor_of(parsed("--jobs", "3")) as executor:
        assert [*executor.map(abs, [-1, 2])] == [1, 2]


@pytest.mark.parametrize(("default", "threads", "taken"), [
    ("fork", 1, "fork"), ("forkserver", 1, "fork"), ("forkserver", 2, "forkserver"), ("spawn", 1, "spawn")])
def test_how_processes_start(default: str, threads: int, taken: str, monkeypatch: pytest.MonkeyPatch) -> None:
    """By no fork server, unless this process has other threads."""
    monkeypatch.setattr(commandline, "active_count", lambda: threads)
    before = multiprocessing.get_start_method()
    multiprocessing.set_start_method(default, force=True)
    try:
        assert commandline._pool_context().get_start_method() == taken
    finally:
        multiprocessing.set_start_method(before, force=True)


def test_progress_on_a_terminal(monkeypatch: pytest.MonkeyPatch) -> None:
    terminal = io.StringIO()
    monkeypatch.setattr(terminal, "isatty", lambda: True)
    monkeypatch.setattr(sys, "stderr", terminal)
    monkeypatch.setattr(commandline, "monotonic", iter(range(1, 100)).__next__)
    assert [*commandline.progress("ab", 4, "runs")] == ["a", "b"]
    bars = terminal.getvalue().split("\r")
    assert bars[1:3] == [f"runs [{'#' * 7:30}] 1/4", f"runs [{'#' * 15:30}] 2/4"]
    assert bars[3] == "\x1b[K"


def test_no_progress_elsewhere(capsys: Captured) -> None:
    assert [*commandline.progress(range(3), 3, "runs")] == [0, 1, 2]
    assert capsys.readouterr().err == ""
