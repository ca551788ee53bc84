"""Words of commands that are refused, and files that a command can't read: a line each, with status 2."""

import re
from argparse import ArgumentError, ArgumentParser
from pathlib import Path

import pytest

from tests.shared.examples import DATA, TOP, Captured, refusal


def not_five() -> str:
    """What argparse of this Python says of a 6 where a 5 is the only choice: not all versions quote the 6."""
    parser = ArgumentParser(exit_on_error=False)
    parser.add_argument("--count", type=int, choices=[5])
    with pytest.raises(ArgumentError) as refused:
        parser.parse_args(["--count", "6"])
    return refused.value.message.partition(" (")[0]


NOT_FIVE = not_five()
USAGE = {
    "convert": [
        ("--to vcd --table jobs --trace PAPER/edf_cc_with_demands.trace",
         "--table and --charge are for csv only, and not for vcd"),
        ("--to pdf --trace PAPER/edf_cc_with_demands.trace", "invalid choice: 'pdf'"),
        ("--to csv --table all --trace PAPER/edf_cc_with_demands.trace", "invalid choice: 'all'"),
        ("--to csv --charge -1 --trace PAPER/edf_cc_with_demands.trace", "a whole number from 0 on, not -1"),
        ("--to csv --charge 1.5 --trace PAPER/edf_cc_with_demands.trace", "a whole number from 0 on, not 1.5"),
    ],
    "design": [
        ("", "board: give --board or --device-tree"),
        ("--device-tree examples/board.dts", "one table has to be chosen"),
        ("--device-tree examples/board.dts --table little --unit-cycles 1000000", "points 500 and 747.5 MHz"),
        ("--device-tree absent.dts", "absent.dts: No such file or directory"),
        ("--device-tree examples", "examples: Is a directory"),
        ("--device-tree examples/board.dts --supported-hw x", "no numbers with commas"),
        ("--board examples/board.dts", "board: not TOML"),
        ("--board examples/board.dts --tick-ms 0", "--tick-ms has to be above 0"),
    ],
    "plot": [
        ("trace FILES --output OUT/picture.svg --width 200", "--width has to be at least 320"),
        ("trace FILES --output a.gif", "a picture is a file .svg, .pdf or .png"),
        ("trace FILES --output OUT/picture.svg --background no", "no colour: no"),
        ("trace --output OUT/picture.svg --trace absent", "absent: No such file or directory"),
        ("trace --output OUT/picture.svg --trace README.md", "line 1: neither trace 1 nor trace 2"),
        ("trace FILES --output OUT/picture.svg --from x", "a whole number from 0 on"),
        ("trace FILES --output /absent/a.svg", "/absent/a.svg: No such file or directory"),
    ],
    "generate": [
        ("uunifast --count 0 --utilisation 1 --seed 1", "argument --count: a whole number from 1 to 64, not 0"),
        ("uunifast --count 1 --utilisation 2 --seed 1", "utilisation is above 0 and at most 1"),
        ("uunifast --count 1 --utilisation 1", "the following arguments are required: --seed"),
        ("uunifast --count 1 --utilisation x --seed 1", "argument --utilisation: a number such as 0.7 or 7/10, not x"),
        ("uunifast --count 1 --utilisation 1 --seed 1 --low 11 --high 12 --multiple 7",
         "no period from low to high divides the multiple"),
        ("uunifast --count 1 --utilisation 1 --seed 1 --high abc",
         "argument --high: a whole number from 1 to 1099511627776, not abc"),
        ("uunifast --count 1 --utilisation 1 --seed 1 --low -5",
         "argument --low: a whole number from 1 to 1099511627776, not -5"),
        ("uunifast --count 1 --utilisation 1 --seed 1 --periods 0",
         "argument --periods: a whole number from 1 to 1099511627776, not 0"),
        ("uunifast --count 1 --utilisation 1 --seed 1 --multiple 0",
         "argument --multiple: a whole number from 1 to 281474976710656, not 0"),
        ("uunifast --count 1 --utilisation 1 --seed 1 --periods 10,20",
         "argument --periods: a whole number from 1 to 1099511627776, not 10,20"),
        ("uunifast --count 1 --utilisation 1 --seed 1 --periods 10 --low 5",
         "periods are a list, or from low to high, not both"),
        ("uunifast --count 1 --utilisation 1 --seed 1 --top 0",
         "argument --top: a whole number from 1 to 1000000, not 0"),
        ("uunifast --count 1 --utilisation 1 --seed 1 --top 1.5",
         "argument --top: a whole number from 1 to 1000000, not 1.5"),
        ("uunifast --count 1 --utilisation 1 --seed 1 --top 2000000",
         "argument --top: a whole number from 1 to 1000000, not 2000000"),
        ("published --count 5 --tenths 1 --number 5 --sets 4", "number is 1 to 4"),
        ("published --count 6 --tenths 1 --number 1", f"argument --count: {NOT_FIVE}"),
        ("demands --tasks absent --ticks 10 --share 0.5", "absent: No such file or directory"),
        ("demands --tasks absent --ticks 10", "one of the arguments --share --seed is required"),
        ("other", "argument KIND: invalid choice: 'other'"),
    ],
    "paper-table": [
        ("--finer 0", "argument --finer: a whole number from 1 on, not 0"),
        ("--finer -1", "argument --finer: a whole number from 1 on, not -1"),
        ("--finer 1.5", "argument --finer: a whole number from 1 on, not 1.5"),
        ("--finer x", "argument --finer: a whole number from 1 on, not x"),
    ],
    "explain": [
        ("FILES extra", "unrecognized arguments: extra"),
        ("FILES run", "unrecognized arguments: run"),
        ("FILES --frob", "unrecognized arguments: --frob"),
    ],
    "evaluate": [
        ("--folder OUT --utilisations 0.15", "a utilisation is 0.1, 0.2 .. or 1, not 0.15"),
        ("--folder OUT --counts 65", "a whole number from 1 to 64, not 65"),
        ("--folder OUT --governor mine.py", "a governor is FILE.py:NAME, not mine.py"),
        ("--folder OUT --governor absent.py:f", "absent.py: No such file or directory"),
        ("--folder OUT --machine absent.toml", "absent.toml: No such file or directory"),
        ("--folder OUT --machine PAPER/machine.toml examples/../crates/example_runs/data/paper/machine.toml",
         "two machine files of one name"),
        ("--folder OUT --sets 0", "a whole number from 1 to 999, not 0"),
        ("--folder OUT --draws other", "invalid choice: 'other'"),
        ("--folder OUT --jobs 0", "argument --jobs: a whole number from 1"),
    ],
}
"""The words after a command at the top of the repository, and a part of its refusal. PAPER is the folder of the paper's
example, FILES its files and a trace, and OUT a folder to write to."""

FILES = "--tasks PAPER/tasks.toml --machine PAPER/machine.toml --trace PAPER/edf_none.trace"


@pytest.mark.parametrize(("words", "line"), [
    pytest.param(f"{command} {words}", line, id=f"{command} {words}".rstrip())
    for command, rows in USAGE.items() for words, line in rows])
def test_usage_of_commands(words: str, line: str, tmp_path: Path, capsys: Captured,
                           monkeypatch: pytest.MonkeyPatch) -> None:
    """Nothing is written."""
    if words.startswith("plot"):
        pytest.importorskip("matplotlib")
    monkeypatch.chdir(TOP)
    words = words.replace("FILES", FILES).replace("PAPER", str(DATA / "paper")).replace("OUT", str(tmp_path))
    assert line in refusal(capsys, words.split()) and not [*tmp_path.iterdir()]


# Bad files

BAD_FILES = {
    "a text that is not UTF-8": b"\xff\xfe",
    "no byte": b"",
    "zero bytes": b"\0\0",
    "one bracket": b"[task]\n[point]\n",
    "deep nesting": b"task = " + b"[" * 100_000,
    "an unknown key": b"[[task]]\nofset = 1\n[[point]]\nofset = 1\n",
    "a number past each limit": b"[[task]]\nname = 'a'\nperiod = 1099511627777\nworst = 1\n",
    "a cut trace": b"trace 2\nplan edf cc 4\ntask a 4 0",
}


@pytest.fixture(params=["absent", "folder", *BAD_FILES])
def bad_file(request: pytest.FixtureRequest, tmp_path: Path) -> Path:
    """A file that nothing reads, one that isn't there, and a folder."""
    path = tmp_path / "bad"
    if request.param == "folder":
        path.mkdir()
    elif request.param in BAD_FILES:
        path.write_bytes(BAD_FILES[request.param])
    return path


@pytest.mark.parametrize("words", [
    "explain --tasks BAD --machine machine.toml --trace edf_none.trace",
    "explain --tasks tasks.toml --machine BAD --trace edf_none.trace",
    "explain --tasks tasks.toml --machine machine.toml --trace edf_none.trace --demands BAD",
    "explain --quiet --any --tasks tasks.toml --machine BAD --trace edf_none.trace",
    "simulate --tasks BAD --machine machine.toml --scheduler edf --governor cc --ticks 4",
    "statistics --tasks tasks.toml --trace BAD",
    "statistics --tasks BAD --trace edf_none.trace",
    "compare --tasks BAD --machine machine.toml --ticks 4",
    "compare --tasks tasks.toml --machine machine.toml --ticks 4 --demands BAD",
    "sensitivity --tasks tasks.toml --machine BAD --test edf",
    "design --board BAD",
    "convert --to csv --trace BAD",
    "convert --to vcd --trace BAD",
])
def test_bad_files(words: str, bad_file: Path, capsys: Captured, monkeypatch: pytest.MonkeyPatch) -> None:
    """Each is refused in a line, with status 2, and at most one more that says what is right."""
    monkeypatch.chdir(DATA / "paper")
    said = refusal(capsys, [bad_file if word == "BAD" else word for word in words.split()])
    assert re.fullmatch(r"rtdvs: .*\n(  [A-Z`].*\n)?", said), said
