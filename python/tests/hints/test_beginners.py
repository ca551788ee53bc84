"""The mistakes of beginners: the program's line, and a second line from which each can be mended.

Each begins with files that are right, and changes one or a word. The second lines are written here by hand.
"""

import re
import subprocess
from collections.abc import Mapping
from pathlib import Path
from typing import NamedTuple

import pytest

from rtdvs.engine import Engine
from rtdvs.hints import second_line

TASKS = """\
[[task]]
name = "t1"
period = 8
worst = 12

[[task]]
name = "t2"
period = 10
worst = 12

[[task]]
name = "t3"
period = 14
worst = 4
"""
MACHINE = """\
idle = 0

[[point]]
speed = 2
millivolts = 3000

[[point]]
speed = 3
millivolts = 4000

[[point]]
speed = 4
millivolts = 5000
"""
FILES = {"tasks.toml": TASKS, "machine.toml": MACHINE, "demands.csv": "task,job,units\nt1,1,8\nt2,1,12\n",
         "deadlines.csv": "task,deadline\nt1,6\n", "requests.csv": "arrival,units\n0,1\n5,3\n"}
SET = "--tasks tasks.toml --machine machine.toml"
ADMIT, RUN = f"admit {SET} --scheduler edf", f"run {SET} --scheduler edf --governor cc --ticks 16"
WITH_DEMANDS, CONSTRAIN = f"{RUN} --demands demands.csv", f"constrain {SET} --deadlines deadlines.csv"
POLL = f"poll {SET} --requests requests.csv --server t3 --scheduler edf --governor none --ticks 16"
COMMANDS = "`run`, `admit`, `response`, `constrain`, `poll`, `replay`, `migrate`, `workload` and `least`"
OF_RUN = ("`--tasks`, `--machine`, `--scheduler`, `--governor`, `--ticks`, `--demands`, `--probes` and `--format`")
TICKS = "The value of `--ticks` is a whole number from 1 to 1099511627776, in digits only."
FASTER = "Lower worst cases, lengthen periods, or add a faster point."
ENTRIES = "The file has a table `[[task]]` for each task."
POINTS = "The file has a table `[[point]]` for each point, and `idle` and `charge` above the first."
DIGITS = "is a whole number from 0 to 18446744073709551615, in digits only."
TIME = "is a whole number from 1 to 1099511627776, without quotes."


class Mistake(NamedTuple):
    """The words, the file that is changed with what is changed in it, the status, the line and the second one."""

    words: str
    change: Mapping[str, tuple[str, str] | str]
    status: int
    line: str
    second: str


def words(call: str, line: str, second: str) -> Mistake:
    return Mistake(call, {}, 2, line, second)


def file(call: str, name: str, change: tuple[str, str] | str, line: str, second: str) -> Mistake:
    return Mistake(call, {name: change}, 4, line, second)


def tasks(old: str, new: str, line: str, second: str) -> Mistake:
    return file(ADMIT, "tasks.toml", (old, new), f"tasks: {line}", second)


def machine(old: str, new: str, line: str, second: str) -> Mistake:
    return file(ADMIT, "machine.toml", (old, new), f"machine: {line}", second)


MISTAKES = {
    # The words of a call
    "no word": words("", "words: no command", f"The commands are {COMMANDS}. `--help` has more."),
    "help": words("--help", "words: 1: unknown command --help", f"The commands are {COMMANDS}. `--help` has more."),
    "capital letter": words("Run", "words: 1: unknown command Run", f"The commands are {COMMANDS}. Near it is `run`. `--help` has more."),
    "sign of equality": words(f"run {SET} --scheduler edf --governor cc --ticks=16", "words: 10: unexpected --ticks?16",
                              f"Write `--ticks 16`. The options of `run` are {OF_RUN}."),
    "misspelled option": words("run --task tasks.toml", "words: 2: unexpected --task",
                               f"Near it is `--tasks`. The options of `run` are {OF_RUN}."),
    "option of another command": words(
        f"{ADMIT} --governor cc", "words: 8: unexpected --governor",
        "The options of `admit` are `--tasks`, `--machine` and `--scheduler`."),
    "option twice": words(f"{ADMIT} --tasks tasks.toml", "words: 8: repeated --tasks",
                          "`--tasks` is given twice: remove one."),
    "no value": words(f"{RUN} --format", "words: 12: no value for --format", "The value of `--format` is `1` or `2`."),
    "no governor": words(
        f"run {SET} --scheduler edf --ticks 16", "words: missing --governor",
        "The value of `--governor` is `none`, `static`, `cc` or `la`. "
        "`run` needs `--tasks`, `--machine`, `--scheduler`, `--governor` and `--ticks`."),
    "scheduler in capitals": words(f"admit {SET} --scheduler EDF", "words: 7: bad value EDF",
                                   "The value of `--scheduler` is `edf` or `rm`. Here it is `EDF`."),
    "governor of the paper": words(
        f"run {SET} --scheduler edf --governor ccEDF --ticks 16", "words: 9: bad value ccEDF",
        "The value of `--governor` is `none`, `static`, `cc` or `la`. Here it is `ccEDF`."),
    "no tick": words(f"run {SET} --scheduler edf --governor cc --ticks 0", "words: 11: bad value 0",
                     f"{TICKS} Here it is `0`."),
    "exponent": words(f"run {SET} --scheduler edf --governor cc --ticks 1e3", "words: 11: bad value 1e3",
                      f"{TICKS} Here it is `1e3`."),
    "unit of time": words(f"run {SET} --scheduler edf --governor cc --ticks 16ms", "words: 11: bad value 16ms",
                          f"{TICKS} Here it is `16ms`."),
    "look-ahead under RM": words(
        f"run {SET} --scheduler rm --governor la --ticks 16", "words: rm has no governor la",
        "Look-ahead is only for EDF: `--scheduler edf`, or the governor `none`, `static` or `cc`."),
    # Files that can't be loaded
    "misspelled file": Mistake(ADMIT.replace("tasks.toml", "task.toml"), {}, 3, "load: tasks",
                               "`task.toml`: No such file or directory. The folder of the call is `FOLDER`. "
                               "Near it is `tasks.toml`."),
    "folder": Mistake(ADMIT.replace("machine.toml", "."), {}, 3, "load: machine",
                      "`.`: Is a directory. The folder of the call is `FOLDER`."),
    "another folder": Mistake(WITH_DEMANDS.replace("demands.csv", "data/demands.csv"), {}, 3, "load: demands",
                              "`data/demands.csv`: No such file or directory. The folder of the call is `FOLDER`."),
    # TOML
    "one bracket": tasks("[[task]]", "[task]", "not TOML", "Line 6, column 6: two `[task]`: write `[[task]]`, with two "
                         "brackets, for each. The line is `[task]`."),
    "no quotes": tasks('"t2"', "t2", "not TOML", "Line 7, column 8: this isn't a value: a text has quotes, a number only "
                       "digits. The line is `name = t2`."),
    "unit in a file": tasks("period = 8", "period = 8 ms", "not TOML",
                            "Line 3, column 12: the value ends before this: a number has no unit, no leading zero and "
                            "one point. The line is `period = 8 ms`."),
    "leading zero": machine("idle = 0", "idle = 08", "not TOML",
                            "Line 1, column 9: the value ends before this: a number has no unit, no leading zero and "
                            "one point. The line is `idle = 08`."),
    "open quote": tasks('"t3"', '"t3', "not TOML", "Line 12, column 11: the quote isn't closed. The line is `name = \"t3`."),
    # Keys
    "plural": tasks("[[task]]", "[[tasks]]", "unknown key tasks", f"Line 1: {ENTRIES} Near it is `task`."),
    "key of another program": tasks("worst = 4", "wcet = 4", "task 3: unknown key wcet",
                                    "Line 14: A task has `name`, `period`, `worst` and `offset`. Near it is `worst`."),
    "deadline": tasks("worst = 4", "worst = 4\ndeadline = 7", "task 3: unknown key deadline",
                      "Line 15: Deadlines are in a file of their own, for `constrain`. "
                      "A task has `name`, `period`, `worst` and `offset`."),
    "machine for tasks": Mistake(ADMIT.replace("tasks.toml", "machine.toml"), {}, 4, "tasks: unknown key idle",
                                 f"Line 1: It is a machine file. {ENTRIES}"),
    "idle below a point": machine("millivolts = 5000", "millivolts = 5000\nidle = 100", "point 3: unknown key idle",
                                  "Line 14: `idle` belongs above the first `[[point]]`. A point has `speed` and "
                                  "`millivolts`."),
    "volts": machine("millivolts = 3000", "volts = 3", "point 1: unknown key volts",
                     "Line 5: A point has `speed` and `millivolts`. Near it is `millivolts`."),
    "missing key": tasks("worst = 4\n", "", "task 3: missing worst",
                         "Line 11: `worst` is a whole number from 1 to 1152921504606846976, without quotes. "
                         "Here are only `name` and `period`."),
    "empty file": file(ADMIT, "tasks.toml", "# tasks\n", "tasks: no tasks", ENTRIES),
    # Values
    "period of 0": tasks("period = 8", "period = 0", "task 1: period out of range", f"Line 3: `period` {TIME} It is `0`."),
    "hertz": machine("speed = 4", "speed = 800000000", "point 3: speed out of range",
                     "Line 12: `speed` is a whole number from 1 to 1000000, without quotes. It is `800000000`."),
    "microvolts": machine("5000", "1100000", "point 3: millivolts out of range",
                          "Line 13: `millivolts` is a whole number from 1 to 20000, without quotes. It is `1100000`."),
    "idle in per cent of per cent": machine("idle = 0", "idle = 2000", "idle out of range",
                                            "Line 1: `idle` is a whole number from 0 to 1000, without quotes. It is `2000`."),
    "fraction": tasks("period = 8", "period = 8.5", "task 1: wrong kind of period", f"Line 3: `period` {TIME} It is `8.5`."),
    "number in quotes": tasks("period = 8", 'period = "8"', "task 1: wrong kind of period",
                              f"Line 3: `period` {TIME} It is `\"8\"`."),
    "idle as a share": machine("idle = 0", "idle = 0.1", "wrong kind of idle",
                               "Line 1: `idle` is a whole number from 0 to 1000, without quotes. It is `0.1`."),
    "blank in a name": tasks('"t1"', '"task 1"', "task 1: bad name",
                             "Line 2: A name has 1 to 32 letters, digits, `_` and `-`. It is `\"task 1\"`."),
    "same name": tasks('"t3"', '"t1"', "tasks 1 and 3 have one name",
                       "Line 12: Both are `t1`. Give each task a name of its own."),
    "falling speeds": machine("speed = 4", "speed = 1", "point 3: not rising",
                              "Line 11: Speed 1 with 5000 mV comes after 3 with 4000 mV. Each point needs a higher speed "
                              "than the one before, and no fewer millivolts."),
    # CSV
    "semicolons": file(WITH_DEMANDS, "demands.csv", "task;job;units\nt1;1;8\n", "demands: wrong header",
                       "The first line is `task,job,units`. Here it is `task;job;units`."),
    "blanks in a header": file(WITH_DEMANDS, "demands.csv", "task, job, units\n", "demands: wrong header",
                               "The first line is `task,job,units`. Here it is `task, job, units`."),
    "comma at the end": file(WITH_DEMANDS, "demands.csv", ("t2,1,12", "t2,1,12,"), "demands: row 2: 4 fields",
                             "Line 3: A row has task,job,units. Here it is `t2,1,12,`."),
    "blank after a name": file(WITH_DEMANDS, "demands.csv", ("t2,1", "t2 ,1"), "demands: row 2: unknown task t2?",
                               "Line 3: The tasks are `t1`, `t2` and `t3`. Here it is `t2 `. Near it is `t2`."),
    "decimal": file(WITH_DEMANDS, "demands.csv", ("t2,1,12", "t2,1,11.5"), "demands: row 2: bad units",
                    f"Line 3: `units` {DIGITS} Here it is `11.5`."),
    "job 0": file(WITH_DEMANDS, "demands.csv", ("t2,1", "t2,0"), "demands: row 2: job 0", "Line 3: Jobs count from 1."),
    "above a worst case": Mistake(WITH_DEMANDS, {"demands.csv": ("t1,1,8", "t1,1,13")}, 6, "over worst: t1 1 13 12",
                                  "Job 1 of `t1` has 13 units, and the worst case is 12. Lower the units, or raise `worst`."),
    # Sets that aren't admitted: 40 units each 8 ticks are 5, 75 each 10 are 7.5, and 4 each 14 are 2/7
    "too much under EDF": Mistake(
        ADMIT, {"tasks.toml": ("period = 10\nworst = 12", "period = 10\nworst = 75")}, 1, "denied edf 2600 1120",
        f"The tasks ask for 9.29 units a tick, and the highest speed is 4. This is 2.32 times the work of the highest speed. {FASTER}"),
    "too much under RM": Mistake(
        ADMIT.replace("edf", "rm"), {"tasks.toml": ("worst = 12", "worst = 40")}, 1, "denied rm t1 40 32",
        "In a period of `t1`, it and the tasks with shorter periods ask for 40 units; the highest speed does 32. "
        "`response` is the exact test, and `edf` admits more."),
    "offset": Mistake(f"response {SET}", {"tasks.toml": ("worst = 4", "worst = 4\noffset = 1")}, 1, "denied offset t3",
                      "Take the `offset` of `t3` out of the task file: this test is for sets that all start at tick 0."),
    "too many ticks": Mistake(
        f"run {SET} --scheduler edf --governor cc --ticks 1000000", {}, 5, "limit: 296429 jobs, at most 100000",
        "These tasks have that many up to tick 337344. Fewer ticks, or periods that share factors."),
}
CASES = [pytest.param(mistake, id=name) for name, mistake in MISTAKES.items()]


@pytest.fixture
def folder(tmp_path: Path, monkeypatch: pytest.MonkeyPatch) -> Path:
    """A folder in which all files are right, and in which a call is made."""
    for name, text in FILES.items():
        (tmp_path / name).write_text(text)
    monkeypatch.chdir(tmp_path)
    return tmp_path


def made(mistake: Mistake, folder: Path) -> None:
    """Makes the mistake in the files: in each heading, otherwise once."""
    for name, change in mistake.change.items():
        if isinstance(change, str):
            (folder / name).write_text(change)
        else:
            assert change[0] in FILES[name]
            (folder / name).write_text(FILES[name].replace(*change, -1 if change[0].startswith("[") else 1))


def test_they_are_fifty_two() -> None:
    assert len(MISTAKES) == 52 and len({(each.line, each.second) for each in MISTAKES.values()}) == 52


@pytest.mark.parametrize("mistake", CASES)
def test_second_lines(mistake: Mistake, folder: Path) -> None:
    made(mistake, folder)
    assert second_line(mistake.line, mistake.words.split()) == mistake.second.replace("FOLDER", str(folder))


@pytest.mark.parametrize("mistake", CASES)
def test_without_files(mistake: Mistake) -> None:
    """Without words and files something is said still, on one line and in sentences."""
    found = second_line(mistake.line)
    assert re.fullmatch(r"[^\n<>]+\.", found)


@pytest.mark.parametrize("mistake", CASES)
def test_lines_are_the_programs(mistake: Mistake, folder: Path, engine: Engine) -> None:
    made(mistake, folder)
    called = subprocess.run([engine.program, *mistake.words.split()], capture_output=True, text=True)
    assert (called.returncode, called.stdout, called.stderr) == (mistake.status, "", f"{mistake.line}\n")
