#!/usr/bin/env python3
"""Puts faults into copies of the repository and looks whether a check sees each: plants.sh calls it.

    python3 tools/plants.py FOLDER PROGRAM [CHECK | NUMBER [SEED]]
    python3 tools/plants.py FOLDER                      only looks whether each plant can be put into a copy
    python3 tools/plants.py                             prints the table of docs/TESTING.md

A file of tools/planted has the plants of the check of its name. A blank line is between two. A plant begins with what
is wrong, in lines after `#`, which is also its name. Its other lines are, in any number:

    file: PATH        the file that the next lines change
    old: TEXT         a text that is once in the file
    new: TEXT         what is there instead; `new:` alone takes the text away
    more: TEXT        one more line of it
    gone: PATH        a file that is deleted
    cut: PATH BYTES   a file that is cut
    program: COMMAND  in place of the program this command of the shell, in which $REAL is the program and "$@" its words
    only: TEXT        the check is called with this in its variable ONLY, and makes only cases whose names have it
    test: WORDS       in place of the check these words of pytest, in the folder python

A plant counts as seen if the check or the tests fail within five minutes, and passed just before without the plant. The
check has the variable FIRST, with which it ends at the first case that differs. If the check lacks a tool, a plant that it
doesn't see is skipped; with TOOLS=all that is a fault too, as in check.sh.
"""
import os
import random
import re
import shlex
import shutil
import subprocess
import sys
import time
from collections.abc import Callable, Iterable, Iterator
from concurrent.futures import ThreadPoolExecutor
from contextlib import contextmanager
from dataclasses import dataclass
from itertools import groupby
from pathlib import Path
from queue import SimpleQueue
from typing import TypeVar

T = TypeVar("T")
TOP = Path(__file__).resolve().parents[1]
PATIENCE = 300.0
"""Seconds that a check has."""
LATE = -1
"""In place of a status: the check took longer."""
LACKS = "not seen, since the check lacks a tool"
LEFT_OUT = shutil.ignore_patterns(".git", "__pycache__", "rlib", "incremental", ".mypy_cache")


@dataclass(frozen=True, slots=True)
class Plant:
    """A fault: its name, the check that has to see it, and what it changes."""

    name: str
    check: str
    changes: tuple[tuple[str, str], ...]

    def words(self, key: str) -> tuple[str, ...]:
        """The values of a key, in their order."""
        return tuple(value for each, value in self.changes if each == key)

    def run(self) -> "Run":
        """The check, or the part of it, that has to see the plant."""
        return self.check, "".join(self.words("only")), " ".join(self.words("test"))


Run = tuple[str, str, str]
"""A check, what the names of its cases have, and the words of pytest."""


class NoPlant(Exception):
    """A plant that can't be put in its place."""


def plants(path: Path) -> list[Plant]:
    """The plants of a file."""
    found = []
    for text in path.read_text(encoding="utf-8").strip().split("\n\n"):
        lines = text.splitlines()
        name = " ".join(line.removeprefix("#").strip() for line in lines if line.startswith("#"))
        changes: list[tuple[str, str]] = []
        for key, _, value in (line.partition(":") for line in lines if not line.startswith("#")):
            if key == "more":
                key, before = changes.pop()
                value = f"{before}\n{value.removeprefix(' ')}"
            changes.append((key, value.removeprefix(" ")))
        found.append(Plant(name, path.stem, tuple(changes)))
    return found


def changed(text: str, old: str, new: str, path: str) -> str:
    """The text with the one occurrence of `old` replaced.

    >>> changed("a b", "b", "c", "file")
    'a c'
    """
    if text.count(old) != 1:
        raise NoPlant(f"{path} has {text.count(old)} times: {old}")
    return text.replace(old, new)


def put(plant: Plant, folder: Path, before: dict[Path, bytes]) -> None:
    """Puts a plant into a copy; `before` gets what was there."""
    path, old = "", ""
    for key, value in plant.changes:
        if key in {"file", "gone", "cut"}:
            path = value.split(" ")[0]
            before.setdefault(folder / path, (folder / path).read_bytes())
        if key == "old":
            old = value
        elif key == "new":
            text = (folder / path).read_text(encoding="utf-8")
            (folder / path).write_text(changed(text, old, value, path), encoding="utf-8")
        elif key == "gone":
            (folder / path).unlink()
        elif key == "cut":
            (folder / path).write_bytes((folder / path).read_bytes()[:int(value.split(" ")[1])])
        elif key not in {"file", "program", "only", "test"}:
            raise NoPlant(f"no key {key}")


@contextmanager
def planted(plant: Plant, folder: Path) -> Iterator[None]:
    """Has a plant in a copy for a time; raises NoPlant and OSError if it can't be put there."""
    before: dict[Path, bytes] = {}
    try:
        put(plant, folder, before)
        yield
    finally:
        for path, content in before.items():
            path.write_bytes(content)


@dataclass(frozen=True, slots=True)
class Ending:
    """The status of a check, or of a part of it, and whether it skipped a case."""

    status: int
    lacks: bool


def ending(folder: Path, run: Run, program: Path, commands: tuple[str, ...] = ()) -> Ending:
    """Runs a check in a copy, over the program or over commands of the shell in its place."""
    temporary = folder.with_suffix(".tmp")
    shutil.rmtree(temporary, ignore_errors=True)
    temporary.mkdir()
    if commands:
        stand_in = temporary / "program"
        stand_in.write_text("\n".join((f"#!{shutil.which('sh')}", f"REAL={program}", *commands, "")))
        stand_in.chmod(0o755)
        program = stand_in
    check, only, tests = run
    environment = os.environ | {"TMPDIR": str(temporary), "RTDVS": str(program), "ONLY": only, "FIRST": "yes"}
    words = ["-m", "pytest", "-q", "-x", *shlex.split(tests)] if tests else [f"tools/check_{check}.sh", str(program)]
    words = [sys.executable, str(TOP / "tools" / "group.py"), sys.executable if tests else "sh", *words]
    with (temporary / "said").open("wb") as said, \
            subprocess.Popen(words, cwd=folder / "python" if tests else folder, env=environment,
                             stdin=subprocess.DEVNULL, stdout=said, stderr=subprocess.STDOUT) as child:
        try:
            status = child.wait(PATIENCE)
        except subprocess.TimeoutExpired:
            child.terminate()
            status = LATE
    return Ending(status, re.search(rb"\bskipped\b", (temporary / "said").read_bytes()) is not None)


def fault_of(plant: Plant, folder: Path, program: Path) -> str:
    """What is wrong with a plant: it can't be put, or isn't seen; nothing if it is seen."""
    try:
        with planted(plant, folder):
            ended = ending(folder, plant.run(), program, plant.words("program"))
    except (NoPlant, OSError) as fault:
        return f"{plant.check}: can't be planted: {plant.name}: {fault}"
    if ended.status == LATE:
        return f"{plant.check}: longer than {PATIENCE:.0f} seconds: {plant.name}"
    if ended.status != 0:
        return ""
    return f"{plant.check}: {LACKS if ended.lacks else 'not seen'}: {plant.name}"


def fault_without(run: Run, folder: Path, program: Path) -> str:
    """What is wrong with a check, or a part of it, that runs without a plant."""
    ended = ending(folder, run, program)
    if ended.status == 0:
        return ""
    how = f"longer than {PATIENCE:.0f} seconds" if ended.status == LATE else "fails"
    return f"{run[0]}: {how} without a plant: {run[1] or run[2] or 'all of it'}"


def unplantable(stored: Iterable[Plant], folder: Path) -> Iterator[str]:
    """What is wrong with each plant that can't be put into a copy."""
    for plant in stored:
        try:
            with planted(plant, folder):
                pass
        except (NoPlant, OSError) as fault:
            yield f"{plant.check}: can't be planted: {plant.name}: {fault}"


def chosen(all_plants: list[Plant], words: list[str]) -> list[Plant]:
    """All plants, those of a check, or as many as asked for by a seed."""
    if not words:
        return all_plants
    if not words[0].isdecimal():
        return [plant for plant in all_plants if plant.check == words[0]]
    seed = int(words[1]) if len(words) > 1 else time.time_ns() % 10**6
    print(f"plants: {words[0]} of {len(all_plants)}, by the seed {seed}", flush=True)
    return random.Random(seed).sample(all_plants, int(words[0]))


class Copies:
    """Copies of the repository, one for each worker, so that a plant is in one of them alone."""

    def __init__(self, folder: Path, number: int) -> None:
        self.free: SimpleQueue[Path] = SimpleQueue()
        for place in range(number):
            self.free.put(Path(shutil.copytree(TOP, folder / f"copy{place}", symlinks=True, ignore=LEFT_OUT)))

    def use(self, work: Callable[[Path], T]) -> T:
        """What the work gives for a copy that nothing else uses."""
        copy = self.free.get()
        try:
            return work(copy)
        finally:
            self.free.put(copy)


def table(stored: list[Plant]) -> Iterator[str]:
    """The rows of the table of docs/TESTING.md: a check, and the faults that it has to see."""
    for check, group in groupby(stored, lambda plant: plant.check):
        yield f"| `{check}` | {'; '.join(plant.name for plant in group)} |"


@contextmanager
def cancelling(pool: ThreadPoolExecutor) -> Iterator[None]:
    """Lets no further check begin where this script is interrupted."""
    try:
        yield
    except BaseException:
        pool.shutdown(wait=False, cancel_futures=True)
        raise


def faults_of(taken: list[Plant], folder: Path, program: Path) -> list[str]:
    """Runs the checks without plants, and then with each one in turn; the result has what is wrong."""
    # The last checks take the longest, so they begin.
    runs = sorted({plant.run() for plant in taken}, reverse=True)
    number = os.cpu_count() or 1
    copies = Copies(folder, number)
    with ThreadPoolExecutor(number) as pool, cancelling(pool):
        without = pool.map(lambda run: copies.use(lambda copy: fault_without(run, copy, program)), runs)
        sound = dict(zip(runs, without, strict=True))
        judged = [plant for plant in reversed(taken) if not sound[plant.run()]]
        found = pool.map(lambda plant: copies.use(lambda copy: fault_of(plant, copy, program)), judged)
        return sorted(filter(None, [*sound.values(), *found]))


def main() -> int:
    """Prints what wasn't seen, and how many plants there were."""
    stored = [plant for path in sorted((TOP / "tools" / "planted").glob("*.txt")) for plant in plants(path)]
    if len(sys.argv) == 1:
        print(*table(stored), sep="\n")
        return 0
    folder = Path(sys.argv[1])
    if len(sys.argv) == 2:
        faults = [*unplantable(stored, Copies(folder, 1).free.get())]
        print(*faults, f"plants: {len(stored)} looked at, {len(faults)} faults", sep="\n")
        return 1 if faults else 0
    taken = chosen(stored, sys.argv[3:])
    found = faults_of(taken, folder, Path(sys.argv[2]))
    lacking = [] if os.environ.get("TOOLS") == "all" else [fault for fault in found if f": {LACKS}: " in fault]
    skipped = f", {len(lacking)} skipped" if lacking else ""
    print(*found, f"plants: {len(taken)} planted, {len(found) - len(lacking)} faults{skipped}", sep="\n")
    return 1 if len(found) > len(lacking) else 0


if __name__ == "__main__":
    sys.exit(main())
