#!/usr/bin/env python3
"""The processor time of `response` for each stored set, in milliseconds, the least of twenty, as a table.

    python3 tools/speed_responses.py PROGRAM

The sets are those of `crates/stored_calls/data/calls.txt` whose titles begin with `exact: responses:`. What a program
takes to begin is part of each time.
"""
import argparse
import subprocess
import sys
import tempfile
from collections.abc import Iterator
from pathlib import Path
from resource import RUSAGE_CHILDREN, getrusage

CALLS = Path(__file__).resolve().parents[1] / "crates" / "stored_calls" / "data" / "calls.txt"
TITLE = "# exact: responses: "
CALL = "call response --tasks T --machine M"
TIMES = 20


def stored_sets(text: str) -> Iterator[tuple[str, dict[str, str]]]:
    """The title and the files of each case that asks for responses of the files T and M.

    >>> case = "# exact: responses: one\\nfile T\\n|task = [\\n-]\\nfile M\\n-point = []\\n" + CALL
    >>> [*stored_sets(case)]
    [('one', {'T': 'task = [\\n]', 'M': 'point = []'})]
    """
    for case in text.split("\n\n"):
        lines = case.split("\n")
        if not lines[0].startswith(TITLE) or CALL not in lines:
            continue
        files: dict[str, str] = {}
        name = ""
        for line in lines[1:lines.index(CALL)]:
            if line.startswith("file "):
                name = line.removeprefix("file ")
                files[name] = ""
            elif line.startswith("|"):
                files[name] += line[1:] + "\n"
            elif line.startswith("-"):
                files[name] += line[1:]
        yield lines[0].removeprefix(TITLE), files


def processor_time() -> float:
    """Milliseconds that the ended children took, in all."""
    used = getrusage(RUSAGE_CHILDREN)
    return 1000 * (used.ru_utime + used.ru_stime)


def milliseconds(program: Path, files: dict[str, str]) -> float:
    """The least time of twenty calls, in milliseconds."""
    with tempfile.TemporaryDirectory() as folder:
        for name, text in files.items():
            Path(folder, name).write_text(text, encoding="utf-8", newline="")

        def taken() -> float:
            before = processor_time()
            words = [program, "response", "--tasks", "T", "--machine", "M"]
            subprocess.run(words, cwd=folder, stdout=subprocess.DEVNULL, stderr=subprocess.DEVNULL, check=False)
            return processor_time() - before

        return min(taken() for _ in range(TIMES))


def main() -> None:
    """Prints a row for each set, the costliest last."""
    parser = argparse.ArgumentParser(description=__doc__.split("\n")[0])
    parser.add_argument("program", metavar="PROGRAM", type=Path)
    program = parser.parse_args().program.resolve()
    found = [(milliseconds(program, files), title) for title, files in stored_sets(CALLS.read_text(encoding="utf-8"))]
    for time, title in sorted(found):
        print(f'| "{title}" | {time:.1f} |')


if __name__ == "__main__":
    sys.exit(main())
