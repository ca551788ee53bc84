"""The pages: what each block of calls prints, run from the first block of a page to its last.

Each page has a folder of its own, with the names that it uses at the top of the repository. A comment before
a block, which a reader doesn't see, says what else is needed:

    <!-- not run: why it can't be -->
    <!-- first: a command that prepares the folder -->
    <!-- file: name, under which the text of the block is kept -->
    <!-- status: that of the block's last call, if it isn't 0 -->
    <!-- lines of: a command that prints the lines of the block, or the code in a table's first column -->

These lines are in the same order. In place of that command `above` is the last block of calls without what
they print. A block of any other form is a fault, unless it is TOML, or part of a file, which
tools/check_copies.sh compares. What pages say elsewhere is compared in test_tables.py.
"""

import doctest
import os
import re
import subprocess
import sys
import textwrap
import tomllib
from collections.abc import Iterator
from dataclasses import dataclass, field
from pathlib import Path

import pytest

from tests.shared.examples import PAGES, SOURCE, TEST_DATA, TOP

SOLUTIONS = Path("examples", "exercises", "solutions.txt")
TOKEN = re.compile(r"""
    ^<!--\ (?P<key>not\ run|first|file|status|lines\ of):\ (?P<value>.*)\ -->$
    | ^```(?P<kind>.*)\n(?P<fenced>(?:.*\n)*?)```$
    | (?<=\n\n)(?P<indented>(?:\ {4}.*\n)+(?:\n+(?:\ {4}.*\n)+)*)
    | (?P<table>(?:^\|.*\n)+)""", re.MULTILINE | re.VERBOSE)
CALL = re.compile(r"^\$ (?P<words>.*)\n(?P<printed>(?:(?!\$ ).*\n)*)", re.MULTILINE)
BARE = re.compile(r"(?:(?:\./rtdvs|python3 -m rtdvs) .*\n)+")
PART = re.compile(r"[a-z]+ \S+(?: part)?")


@dataclass(frozen=True, slots=True)
class Block:
    """A block or a table of a page: its first line's number, and the comments before it."""
    line: int
    kind: str
    text: str
    comments: tuple[tuple[str, str], ...] = ()

    def said(self, key: str) -> list[str]:
        return [value for found, value in self.comments if found == key]


def blocks(text: str) -> Iterator[Block]:
    """The blocks and tables of a page; indented ones without their four blanks.

    >>> page = "A\\n\\n    b\\n\\n    c\\n\\n```sh\\nd\\n```\\n"
    >>> [(block.line, block.kind, block.text) for block in blocks(page)]
    [(3, 'indented', 'b\\n\\nc\\n'), (8, 'sh', 'd\\n')]
    """
    comments: list[tuple[str, str]] = []
    for token in TOKEN.finditer(text):
        if token["key"]:
            comments.append((token["key"], token["value"]))
            continue
        part = next(name for name in ("fenced", "indented", "table") if token[name] is not None)
        line = text.count("\n", 0, token.start(part)) + 1
        inner = textwrap.dedent(token[part]) if part == "indented" else token[part]
        yield Block(line, token["kind"] if part == "fenced" else part, inner, tuple(comments))
        comments.clear()


def solutions(text: str) -> Iterator[Block]:
    """The calls of the exercises, a block for each, whose last line may be its status."""
    kept = re.sub(r"^#.*$", "", text, flags=re.MULTILINE)
    for call in CALL.finditer(kept):
        status = re.search(r"^status (\d+)\n", call[0], re.MULTILINE)
        inner = re.sub(r"^(?:status \d+)?\n", "", call[0], flags=re.MULTILINE)
        comments = (("status", status[1]),) if status else ()
        yield Block(kept.count("\n", 0, call.start()) + 1, "calls", inner, comments)


@dataclass(frozen=True, slots=True)
class Reader:
    """Someone who types what a page has: its name, the folder, and the names that Python knows so far."""
    page: str
    folder: Path
    names: dict[str, object] = field(default_factory=dict)
    bare: list[str] = field(default_factory=list)

    def call(self, words: str) -> tuple[int, str]:
        """The exit status of a command and what it prints, on both streams."""
        made = subprocess.run(["timeout", "600", "sh", "-c", words], cwd=self.folder, text=True,
                              stdin=subprocess.DEVNULL, stdout=subprocess.PIPE, stderr=subprocess.STDOUT)
        return made.returncode, made.stdout

    def fault(self, line: int, what: str) -> str:
        return f"{self.page}:{line}: {what}"

    def faults(self, block: Block) -> Iterator[str]:
        """What differs in a block."""
        if block.said("not run"):
            return
        for words in block.said("first"):
            status, printed = self.call(words)
            if status:
                yield self.fault(block.line, f"status {status} of: {words}\n{printed}")
        for name in block.said("file"):
            (self.folder / name).write_text(block.text, encoding="utf-8")
        for words in block.said("lines of"):
            yield from self.lines(block, self.bare[-1] if words == "above" else words)
        if not block.said("file") and not block.said("lines of"):
            yield from self.tried(block)

    def tried(self, block: Block) -> Iterator[str]:
        """A block of calls and what they print; one of calls only, or of shell; one of Python, or of TOML."""
        if block.text.startswith("$ "):
            yield from self.calls(block)
        elif block.kind == "sh" or BARE.fullmatch(block.text):
            self.bare.append(block.text)
            status, printed = self.call(f"set -e\n{block.text}")
            if status:
                yield self.fault(block.line, f"status {status}\n{printed}")
        elif block.kind == "python":
            yield from self.python(block)
        elif block.kind == "toml":
            tomllib.loads(block.text)
        elif block.kind != "table" and not PART.fullmatch(block.kind):
            yield self.fault(block.line, "nothing runs this block, and no comment says why")

    def calls(self, block: Block) -> Iterator[str]:
        for call in CALL.finditer(block.text):
            words, last = call["words"], call.end() == len(block.text)
            status, printed = self.call(words)
            wanted_status = int((*block.said("status"), "0")[0]) if last else 0
            line = block.line + block.text.count("\n", 0, call.start())
            if status != wanted_status:
                yield self.fault(line, f"status {status}, the page says {wanted_status}: {words}\n{printed}")
            wanted, found = call["printed"].splitlines(), printed.splitlines()
            if wanted != found:
                same = [one == other for one, other in zip([*wanted, None], [*found, None])].index(False)
                yield self.fault(line + 1 + same, f"printed is {[*found, 'no line'][same]!r}, "
                                                  f"the page says {[*wanted, 'no line'][same]!r}: {words}")

    def lines(self, block: Block, words: str) -> Iterator[str]:
        """A block that has some lines of what a command prints, in their order."""
        status, printed = self.call(words)
        if status:
            yield self.fault(block.line, f"status {status}: {words}\n{printed}")
        rest = iter(printed.splitlines())
        for place, line in enumerate(block.text.splitlines()):
            cells = re.findall(r"`([^`]*)`", line.split("|")[1]) if block.kind == "table" else [line]
            for cell in cells:
                if cell not in rest:
                    yield self.fault(block.line + place, f"no such line, or not here: {cell!r}: {words}")
                    return

    def python(self, block: Block) -> Iterator[str]:
        """A block with prompts has what they print; any other is only run."""
        if not block.text.startswith(">>> "):
            exec(compile("\n" * (block.line - 1) + block.text, self.page, "exec"), self.names)
            return
        parser = doctest.DocTestParser()
        test = parser.get_doctest(block.text, self.names, self.page, self.page, block.line - 1)
        found: list[str] = []
        doctest.DocTestRunner(verbose=False).run(test, out=found.append, clear_globs=False)
        self.names.update(test.globs)
        if found:
            yield self.fault(block.line, "".join(found))


@pytest.fixture
def folder(program: Path, tmp_path: Path, monkeypatch: pytest.MonkeyPatch) -> Path:
    """The folder in which a page is read: the repository's names at the top, and `python3` on the path."""
    for module in ("matplotlib", "pandas"):
        pytest.importorskip(module)
    tools = tmp_path / "bin"
    top = tmp_path / "top"
    for made in (tools, top):
        made.mkdir()
    (tools / "python3").symlink_to(sys.executable)
    (top / "rtdvs").symlink_to(program)
    for name in ("crates", "docs", "examples", "python", "tools"):
        (top / name).symlink_to(TOP / name)
    monkeypatch.chdir(top)
    monkeypatch.setenv("RTDVS", str(program))
    monkeypatch.setenv("PATH", os.pathsep.join([str(tools), *os.defpath.split(os.pathsep)]))
    monkeypatch.setenv("PYTHONPATH", SOURCE)
    monkeypatch.setenv("PYTHONDONTWRITEBYTECODE", "1")
    return top


def check(page: Path, folder: Path) -> None:
    text = (TOP / page).read_text(encoding="utf-8")
    found = list(solutions(text) if page == SOLUTIONS else blocks(text))
    reader = Reader(str(page), folder)
    faults = [fault for block in found for fault in reader.faults(block)]
    assert not faults, "\n" + "\n".join(faults)


@pytest.mark.parametrize("page", [*PAGES, SOLUTIONS], ids=str)
def test_pages(page: Path, folder: Path) -> None:
    check(page, folder)


@pytest.mark.parametrize("page", ["PYTHON.md", "SWEEPS.md", "CONVERTERS.md", "EVALUATION.md"])
def test_pages_by_the_library(page: str, folder: Path, library: Path,
                              monkeypatch: pytest.MonkeyPatch) -> None:
    """The package's calls on these pages say the same where the library answers them."""
    monkeypatch.setenv("RTDVS", str(library))
    check(Path("docs", page), folder)


def test_a_fault_has_its_page_and_line(folder: Path) -> None:
    reader = Reader("small.md", folder)
    page = (TEST_DATA / "small.md").read_text()
    faults = [fault.splitlines()[0] for block in blocks(page) for fault in reader.faults(block)]
    assert faults == [
        "small.md:7: printed is '5', the page says '6': echo 4; echo 5",
        "small.md:31: no such line, or not here: 'b': cat other kept",
        "small.md:38: no such line, or not here: 'least 2 0 4 2 28 504000000000': "
        "./rtdvs least --machine crates/example_runs/data/paper/machine.toml --units 28 --ticks 16",
        "small.md:42: nothing runs this block, and no comment says why",
        "small.md:46: status 3, the page says 0: exit 3",
        "small.md:49: status 4",
        "small.md:53: " + "*" * 70,
    ]


def test_a_stored_call_has_its_status() -> None:
    found = list(solutions("# about\n$ a\nb\nstatus 7\n\n# more\n$ c\n"))
    assert [(block.line, block.text, block.said("status")) for block in found] == [
        (2, "$ a\nb\n", ["7"]), (7, "$ c\n", [])]
