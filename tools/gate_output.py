#!/usr/bin/env python3
"""Compares what `rt ci` printed with what the pages and the must-fail edits say. Run it at the top of the repository.

    rt ci > FILE; python3 tools/gate_output.py FILE
    rt ci | python3 tools/gate_output.py

It compares three things, and ends with 1 if one differs:

- On how many C functions each proof rests: the word `axioms=N` of the verdict with the table of docs/PROVED.md. A
  proof that is kept from an earlier run prints no verdict, and isn't compared.
- That an edit was refused of each crate that has some, unless its proof is kept.
- Where each must-fail edit was refused: the function with the goal that wasn't proved is one that the first lines of
  the edit name, those that begin with `#`.

It lists each edit that an open goal of the code didn't refuse, by kind:

by hand    a proof by hand no longer has the right type, or a search there found nothing: a right body in another form
           may be refused alike
lemma      a proof that is no function's
name       only because a proof names what the edit took away, which shows nothing of a clause
limit      only by a limit of the prover
unplaced   the line names no place
"""
import collections
import dataclasses
import pathlib
import re
import sys
from collections.abc import Iterator

CRATES = pathlib.Path("crates")
PAGE = pathlib.Path("docs/PROVED.md")

VERDICT = re.compile(r"^logic=proved (.*)$")
BLOCK = re.compile(r"^== ([a-z]\w*)(: its tests)?$")
KEPT = re.compile(r"^rt: ([a-z]\w*) is kept: ")
EDIT = re.compile(r"^rt: must-fail ([a-z]\w*)/([\w.-]+\.edit): refused, as it must be(.*)$")
PLACE = re.compile(r"(?:note: )?(?:\./)?((?:src|specs|proofs)/\S+?):(\d+):\d+: ?(.*)")
ROW = re.compile(r"^\| .*`([a-z]\w*)` \| (\d+) \|")
FUNCTION = re.compile(r'^ *(?:pub(?:\([a-z]+\))? )?(?:extern "C" )?fn (\w+)')


@dataclasses.dataclass(frozen=True)
class Refusal:
    """A must-fail edit that was refused: what refused it, in which function, and the message."""

    crate: str
    edit: str
    kind: str
    function: str
    message: str

    def why(self) -> str:
        """The first lines of the edit, which name what has to refuse it."""
        lines = (CRATES / self.crate / "must-fail" / self.edit).read_text(encoding="utf-8").split("\n")
        end = next((i for i, line in enumerate(lines) if not line.startswith("#")), len(lines))
        return " ".join(line.lstrip("# ") for line in lines[:end])

    def is_named(self) -> bool:
        """Whether the edit names the function whose goal refused it, or there is none to be named."""
        name = re.escape(self.function.lstrip("+"))  # the folder of a function that calls itself begins with +
        return not name or re.search(rf"\b{name}\b", self.why()) is not None

    def __str__(self) -> str:
        return f"{self.crate}/{self.edit}: {self.message}"


def axioms(lines: list[str]) -> tuple[dict[str, int], set[str]]:
    """On how many C functions each proved crate rests, and which crates are kept.

    >>> axioms(["== a", "logic=proved functions=2 axioms=3 sum=0", "== a: its tests", "logic=proved axioms=9 sum=0"])
    ({'a': 3}, set())
    """
    found: dict[str, int] = {}
    kept = set()
    crate = ""
    for line in lines:
        if block := BLOCK.match(line):
            crate = "" if block[2] else block[1]
        elif earlier := KEPT.match(line):
            kept.add(earlier[1])
        elif crate and (verdict := VERDICT.match(line)):
            count = re.search(r"(?:^| )axioms=(\d+)", verdict[1])
            found[crate] = int(count[1]) if count else 0
    return found, kept


def axiom_faults(found: dict[str, int], kept: set[str], page: str) -> Iterator[str]:
    """What the table of the page says and the verdicts don't."""
    rows = [row for row in map(ROW.match, page.split("\n")) if row]
    if not rows:
        yield f"{PAGE}: no row with a crate and a number"
    for row in rows:
        crate, said = row[1], int(row[2])
        if crate in found and found[crate] != said:
            yield f"{PAGE}: {crate} rests on {said} C functions there, and on {found[crate]} by its verdict"
        elif crate not in found and crate not in kept:
            yield f"{crate}: no verdict"


def function_at(path: pathlib.Path, number: int) -> str:
    """The function of the code that a line is in; of an attribute's line, the one below it."""
    lines = path.read_text(encoding="utf-8").split("\n") if path.exists() else []
    while number < len(lines) and lines[number - 1].lstrip().startswith("#["):
        number += 1
    names = [match[1] for match in map(FUNCTION.match, lines[:number]) if match]
    return names[-1] if names else ""


def refusal(crate: str, edit: str, rest: str) -> Refusal:
    """What the rest of a line says of an edit that was refused."""
    head, _, message = rest.partition("): ") if rest.startswith(" (") else ("", "", rest.removeprefix(": "))
    place = PLACE.match(message)
    if "names what the edit took away" in head:
        return Refusal(crate, edit, "name", "", message)
    path = pathlib.PurePosixPath(place[1]) if place else None
    if place is None or path is None:
        return Refusal(crate, edit, "limit" if head else "unplaced", "", message)
    if path.parts[0] == "proofs":
        function = path.parts[-2] if len(path.parts) > 2 else ""
        kind = "by hand" if function else "lemma"
    else:
        function = function_at(CRATES / crate / path, int(place[2]))
        kind = "goal"
    return Refusal(crate, edit, "limit" if head else kind, function, message)


def with_edits() -> set[str]:
    """The crates that have must-fail edits."""
    return {path.parts[-3] for path in CRATES.glob("*/must-fail/*.edit")}


def report(lines: list[str], page: str) -> tuple[list[str], int]:
    """What is printed, and how many faults there are."""
    found, kept = axioms(lines)
    refusals = [refusal(*match.groups()) for match in map(EDIT.match, lines) if match]
    others = [it for it in refusals if not it.is_named()]
    faults = [*axiom_faults(found, kept, page),
              *(f"{it.crate}/{it.edit}: refused in {it.function}, which its first lines don't name: {it.message}"
                for it in others)]
    faults += [f"{crate}: no must-fail edit was refused"
               for crate in sorted(with_edits() - kept - {it.crate for it in refusals})]
    kinds = collections.Counter(it.kind for it in refusals)
    said = sorted(f"{it.kind}: {it}" for it in refusals if it.kind != "goal")
    numbers = ", ".join(f"{count} {kind}" for kind, count in kinds.most_common())
    said += [*faults, f"gate: {len(refusals)} edits refused ({numbers or 'none'}), {len(faults)} faults"]
    return said, len(faults)


def main(words: list[str]) -> int:
    text = pathlib.Path(words[0]).read_text(encoding="utf-8", errors="replace") if words else sys.stdin.read()
    said, faults = report(text.split("\n"), PAGE.read_text(encoding="utf-8"))
    print("\n".join(said))
    return 1 if faults else 0


if __name__ == "__main__":
    sys.exit(main(sys.argv[1:]))
