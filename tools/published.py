#!/usr/bin/env python3
"""The names that other programs may rest on, as the sources have them: run it at the top of the repository.

    python3 tools/published.py [--write]

It prints the lines of published.txt that the sources no longer have; `--write` adds those of the sources that are new.
A line is a public struct, enum or trait with its fields, variants and functions in order, a public function's signature
with its owner, or a name that a crate exports; clauses and bodies aside. What is published stays: a line is taken out only
with a reason in CHANGELOG.md, and a line that is in the sources beside these is no fault.
"""
import pathlib
import re
import sys
from collections.abc import Iterator

CRATES = pathlib.Path("crates")
LIST = pathlib.Path("tools/published.txt")
OPENING = {"{": "}", "(": ")"}


def plain(text: str) -> str:
    """A text with one blank at most between two words, and none beside a sign."""
    text = re.sub(r",\s*([)}\]>])", r"\1", re.sub(r"\s+", " ", text).strip())
    return re.sub(r"\s*([{}(),:<>;=&|+])\s*", r"\1", text)


def until_close(text: str, at: int) -> int:
    """The place after the bracket that closes the one at `at`."""
    opening, depth = text[at], 0
    for place in range(at, len(text)):
        depth += (text[place] == opening) - (text[place] == OPENING[opening])
        if depth == 0:
            return place + 1
    raise ValueError("a bracket that nothing closes")


def signature(text: str, at: int) -> str:
    """The signature of the function whose `fn` is at `at`, without clauses and body."""
    end = until_close(text, text.index("(", at))
    pattern = r"\s*->\s*(.*?)(?=\s*(?:\brequires\b|\bensures\b|\bwhere\b|\bdecreases\b|\{|;))"
    result = re.match(pattern, text[end:end + 800], re.S)
    return plain(text[at:end] + (" -> " + result[1] if result else ""))


def exports(text: str) -> Iterator[str]:
    for used in re.finditer(r"^pub use ([^;]*);", text, re.M):
        for name, other in re.findall(r"(\w+)(?:\s+as\s+(\w+))?\s*(?:[,}]|$)", used[1]):
            yield f"export {other or name}"


def trait_line(text: str, start: int) -> str:
    brace = text.index("{", start)
    body = text[brace:until_close(text, brace)]
    functions = ";".join(signature(body, found.start()) for found in re.finditer(r"\bfn \w+", body))
    return f"{plain(text[start:brace])}{{{functions}}}"


def type_line(text: str, start: int) -> str:
    brace, semicolon = text.find("{", start), text.find(";", start)
    ends_first = 0 <= semicolon < (brace if brace >= 0 else len(text))
    body = plain(text[start:semicolon if ends_first else until_close(text, brace)])
    private = body.startswith("pub struct") and "{" in body and "pub " not in body[body.index("{"):]
    return body[:body.index("{")] + "{private}" if private else body


def types(text: str) -> Iterator[str]:
    for found in re.finditer(r"^\s*(pub (struct|enum|trait) \w+)", text, re.M):
        yield (trait_line if found[2] == "trait" else type_line)(text, found.start(1))


def functions(text: str) -> Iterator[str]:
    heads = [(found.start(), plain(found[1])) for found in re.finditer(r"^(?:unsafe )?impl\b([^{]*)\{", text, re.M)]
    for found in re.finditer(r"^(\s*)pub (fn \w+)", text, re.M):
        owners = [head for at, head in heads if at < found.start()] if found[1].strip("\n") else []
        owner = re.sub(r"^<[^>]*>", "", owners[-1]) + " " if owners else ""
        yield owner + signature(text, found.start(2))


def surface() -> set[str]:
    """The lines of all public names."""
    lines = set()
    for path in sorted(CRATES.glob("*/src/**/*.rt")):
        text = re.sub(r"//[^\n]*", "", path.read_text())
        names = [*types(text), *functions(text), *(exports(text) if path.name == "lib.rt" else ())]
        lines |= {f"{path.parts[1]} | {name}" for name in names}
    return lines


def main() -> int:
    wanted = set(LIST.read_text().splitlines()) if LIST.exists() else set()
    gone = sorted(wanted - surface())
    print("\n".join([*gone, f"published: {len(wanted) - len(gone)} as published, {len(gone)} not"]))
    if "--write" in sys.argv[1:]:
        LIST.write_text("\n".join(sorted(wanted | surface())) + "\n")
    return int(bool(gone))


if __name__ == "__main__":
    sys.exit(main())
