#!/usr/bin/env python3
"""Counts of the code's form, with the places of each: run it at the top of the repository.

    python3 tools/form.py [WORD]

docs/STYLE.md has the rules that are counted. A count may not be above its most, and may not have looked at fewer things than
its floor, so that a count which finds nothing to look at fails too. Where its most is not 0, the code is not there yet, or
docs/DECISIONS.md says why: a change may lower it. The status is 1 if a count fails. WORD is one of the counts, and then its
places are printed too:
relations   definitions of the top call's specs (rtdvs_top, statuses, command_files) that are relations: their type ends
            in `Type 0`, or a record has parameters
positions   citations of an invariant's part by its place (`invariant.0`), and invariants of three or more parts
            that are no records
mutual      pairs of source files of one crate that name each other
idle        matches that only hand an error or nothing on, `let x = f()?; Ok(x)`, and loops that do nothing; in product
            crates also matches that hand the `Ok` on and change the error
limits      numbers of a limit in code, definitions or proofs, outside tests and `limits.rt`
edges       crates that crates.txt names as used by a crate none of whose files uses them
thin        crates that only proofs of a crate use, by fewer than three imports
chain       crates of the longest chain in crates.txt above eight
parameters  functions of more than five parameters
bodies      bodies of functions above 40 lines
loops       functions of product crates with more than one loop
files       source files above 800 lines
clauses     lines that begin a clause and are wider than 120 columns
proofs      lines of specs and proofs wider than 160 columns
bare        definitions without a sentence over them
laws        crates named `_laws` that have code
edits       wrong bodies whose first line doesn't say what refuses them
published   lines of tools/published.txt that the sources no longer have (published.py)
"""
import collections
import pathlib
import re
import sys
from collections.abc import Callable, Iterator
from dataclasses import dataclass

import published as public_names

CRATES = pathlib.Path("crates")
TOP = ("rtdvs_top", "statuses", "command_files")
TESTS = {"test_inputs", "text_tests", "trace_tests", "file_tests", "model_tests", "run_tests", "call_tests",
         "promise_tests", "kernel_tests", "stored_calls", "example_runs"}
# Tasks, lines, speeds, charges, millivolts, jobs, ticks, bytes of a file, hyperperiods.
LIMITS = r"(?<![\w.#])(?:64|800_?00[01]|1_?000_?000|20_?000|100_?000|1099511627776|16777216|281474976710656)(?![\w.])"
# The bytes of a name, where they bound or measure something (32 is also the blank), of a line, and of parts of a line.
BEFORE = ("≤ ", "≡ ", "; ", r"\+ ", r"\) ", r"\) = ", "min ", r"min\(", "take ", "take_min ")
BOUND = "|".join(rf"(?<={before})" for before in BEFORE)
WIDTHS = rf"(?<![\w.#])(?:(?:{BOUND})32(?! \*)|32(?= - )|25[56]|(?:(?<=[+≤<] )|(?<=\) = ))(?:41|53|89|203))(?![\w.])"
LONGEST_CHAIN = 8
MOST_PARAMETERS = 5
LONGEST_BODY = 40
LONGEST_FILE = 800
WIDEST_CLAUSE = 120
WIDEST_PROOF = 160


@dataclass(frozen=True)
class Found:
    """How many things a count has looked at, and the places that it counts."""

    looked: int
    rows: list[str]


@dataclass(frozen=True)
class Function:
    """A function of the sources: its name with its place, how many parameters it has, and its body."""

    where: str
    crate: str
    parameters: int
    body: list[str]


def files(kind: str, ending: str) -> list[pathlib.Path]:
    return sorted(p for p in CRATES.glob(f"*/{kind}/**/*{ending}"))


def place(path: pathlib.Path, text: str, at: int) -> str:
    return f"{path}:{text.count(chr(10), 0, at) + 1}"


def uses() -> dict[str, list[str]]:
    """The crates that crates.txt names, each with those that it uses."""
    lines = (line.partition("#")[0].partition(":") for line in pathlib.Path("crates.txt").read_text().splitlines())
    return {crate.split()[0]: used.split() for crate, _, used in lines if crate.strip()}


def relations() -> Found:
    found, looked = [], 0
    for path in sorted(path for crate in TOP for path in (CRATES / crate / "specs").glob("*.antt")):
        text = path.read_text()
        for m in re.finditer(r"^(abbrev pub|pub record|abbrev|record|pub data|data) (\w+)((?:.|\n(?=[ \t]))*)", text, re.M):
            kind, name, body = m.groups()
            looked += 1
            if "record" in kind or "data" in kind:
                relation = re.search(r"[({]", body.split(" where")[0]) is not None
            else:
                relation = body.split("\n")[0].rstrip().endswith("Type 0")
            if relation:
                found.append(f"{place(path, text, m.start())} {name}")
    return Found(looked, found)


def product_parts(body: str) -> int:
    """The number of parts that `×` joins at the outermost level."""
    depth, parts = 0, 1
    for c in body:
        depth += (c in "([{") - (c in ")]}")
        parts += c == "×" and depth == 0
    return parts


def invariants(path: pathlib.Path, text: str) -> Iterator[tuple[int, str]]:
    """The place and the text of each invariant of a file."""
    if path.name == "Invariants.antt":
        for m in re.finditer(r"^invariant-[\w-]+ [^=\n]*=((?:.|\n(?=[ \t]))*)", text, re.M):
            yield m.start(), m.group(1).split(" in\n")[-1]
    if path.suffix == ".rt":
        for m in re.finditer(r"ghost invariant = \{((?:[^{}]|\{[^{}]*\})*)\}", text):
            yield m.start(), m.group(1)


def positions() -> Found:
    found, looked = [], 0
    for path in files("proofs", ".antt") + files("src", ".rt") + files("specs", ".antt"):
        text = path.read_text()
        for m in re.finditer(r"\b(?:inv|invariant)\.\d+", text):
            found.append(f"{place(path, text, m.start())} {m.group()}")
        for at, body in invariants(path, text):
            looked += 1
            if product_parts(body) >= 3:
                found.append(f"{place(path, text, at)} {product_parts(body)} parts")
    return Found(looked, found)


def named_modules(path: pathlib.Path, modules: dict[str, pathlib.Path]) -> Iterator[str]:
    """The modules of its crate that a source file names."""
    code = "\n".join(line for line in path.read_text().splitlines() if not line.strip().startswith(("//", "ghost")))
    for m in re.finditer(r"\bcrate::([\w:]+)", code):
        words = m.group(1).rstrip(":").split("::")
        longest = ("::".join(words[:n]) for n in range(len(words), 0, -1))
        yield from [next((name for name in longest if name in modules), "")]


def mutual() -> Found:
    found, looked = [], 0
    for crate in sorted(CRATES.iterdir()):
        src = crate / "src"
        modules = {"::".join(path.relative_to(src).with_suffix("").parts): path for path in src.glob("**/*.rt")}
        names = {module: set(named_modules(path, modules)) for module, path in modules.items()}
        looked += sum(map(len, names.values()))
        found += [f"{crate.name}: {a}.rt ~ {b}.rt" for a in sorted(names) for b in sorted(names[a])
                  if a < b and a in names.get(b, ())]
    return Found(looked, found)


def idle() -> Found:
    found, looked = [], 0
    for path in files("src", ".rt"):
        text = path.read_text()
        looked += text.count("match ")
        patterns = [r"Err\((\w+)\) => (?:return )?Err\(\1\)", r"let (\w+) = [^;]*\?;\n\s*Ok\(\1\)\n",
                    r"\b(?:for|while) [^;{}]*\{\s*(?:let _\w* = [^;{}]*;\s*)*\}"]
        if path.parts[1] not in TESTS:
            patterns.append(r"Ok\((\w+)\) => (?:return )?Ok\(\1\)")
        for m in (m for pattern in patterns for m in re.finditer(pattern, text)):
            # An arm after one that takes an error apart hands on the others.
            if m.group().startswith("Err") and re.search(r"\bErr\(\w+::", text[text.rfind("match ", 0, m.start()):m.start()]):
                continue
            found.append(f"{place(path, text, m.start())} {' '.join(m.group().split())}")
    return Found(looked, found)


def limits() -> Found:
    found, looked = [], 0
    for path in files("src", ".rt") + files("specs", ".antt") + files("proofs", ".antt"):
        if path.parts[1] in TESTS or path.name in ("limits.rt", "Examples.antt", "Traces.antt"):
            continue
        for n, line in enumerate(path.read_text().splitlines(), 1):
            looked += 1
            code = line.split("//")[0].split("--")[0]
            code = re.sub(r'"(?:[^"\\]|\\.)*"', '""', code)
            code = re.sub(r"\b(?:2|10) \^ \d+|<< 64", "", code)
            if "digits" in code or "decimal" in code or "spelled" in code:  # 64 digits, the width of a text
                continue
            for m in re.finditer(f"{LIMITS}|{WIDTHS}", code):
                found.append(f"{path}:{n} {m.group()}")
    return Found(looked, found)


def code_of(crate: str, *kinds: str) -> str:
    """The text of these folders of a crate."""
    paths = [path for kind in kinds for path in (CRATES / crate / kind).glob("**/*")]
    return "\n".join(path.read_text() for path in paths if path.suffix in (".rt", ".antt"))


def edges() -> Found:
    found = []
    for crate, used in uses().items():
        text = code_of(crate, "src", "specs", "proofs")
        found += [f"{crate}: {other}" for other in used
                  if not re.search(rf"\bRattle\.{other}\b|\b{other}::|\buse {other};", text)]
    return Found(sum(map(len, uses().values())), found)


def thin() -> Found:
    found = []
    for crate, used in uses().items():
        code, proofs = code_of(crate, "src", "specs"), code_of(crate, "proofs")
        for other in used:
            times = len(re.findall(rf"^use Rattle\.{other}\b", proofs, re.M))
            if times in (1, 2) and not re.search(rf"\bRattle\.{other}\b|\b{other}::|\buse {other};", code):
                found.append(f"{crate}: {other}, {times} imports")
    return Found(sum(map(len, uses().values())), found)


def chain() -> Found:
    below, longest = uses(), {}

    def chain_of(name: str) -> list[str]:
        if name not in longest:
            longest[name] = [name] + max((chain_of(low) for low in below[name] if low in below), key=len, default=[])
        return longest[name]

    names = max(map(chain_of, below), key=len)
    return Found(len(names), [" ".join(reversed(names))] * (len(names) - LONGEST_CHAIN))


def parameters_of(signature: str) -> int:
    """How many parameters the signature of a function has."""
    level, count, current = 0, 0, ""
    for char in signature[signature.index("(", signature.index("fn ")) + 1:]:
        if char in ")]}>" and level == 0:
            break
        level += (char in "(<[{") - (char in ")>]}")
        if char == "," and level == 0:
            count, current = count + bool(current.strip()), ""
        else:
            current += char
    return count + bool(current.strip())


def functions() -> Iterator[Function]:
    """The functions of the sources that have a body of its own lines."""
    head = re.compile(r'^(\s*)(?:pub(?:\(crate\))? )?(?:const )?(?:unsafe )?(?:extern "C" )?fn (\w+)')
    for path in files("src", ".rt"):
        lines = path.read_text().splitlines()
        for at, line in enumerate(lines):
            begins = head.match(line)
            if not begins:
                continue
            pad, name = begins.groups()
            opens = next((n for n in range(at, len(lines)) if lines[n] == pad + "{" or n > at and head.match(lines[n])
                          or re.match(rf"^{pad}(?!\s).*(?:\{{|\}}|;)$", lines[n])), len(lines) - 1)
            ends = next((n for n in range(opens, len(lines)) if lines[n] == pad + "}"), opens)
            signature = "\n".join(lines[at:opens + 1]).replace("->", "")
            body = lines[opens + 1:ends] if lines[opens].endswith("{") else []
            yield Function(f"{path}:{at + 1} {name}", path.parts[1], parameters_of(signature), body)


def parameters() -> Found:
    every = list(functions())
    return Found(len(every), [f"{f.where}: {f.parameters}" for f in every if f.parameters > MOST_PARAMETERS])


def bodies() -> Found:
    every = [f for f in functions() if f.body]
    return Found(len(every), [f"{f.where}: {len(f.body)} lines" for f in every if len(f.body) > LONGEST_BODY])


def loops() -> Found:
    every = {f.where: sum(re.match(r"\s*(?:'\w+: )?(?:for|while|loop)\b", line) is not None for line in f.body)
             for f in functions() if f.crate not in TESTS}
    return Found(sum(every.values()), [f"{where}: {count}" for where, count in every.items() if count > 1])


def wide(paths: list[pathlib.Path], most: int, counts: Callable[[str], bool]) -> Found:
    """The lines that are wider than `most`, of those that count."""
    lines = [(f"{path}:{n}", line) for path in paths for n, line in enumerate(path.read_text().splitlines(), 1) if counts(line)]
    return Found(len(lines), [f"{where} {len(line)}" for where, line in lines if len(line) > most])


def source_files() -> Found:
    lengths = {path: len(path.read_text().splitlines()) for path in files("src", ".rt")}
    return Found(len(lengths), [f"{path}: {length}" for path, length in lengths.items() if length > LONGEST_FILE])


def clauses() -> Found:
    return wide(files("src", ".rt"), WIDEST_CLAUSE, lambda line: line.strip().startswith(("ensures", "requires")))


def proofs() -> Found:
    return wide(files("specs", ".antt") + files("proofs", ".antt"), WIDEST_PROOF,
                lambda line: not line.startswith(("use ", "pub use ", "--")))


def bare() -> Found:
    found, looked = [], 0
    for path in files("specs", ".antt"):
        lines = path.read_text().splitlines()
        for n, line in enumerate(lines):
            begins = re.match(r"(?:abbrev pub|unfoldable pub|pub abbrev|pub) (?:record )?(?!use\b|mod\b|fixity\b)([\w'◌-]+)", line)
            if not begins:
                continue
            looked += 1
            above = next((over for over in reversed(lines[:n]) if not over.strip() or over.startswith("--")), "")
            if not above.startswith("--"):
                found.append(f"{path}:{n + 1} {begins.group(1)}")
    return Found(looked, found)


def laws() -> Found:
    names = [crate for crate in uses() if crate.endswith("_laws")]
    return Found(len(names), [crate for crate in names if re.search(r"^\s*(?:pub )?fn ", code_of(crate, "src"), re.M)])


def edits() -> Found:
    paths = sorted(CRATES.glob("*/must-fail/*.edit"))
    return Found(len(paths), [str(path) for path in paths if not path.read_text().startswith("# why: ")])


def published() -> Found:
    wanted = pathlib.Path("tools/published.txt").read_text().splitlines()
    return Found(len(wanted), sorted(set(wanted) - public_names.surface()))


@dataclass(frozen=True)
class Count:
    """A count with its most, and with the fewest things that it has to look at."""

    of: Callable[[], Found]
    most: int
    floor: int


COUNTS = {
    "relations": Count(relations, 100, 230), "positions": Count(positions, 0, 100), "mutual": Count(mutual, 0, 220),
    "idle": Count(idle, 1, 190), "limits": Count(limits, 0, 53000), "edges": Count(edges, 0, 320),
    "thin": Count(thin, 14, 320), "chain": Count(chain, 0, LONGEST_CHAIN), "parameters": Count(parameters, 4, 1160),
    "bodies": Count(bodies, 0, 1130), "loops": Count(loops, 0, 80), "files": Count(source_files, 0, 250),
    "clauses": Count(clauses, 0, 1650), "proofs": Count(proofs, 0, 32000), "bare": Count(bare, 0, 1200),
    "laws": Count(laws, 0, 7), "edits": Count(edits, 0, 150), "published": Count(published, 0, 317),
}


def main() -> int:
    asked, failed = sys.argv[1] if len(sys.argv) > 1 else None, False
    for name, count in COUNTS.items():
        found = count.of()
        few = found.looked < count.floor
        failed |= few or len(found.rows) > count.most
        print(f"{name}: {len(found.rows)}, at most {count.most}{f'; of {found.looked}, at least {count.floor}' if few else ''}")
        for row in found.rows if asked == name else ():
            print("   " + row)
    return int(failed)


if __name__ == "__main__":
    sys.exit(main())
