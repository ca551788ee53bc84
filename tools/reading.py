#!/usr/bin/env python3
"""Which definitions the promises rest on: what docs/READING.md lists. Run it at the top of the repository.

    python3 tools/reading.py                        prints READING.md from its table on
    python3 tools/reading.py --write                puts that into READING.md
    python3 tools/reading.py --check                ends with 1 if READING.md has something else, or PROVED.md names a
                                                    clause or a field that the code doesn't have, or lacks one
    python3 tools/reading.py --unreached [CRATE..]  prints the definitions that no clause of a public call reaches

The promises are the clauses of the top call `rtdvs`, that of its exit status, and those of `rtdvs_call`. What a
definition needs is in definitions.py. Besides, a constant of the code needs its value and the constants of that value,
and a type of the code the types of its fields. A name of the kit leads no further than its file there.

In the lists a file comes after those that it needs. The order is otherwise that of the sections below, of crates.txt,
and of specs/Lib.antt. A file is described by the comment that begins it, up to the first colon, semicolon, parenthesis
or `, where`.

For --unreached the ghost members of a public trait count as clauses, and so does what an `impl Model` shows. A remark
says that private clauses, or the ghost members of an `impl`, reach the definition; without one only proofs use it.
"""
import ast
import collections
import dataclasses
import operator
import pathlib
import re
import sys
from collections.abc import Iterator

from definitions import CRATES, Clause, Definition, Fault, Reached, Tree, Uses, clauses_of, definitions_of, reach

PAGE = pathlib.Path("docs/READING.md")
PROVED = pathlib.Path("docs/PROVED.md")
FROM = "| Clause |"
UNREACHED = ("rtdvs_top", "governor", "event_kernel")
TESTS = ("_tests/", "test_inputs/", "stored_calls/", "example_runs/")

# The sections of each part, in order, each with its crates and single files.
SECTIONS = {
    "headline": (
        ("Numbers, text and the outside", "grid_fraction dvs_base"),
        ("The command line", "dvs_base/Pairs dvs_base/PlanWords words"),
        ("Tasks, machines, demands", "freq_table task_model demand_list csv_text"),
        ("The model", "sched_model"),
        ("The text of a run", "trace_text trace_reader sched_model/RunNotes note_laws trace_writer trace_laws"),
        ("Tests and static speeds", "rm_admit governor static_gov rm_response_laws rm_response"),
        ("Probes", "probes"),
        ("The promise", "event_kernel statuses command_files rtdvs_top"),
    ),
    "others": (
        ("Writing and probes", "dvs_base sched_model energy probes trace_writer event_kernel"),
        ("Replay and migration", "trace_reader replay_laws replay rtdvs_top/Trace"),
        ("Deadlines below the periods", "edf_demand_laws deadline_list edf_demand rtdvs_top/Constrain"),
        ("A polling server", "request_list poll_server rtdvs_top/Poll"),
        ("The least energy", "energy_bound rtdvs_top/Least"),
        ("Generated workloads", "workload rtdvs_top/Generated"),
        ("The lines of faults", "dvs_base/FaultLines task_model/FaultLines freq_table/FaultLines csv_text/FaultLines "
                                "words/FaultLines trace_reader/FaultLines demand_list/FaultLines "
                                "request_list/FaultLines deadline_list/FaultLines"),
        ("Every answer and every refusal", "words statuses command_files rtdvs_top"),
    ),
    "shown": (("", "dvs_base probes"),),
    "library": (("", "probes rtdvs_c"),),
}
# The facts of the headline: each with what it says.
FACTS = (
    ("sched_model/Ticks:IsMet", "each job that is due has had its demand by its deadline"),
    ("sched_model/Admission:PassesTest", "the scheduler's test passes"),
    ("sched_model/Schedule:HasSchedule", "there is a schedule of each length"),
    ("sched_model/Schedule:HasNoOther", "there is no other"),
    ("sched_model/Schedule:IsTheSchedule", "these ticks are that schedule"),
    ("sched_model/Schedule:AlwaysMeets", "some entry meets each published demand"),
    ("static_gov/StaticSpeed:IsLowestEnough", "no entry below is enough"),
    ("trace_laws/DoneLines:TellsDeadlines", "the text has each job's completion, in time"),
    ("rtdvs_top/Promises:IsDeniedBy", "the test fails, by the two numbers"),
)
# The headline is a field of what is promised: it needs that field, and what the clause says of words, files and
# outsides.
HEADLINE = ("rtdvs_top/Promises:IsDoneOrDenied", "rtdvs_top/Asked:asked_of", "rtdvs_top/Asked:command_asked",
            "rtdvs_top/Promised:outside_of", "command_files/GivenFiles:MayHold", "dvs_base/Outside:Rose")
# The calls whose clauses are promises: a file, a call in it, and the label of a clause that it must have.
TOP = ("crates/rtdvs_top/src/top.rt", "rtdvs", "promised")
CODE = ("crates/statuses/src/status.rt", "code", "")
LIBRARY = ("crates/rtdvs_c/src/lib.rt", "rtdvs_call", "proves")
# What is outside of the program and of its clauses, and the ghost member that says what is seen of it.
SEEN = {"Shelf": "shows", "Sink": "shows", "Probe": "seen"}


# -- constants and types of the code

@dataclasses.dataclass(frozen=True)
class Constant:
    """A constant of the code: its file, its value as written, and its place in the file."""

    path: pathlib.Path
    value: str
    at: int = 0


def source_of(module: str) -> tuple[pathlib.Path, str]:
    """The file of code that a module of declared things is of, and the last part of its name."""
    crate, _, inside = module.partition("/declared.")
    *folders, last = inside.removesuffix(".TheVariants").split(".")
    path = CRATES / crate / "src" / "/".join(folders or ["lib"])
    return path.with_suffix(".rt"), last


CONSTANT = re.compile(r"^(?:pub(?:\([a-z]+\))? )?const (\w+): [^=]* = ([^;]*);", re.M)
OPERATORS = {ast.Add: operator.add, ast.Sub: operator.sub, ast.Mult: operator.mul, ast.LShift: operator.lshift}


def constants_in(crate: str) -> dict[str, Constant]:
    """The constants of a crate, by their names."""
    found: dict[str, Constant] = {}
    for path in sorted((CRATES / crate / "src").glob("**/*.rt")):
        for match in CONSTANT.finditer(path.read_text()):
            found[match[1]] = Constant(path, match[2], match.start())
    return found


def number(value: str, others: dict[str, Constant]) -> int:
    """The number that a constant's value is, by the other constants.

    >>> number("4 * (MOST + 1)", {"MOST": Constant(pathlib.Path(), "1 << 6")})
    260
    """
    def of(node: ast.expr) -> int:
        match node:
            case ast.Constant(value=int(found)):
                return found
            case ast.Name(id=name) if name in others:
                return number(others[name].value, others)
            case ast.BinOp(left=left, op=op, right=right) if type(op) in OPERATORS:
                return int(OPERATORS[type(op)](of(left), of(right)))
        raise Fault(f"no number: {value}")

    return of(ast.parse(value, mode="eval").body)


TYPE = re.compile(r"^pub(?:\([a-z]+\))? (?:struct|enum) (\w+)([^;{]*(?:\{.*?^\}|;))", re.M | re.S)


class Types:
    """The structs and enums of the code, and the types that their fields are of."""

    def __init__(self, crates: list[str]) -> None:
        self.body: dict[tuple[str, str], tuple[pathlib.Path, str]] = {}
        self.crates = crates
        for crate in crates:
            for path in sorted((CRATES / crate / "src").glob("**/*.rt")):
                for name, body in TYPE.findall(path.read_text()):
                    self.body[crate, name] = (path, body)

    def reach(self, starts: set[tuple[str, str]]) -> dict[str, list[str]]:
        """The names of these types and of those that their fields need, by their files."""
        seen: set[tuple[str, str]] = set()
        stack = sorted(starts)
        while stack:
            at = stack.pop()
            if at not in seen and at in self.body:
                seen.add(at)
                stack += self._named_in(at)
        found: dict[str, list[str]] = collections.defaultdict(list)
        for at in sorted(seen):
            found[within(self.body[at][0])].append(at[1])
        return dict(sorted(found.items(), key=lambda it: (self.crates.index(it[0].split("/")[0]), it[0])))

    def _named_in(self, at: tuple[str, str]) -> list[tuple[str, str]]:
        path, body = self.body[at]
        text = path.read_text()
        body = re.sub(r"//.*|ghost .*|^ +[A-Z]\w*", "", body, flags=re.M)
        found = []
        for name in set(re.findall(r"\b[A-Z]\w+", body)):
            brought = re.search(rf"^use (\w+)::[^;]*\b{name}\b", text, re.M)
            found.append((brought[1] if brought and brought[1] != "crate" else at[0], name))
        return sorted(found)


# -- the page

def within(path: pathlib.Path) -> str:
    """A path within crates/."""
    return str(path.relative_to(CRATES))


def description(path: pathlib.Path) -> str:
    """What a file is, by the comment that begins it."""
    lines = []
    for line in path.read_text().split("\n"):
        if not line.startswith("--"):
            break
        lines.append(line[2:].strip())
    text = " ".join(lines)
    if not text.endswith("."):
        raise Fault(f"{path}: no sentence at its head")
    text = re.sub(r"([:;]| [(]|, where ).*", "", re.sub(r"[.]( .*)?$", "", text))
    return text if re.match("[A-Z][A-Z]", text) else text[:1].lower() + text[1:]


class Lister:
    """Lists the files of one part after another, each file once, after those that it needs."""

    def __init__(self, uses: Uses) -> None:
        self.uses = uses
        self.tree = uses.tree
        self.placed: set[str] = set()
        self.part = ""
        self.reached: set[str] = set()
        self._settled: set[tuple[str, str]] = set()
        self._lines: list[str] = []
        self._begun: list[str] = []

    def lines(self, part: str, reached: Reached) -> list[str]:
        """The files of a part by its sections."""
        self.part, self.reached, self._lines, self._begun = part, reached.keys, [], []
        for at in [*range(len(SECTIONS[part])), None]:
            for file in self.tree.path_of:
                if file not in self.placed and self._has(file) and at in (self._section(file), None):
                    self._place(file)
        return self._lines

    def _has(self, file: str) -> bool:
        return any(each.key in self.reached for each in self.tree.holds[file])

    def _section(self, file: str) -> int | None:
        for name in (file, file.partition("/")[0]):
            for at, (_, members) in reversed(list(enumerate(SECTIONS[self.part]))):
                if name in members.split():
                    return at
        return None

    def _place(self, file: str) -> None:
        """Puts a file on the list, after those that its definitions need."""
        self.placed.add(file)
        for each in self.tree.holds[file]:
            if each.key in self.reached:
                self._settle(each)
        self._print(file)

    def _settle(self, definition: Definition) -> None:
        if (self.part, definition.key) in self._settled:
            return
        self._settled.add((self.part, definition.key))
        for key in self.uses.of(definition):
            used = self.tree.owner.get(key)
            if used is not None:
                if used.home not in self.placed:
                    self._place(used.home)
                self._settle(used)

    def _print(self, file: str) -> None:
        at = self._section(file)
        if at is None:
            raise Fault(f"{file}: no section")
        title = SECTIONS[self.part][at][0]
        if title and self._begun[-1:] != [title]:
            if title in self._begun:
                raise Fault(f'{file}: the section "{title}" is not in one piece')
            self._begun.append(title)
            self._lines.append(f"\n### {title}\n")
        path = self.tree.path_of[file]
        self._lines.append(f"- `{within(path)}`: {description(path)}")


def row(tree: Tree, title: str, reached: Reached) -> str:
    """A row of the table: the definitions of a set, their lines, and their files."""
    found = [tree.owner[key] for key in reached.keys]
    return f"| {title} | {len(found)} | {sum(it.lines for it in found)} | {len({it.home for it in found})} |"


def fact_lines(tree: Tree, uses: Uses) -> Iterator[str]:
    """The files of each fact of the headline, without those of the facts before it."""
    seen: set[str] = set()
    for key, says in FACTS:
        reached = reach(uses, definitions_of(tree, (key,)))
        homes = {tree.owner[it].home for it in reached.keys}
        files = ", ".join(f"`{within(tree.path_of[file])}`" for file in tree.path_of if file in homes - seen)
        yield f"- `{key.partition(':')[2]}`, {says}: {files or 'no file more'}"
        seen |= homes


IMPL = re.compile(r"^impl(?:<[^\n]*?>)? (\w+) for ([^\n{]+?)\s*\{(.*?)^\}", re.M | re.S)


def in_one_line(text: str) -> str:
    return re.sub(r"\s+", " ", text).strip()


def members_seen(tree: Tree) -> list[tuple[str, str, Clause]]:
    """What each public shelf, sink and probe of the product shows: its trait, its name, and the ghost member."""
    found = []
    for member in tree.clauses:
        if member.call or member.label not in SEEN.values() or any(part in member.path for part in TESTS):
            continue
        text = pathlib.Path(member.path).read_text()
        private = re.findall(r"^(?:pub\([a-z]+\) )?struct (\w+)", text, re.M)
        for kind, name, body in IMPL.findall(text):
            if SEEN.get(kind) == member.label and in_one_line(member.text) in in_one_line(body):
                if name.partition("<")[0] not in private:
                    found.append((kind, name if name.startswith("Box") else name.partition("<")[0], member))
    return found


def seen_lines(seen: list[tuple[str, str, Clause]]) -> Iterator[str]:
    yield "| What | Type | It shows | File |"
    yield "|---|---|---|---|"
    for kind, name, member in sorted(seen, key=lambda it: (list(SEEN).index(it[0]), it[2].path, it[1])):
        text = in_one_line(member.text).removeprefix("{").removesuffix(";").removesuffix("}").strip()
        yield f"| {kind.lower()} | `{name}` | `{text}` | `{within(pathlib.Path(member.path))}` |"


def constants_of(tree: Tree, reached: Reached) -> dict[tuple[str, str], Constant]:
    """The constants that definitions and clauses name, and those that their values name, by crate and name."""
    found: dict[tuple[str, str], Constant] = {}
    stack = []
    for module, _, name in (key.partition(":") for key in sorted(reached.outside)):
        if module.endswith(".TheConstants"):
            stack.append((module.partition("/")[0], name))
        elif module.endswith(".rt"):
            stack.append((module.split("/")[1], name))
    while stack:
        crate, name = stack.pop()
        constant = constants_in(crate).get(name)
        if constant is None or (crate, name) in found:
            continue
        found[crate, name] = constant
        stack += [(crate, other) for other in re.findall(r"[A-Z_]{3,}", constant.value)]
    return dict(sorted(found.items(), key=lambda it: (tree.crates.index(it[0][0]), str(it[1].path), it[1].at)))


def constant_lines(constants: dict[tuple[str, str], Constant]) -> Iterator[str]:
    yield "| Constant | Value | File |"
    yield "|---|---|---|"
    for (crate, name), constant in constants.items():
        value = constant.value if "[" in constant.value else str(number(constant.value, constants_in(crate)))
        yield f"| `{name}` | {value} | `{within(constant.path)}` |"


def type_lines(tree: Tree, reached: Reached) -> Iterator[str]:
    """The structs and enums that definitions and clauses name, and those of their fields, by file."""
    starts = set()
    for module in (key.partition(":")[0] for key in reached.outside):
        if "/declared." in module and not module.endswith(".TheConstants"):
            starts.add((module.partition("/")[0], source_of(module)[1]))
    for path, names in Types(tree.crates).reach(starts).items():
        yield f"- `{path}`: {', '.join(f'`{name}`' for name in names)}"


def kit_path(crate: str, module: str) -> str:
    """The kit's file of a module: of definitions, or of the code that declares a type."""
    if module.startswith("declared."):
        return f"{crate}/src/{'/'.join(module.split('.')[1:-1])}.rt"
    return f"{crate}/specs/{module.replace('.', '/')}.antt"


def kit_lines(tree: Tree, reached: Reached) -> Iterator[str]:
    """The names of the kit that definitions and clauses use, by its file."""
    found: dict[str, list[str]] = collections.defaultdict(list)
    for key in sorted(reached.outside):
        module, _, name = key.partition(":")
        crate, _, inside = module.partition("/")
        if crate not in tree.crates and not module.startswith("crates/"):
            found[kit_path(crate, inside)].append(name)
    for path in sorted(found):
        yield f"- {path}: {', '.join(f'`{name}`' for name in found[path])}"


def page_lines(tree: Tree, uses: Uses) -> Iterator[str]:
    """The page from its table on."""
    met = reach(uses, definitions_of(tree, (FACTS[0][0],)))
    headline = reach(uses, definitions_of(tree, HEADLINE))
    others = reach(uses, clauses_of(tree, TOP) + clauses_of(tree, CODE))
    library = reach(uses, clauses_of(tree, LIBRARY))
    seen = members_seen(tree)
    shown = reach(uses, [member for _, _, member in seen])
    everything = headline | others | library | shown
    yield "| Clause | Definitions | Their lines | Files |"
    yield "|---|---|---|---|"
    yield row(tree, "`IsMet`: every deadline is met", met)
    yield row(tree, "`headline`, of `run` and `response`", headline)
    yield row(tree, "all clauses, and that of the exit status", others)
    yield row(tree, "`rtdvs_call`, the library for C", library)
    yield row(tree, "all of these, and what shelves, sinks and probes show", everything)
    yield from ("\n## What a fact of the headline needs\n", "Each fact also needs the files of those before it.\n")
    yield from fact_lines(tree, uses)
    lister = Lister(uses)
    yield "\n## What the headline needs"
    yield from lister.lines("headline", headline)
    yield "\n## The other clauses"
    yield from lister.lines("others", others)
    yield "\n## What shelves, sinks and probes show\n"
    yield "The clauses speak of what is seen of these. Private types are left out, since no clause of a public call " \
          "names them.\n"
    yield from seen_lines(seen)
    yield from ("\nDefinitions that only these need:\n", *lister.lines("shown", shown))
    yield "\n## The library for C\n"
    yield "The clauses of `rtdvs_call` are in `rtdvs_c/src/lib.rt`. Beside the files above they need:\n"
    yield from lister.lines("library", library)
    yield from outside_lines(tree, everything)


def outside_lines(tree: Tree, everything: Reached) -> Iterator[str]:
    """The parts on what definitions rest on: constants, types and the kit."""
    yield "\n## Constants of the code\n"
    yield from constant_lines(constants_of(tree, everything))
    yield "\n## Types of the code\n"
    yield "Structs and enums that definitions and clauses name, and those of their fields.\n"
    yield from type_lines(tree, everything)
    yield "\n## Definitions of the kit\n"
    yield "Each path is within the kit's folder `rattle`. What std doesn't define itself it passes on: a file that " \
          "std doesn't have is in core, and its `Prelude` names the file of each name.\n"
    yield from kit_lines(tree, everything)


# -- the names on PROVED.md

def rows_of(text: str, start: str, end: str) -> list[list[list[str]]]:
    """The rows of the tables between two texts of a page: of each cell what is in backticks."""
    part = text.partition(start)[2].partition(end)[0]
    return [[re.findall("`([^`]*)`", cell) for cell in line.split("|")[1:-1]]
            for line in re.findall(r"^\| .*\|$", part, re.M)]


def labels_of(tree: Tree, wanted: tuple[str, str, str]) -> set[str]:
    """The labels of the clauses of a call that is promised."""
    return {it.label for it in tree.clauses if (it.path, it.call) == wanted[:2]}


def promised_names(tree: Tree) -> set[str]:
    """The names of all that is promised: of clauses, and with a point before them of the fields of `Promised`."""
    record = tree.owner["rtdvs_top/Promised:Promised"]
    fields = re.findall(r"\bpub (\w+) :", " ".join(record.pieces))
    return {f".{field}" for field in fields if field != record.key} | labels_of(tree, TOP) - {TOP[2]}


def name_faults(tree: Tree, page: str) -> tuple[list[str], int]:
    """Which names PROVED.md has and the code hasn't, or the other way; and how many the page has."""
    status = [name for row in rows_of(page, "### Status and output", "### What an answer means") for name in row[0]]
    means = [f".{name}" for row in rows_of(page, "### What an answer means", "## Crate by crate") for name in row[0]
             if name.isidentifier() and row[2:]]
    library = [name for row in rows_of(page, "The [library for C]", "## C functions") for name in row[0]]
    calls = [(call.rpartition("::")[2], clause) for row in rows_of(page, "## Crate by crate", "The [library for C]")
             for call in row[0] for clause in row[1]]
    other = (promised_names(tree) ^ {*status, *means}) | (labels_of(tree, LIBRARY) ^ set(library))
    faults = [f"{PROVED}: {name} is in the code or on the page, not in both" for name in sorted(other)]
    faults += [f"{PROVED}: {call} has no clause {clause}" for call, clause in calls
               if not any((it.call, it.label) == (call, clause) for it in tree.clauses)]
    return faults, len(status) + len(means) + len(library) + len(calls)


# -- the modes

def unreached_lines(tree: Tree, uses: Uses, asked: tuple[str, ...]) -> Iterator[str]:
    """The definitions of these crates that no clause of a public call reaches."""
    levels = {level: reach(uses, [it for it in tree.clauses if it.level == level]).keys
              for level in ("public", "private", "impl")}
    for file, path in tree.path_of.items():
        for each in tree.holds[file] if file.partition("/")[0] in asked else ():
            if each.key in levels["public"]:
                continue
            remark = " (a ghost member of an impl reaches it)" if each.key in levels["impl"] else \
                " (private clauses reach it)" if each.key in levels["private"] else ""
            yield f"{path}:{each.line}: {each.key.partition(':')[2]}{remark}"


def check(tree: Tree, text: str, old: str) -> int:
    """Says whether the page has this text, and whether the names of PROVED.md are those of the code."""
    faults, names = name_faults(tree, PROVED.read_text())
    if old != text:
        faults.append(f"{PAGE}: its table and lists differ from what python3 tools/reading.py prints")
    print("\n".join(faults) if faults else f"reading: {len(text.splitlines()) + names} lines and names, 0 differ")
    return 1 if faults else 0


def main(words: list[str]) -> int:
    sys.setrecursionlimit(10_000)
    mode = words[0] if words else "--list"
    if mode not in ("--list", "--write", "--check", "--unreached"):
        print(f"no mode: {mode}")
        return 2
    try:
        tree = Tree()
        uses = Uses(tree)
        if mode == "--unreached":
            print("\n".join(unreached_lines(tree, uses, tuple(words[1:]) or UNREACHED)))
            return 0
        text = "\n".join(page_lines(tree, uses)) + "\n"
    except Fault as fault:
        print(f"reading.py: {fault}", file=sys.stderr)
        return 2
    head, mark, old = PAGE.read_text().partition(FROM)
    if mode == "--list":
        print(text, end="")
    elif mode == "--write":
        PAGE.write_text(head + text)
    else:
        return check(tree, text, mark + old)
    return 0


if __name__ == "__main__":
    sys.exit(main(sys.argv[1:]))
