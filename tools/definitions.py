"""The definitions of the specs and the clauses of the code, and what each of them needs: reading.py prints it.

Names are followed through the imports of the file that uses them. A constructor leads to its type, and `←` to `>>=`.
Bound names and the names of fields lead nowhere. What isn't a definition here, such as a constant of the code or a name
of the kit, is outside.
"""
import collections
import dataclasses
import pathlib
import re
from collections.abc import Iterator

CRATES = pathlib.Path("crates")

FUNCTION = re.compile(r' *(?P<pub>pub(\([a-z]+\))? )?(extern "C" )?fn (?P<name>[^<(]*)')


class Fault(Exception):
    """What the script can't read, or doesn't find."""


@dataclasses.dataclass(frozen=True)
class Definition:
    """A definition of a spec file: its key is FILE:NAME, and FILE is CRATE/NAME."""

    key: str
    kind: str
    line: int
    lines: int
    pieces: tuple[str, ...]

    @property
    def home(self) -> str:
        return self.key.partition(":")[0]


@dataclasses.dataclass(frozen=True)
class Clause:
    """A clause of a call, or a ghost member, with the trait that it is in and those that it names after `dyn`."""

    path: str
    call: str
    label: str
    level: str
    traits: tuple[str, ...]
    text: str


@dataclasses.dataclass
class Names:
    """What the imports of a file bring: modules by their other names, and single names."""

    modules: dict[str, str] = dataclasses.field(default_factory=dict)
    brought: dict[str, str] = dataclasses.field(default_factory=dict)

    def add(self, line: str) -> None:
        """Reads an import. The module of a definition is CRATE/FILE here."""
        line = re.sub(r"^ *(ghost )?use Rattle[.]", "", line)
        line = re.sub(r";? *$", "", line).replace(".specs.", "/", 1)
        if "{" not in line:
            module, _, other = line.partition(" as ")
            self.modules[other or re.split(r"[./]", module)[-1]] = module
            return
        home, _, inside = line.partition(".{")
        for name in re.split(r" *, *", inside.partition("}")[0]):
            first, _, other = name.partition(" as ")
            self.brought[plain(other or first)] = f"{home}:{plain(first)}"


def plain(name: str) -> str:
    """The name of an operator without the marks of its operands."""
    return name.replace("◌", "")


def bare(line: str) -> str:
    """A line of a spec file without its texts and comments."""
    return re.sub(r"(^| )--.*", "", re.sub(r'"[^"]*"', " ", line))


def indent(line: str) -> int:
    return len(line) - len(line.lstrip(" "))


def split_words(text: str) -> list[str]:
    """The words of a text: brackets and marks are words of their own, and so is the empty list."""
    return re.sub(r"(\[\]|[(){},;\[\]])", r" \1 ", text).split()


# -- the spec files

def head_of(line: str) -> tuple[str, str] | None:
    """The kind and the name of the definition that a line begins."""
    parts = line.split()
    marks = 0
    kind = "term"
    while parts[marks] in ("pub", "abbrev", "unfoldable", "record", "data"):
        kind = parts[marks] if parts[marks] in ("record", "data") else kind
        marks += 1
    if marks == 0 and parts[1:2] != [":"]:
        return None
    return kind, plain(parts[marks])


class SpecReader:
    """Reads one spec file, line by line, into its imports and definitions."""

    def __init__(self, file: str) -> None:
        self.file = file
        self.names = Names()
        self.definitions: list[Definition] = []
        self.constructors: dict[str, str] = {}
        self._open: tuple[str, str, int, int] | None = None
        self._pieces: list[str] = []
        self._lines = self._fixities = 0

    def read(self, text: str) -> "SpecReader":
        for number, line in enumerate(text.split("\n"), 1):
            line = bare(line)
            if line.strip():
                self._take(line, number)
        self._close()
        return self

    def _take(self, line: str, number: int) -> None:
        if re.match(" *use ", line):
            self.names.add(line)
        elif re.match(" *module ", line):
            self._close()
        elif re.match(" *infix", line):
            self._fixities += 1
        else:
            head = head_of(line) if self._open is None or indent(line) <= self._open[3] else None
            if head is not None:
                self._begin(head, line, number)
            elif self._open is None:
                raise Fault(f"{self.file}:{number}: no definition")
            else:
                self._continue(line)

    def _begin(self, head: tuple[str, str], line: str, number: int) -> None:
        self._close()
        self._open = (*head, number, indent(line))
        self._pieces = [line]
        self._lines = 1 + self._fixities
        self._fixities = 0

    def _continue(self, line: str) -> None:
        """Takes a line more. Each equation is a piece of its own, after the piece of the type."""
        assert self._open is not None
        kind, name, _, column = self._open
        self._lines += 1
        if kind == "term" and indent(line) == column:
            self._pieces.append("")
        self._pieces[-1] += " " + line
        parts = line.split()
        if parts[0] == "pub":
            parts = parts[1:]
        if kind == "data" and parts[1:2] == [":"]:
            self.constructors[f"{self.file}:{parts[0]}"] = f"{self.file}:{name}"

    def _close(self) -> None:
        if self._open is not None:
            kind, name, line, _ = self._open
            key = f"{self.file}:{name}"
            self.definitions.append(Definition(key, kind, line, self._lines, tuple(self._pieces)))
        self._open = None


# -- the code

class CodeReader:
    """Reads the clauses and the ghost members of one file of code."""

    def __init__(self, path: str) -> None:
        self.path = path
        self.names = Names()
        self.clauses: list[Clause] = []
        self.members: dict[str, list[str]] = collections.defaultdict(list)
        self._trait = self._call = self._level = ""
        self._model = False
        self._dynamic: list[str] = []
        self._depth = 0
        self._text = ""
        self._head = ("", "", "")

    def read(self, text: str) -> "CodeReader":
        for line in text.split("\n"):
            line = re.sub(r" *//.*", "", line)
            if self._depth > 0:
                self._add(line)
            elif re.match(" *ghost use ", line):
                self.names.add(line)
            else:
                self._take(line)
        return self

    def _take(self, line: str) -> None:
        if line.startswith("pub trait "):
            self._trait = re.split(r"[ :<({]+", line)[2]
        if line.startswith("}"):
            self._trait, self._model = "", False
        if re.match("impl.* Model for ", line):
            self._model = True
        if function := FUNCTION.match(line):
            self._call = function["name"]
            self._level = "public" if function["pub"] == "pub " or self._trait else "private"
            self._dynamic = []
        self._dynamic += re.findall(r"dyn ([A-Za-z]+)", line)[:1]
        line = line.lstrip(" ")
        if clause := re.match(r"(?:requires|ensures)(?: ([a-z_]+))? \{", line):
            self._begin(line, clause[1] or "{", self._level)
        elif member := re.match(r"ghost ([A-Za-z_]+)(:| =) \{", line):
            self._begin_member(line, member[1], member[2])

    def _begin_member(self, line: str, label: str, mark: str) -> None:
        """Begins a ghost member of a trait, of an `impl`, or of a struct."""
        if self._trait or (self._model and label != "invariant"):
            level = "public"
        else:
            level = "impl" if mark == " =" and not self._model else "private"
        if self._trait:
            self.members[self._trait].append(label)
        self._call, self._dynamic = "", []
        self._begin(line, label, level)

    def _begin(self, line: str, label: str, level: str) -> None:
        self._head = (self._call, label, level)
        self._text = ""
        self._add(line[line.index("{"):])

    def _add(self, line: str) -> None:
        line = re.sub(r'"[^"]*"', " ", line)
        self._text += " " + line
        self._depth += line.count("{") - line.count("}")
        if self._depth == 0:
            self.clauses.append(Clause(self.path, *self._head, (self._trait, *self._dynamic), self._text))


# -- the tree of both

class Tree:
    """All spec files in their order, all code, and what the names in them lead to."""

    def __init__(self) -> None:
        self.crates = [line.split(":")[0].split()[0] for line in pathlib.Path("crates.txt").read_text().split("\n")
                       if re.match("[a-z]", line)]
        self.path_of: dict[str, pathlib.Path] = {}
        self.holds: dict[str, list[Definition]] = {}
        self.names: dict[str, Names] = {}
        self.owner: dict[str, Definition] = {}
        self.clauses: list[Clause] = []
        self.members: dict[str, list[str]] = collections.defaultdict(list)
        for crate in self.crates:
            self._read_crate(crate)
        for path in sorted(CRATES.glob("*/**/*.rt")):
            if "out" not in path.parts:
                self._read_code(path)

    def _read_crate(self, crate: str) -> None:
        library = CRATES / crate / "specs/Lib.antt"
        for name in re.findall(r"^(?:pub )?mod (.*)$", library.read_text(), re.M) if library.exists() else ():
            file = f"{crate}/{name}"
            self.path_of[file] = library.with_name(f"{name}.antt")
            found = SpecReader(file).read(self.path_of[file].read_text())
            self.names[file], self.holds[file] = found.names, found.definitions
            self.owner.update((each.key, each) for each in found.definitions)
            self.owner.update((name, self.owner[key]) for name, key in found.constructors.items())

    def _read_code(self, path: pathlib.Path) -> None:
        found = CodeReader(str(path)).read(path.read_text())
        self.names[str(path)] = found.names
        self.clauses += found.clauses
        for trait, labels in found.members.items():
            self.members[trait] += labels

    def target(self, file: str, word: str, hidden: set[str]) -> str:
        """The key that a word of a file leads to, of a definition or of something outside of them; or nothing."""
        head, *rest = (">>=" if word == "←" else word).split(".")
        names = self.names[file]
        if not head or head in hidden:
            return ""
        if head in names.modules:
            return f"{names.modules[head]}:{rest[0] if rest else ''}"
        if f"{file}:{head}" in self.owner:
            return f"{file}:{head}"
        return names.brought.get(head, "")


# -- the names in the words of a definition or a clause

def bound_names(words: list[str]) -> set[str]:
    """The names that `λ`, `let`, an arrow of steps or a colon bind."""
    hidden: set[str] = set()
    inside = False
    for i, word in enumerate(words):
        if word == "λ":
            inside = True
        elif word in "({":
            inside = False
        elif inside:
            inside = not word.endswith(".")
            hidden.add(word.removesuffix("."))
        if word == "←" and i > 0:
            hidden.add(words[i - 1])
        if word == "let":
            hidden.update(words[i + 1:i + 2])
        if word == ":":
            hidden.update(names_before(words, i))
    return hidden


def names_before(words: list[str], colon: int) -> list[str]:
    """The names before a colon, where they are bound: `(a b : T)`."""
    at = colon - 1
    while at >= 0 and re.match("[A-Za-z_]", words[at]):
        at -= 1
    return words[at + 1:colon] if at >= 0 and words[at] in "({" else []


class Uses:
    """What each definition and clause needs, by its key: definitions, and what is outside of them."""

    def __init__(self, tree: Tree) -> None:
        self.tree = tree
        self._found: dict[object, list[str]] = {}

    def of(self, user: Definition | Clause) -> list[str]:
        if user not in self._found:
            used = self._of_clause(user) if isinstance(user, Clause) else self._of_definition(user)
            self._found[user] = list(dict.fromkeys(used))
        return self._found[user]

    def _of_definition(self, user: Definition) -> Iterator[str]:
        for i, piece in enumerate(user.pieces):
            words = split_words(piece)
            hidden = self._patterns(user.home, words) if i > 0 else set()
            yield from self._named(user.home, words, hidden, user.key)

    def _of_clause(self, user: Clause) -> Iterator[str]:
        """In a clause the ghost members of its own trait and of a `dyn` one hide the names that they share."""
        hidden = {name for trait in user.traits for name in self.tree.members.get(trait, ())}
        yield from self._named(user.path, split_words(user.text), hidden, "")

    def _patterns(self, file: str, words: list[str]) -> set[str]:
        """The names that the patterns of an equation bind: each that is no constructor."""
        hidden: set[str] = set()
        for word in words:
            if word == "=":
                break
            found = self.tree.target(file, word, hidden)
            definition = self.tree.owner.get(found)
            if definition is None and not (word in self.tree.names[file].brought and word[0].islower()):
                continue
            if definition is None or definition.kind != "data":
                hidden.add(word.partition(".")[0])
        return hidden

    def _named(self, file: str, words: list[str], hidden: set[str], own: str) -> Iterator[str]:
        """The names in the words. A field hides the name that it shares from the next field on."""
        hidden |= bound_names(words)
        field = ""
        at = 0
        while at < len(words):
            if words[at] == "pub":
                hidden |= {field} - {""}
                at += 1
                field = words[at]
            elif not (words[at + 1:at + 2] == ["="] and at > 0 and words[at - 1] in "{;"):
                key = self.tree.target(file, words[at], hidden)
                key = self.tree.owner[key].key if key in self.tree.owner else key
                if key not in ("", own):
                    yield key
                elif not key and words[at].isupper():
                    yield f"{file}:{words[at]}"
            at += 1


@dataclasses.dataclass
class Reached:
    """What a set of definitions and clauses needs, itself among it."""

    keys: set[str] = dataclasses.field(default_factory=set)
    outside: set[str] = dataclasses.field(default_factory=set)

    def __or__(self, other: "Reached") -> "Reached":
        return Reached(self.keys | other.keys, self.outside | other.outside)


def reach(uses: Uses, starts: list[Definition | Clause]) -> Reached:
    """All that these need."""
    found = Reached()
    stack = list(starts)
    while stack:
        user = stack.pop()
        if isinstance(user, Definition):
            if user.key in found.keys:
                continue
            found.keys.add(user.key)
        for key in uses.of(user):
            if key in uses.tree.owner:
                stack.append(uses.tree.owner[key])
            else:
                found.outside.add(key)
    return found


def clauses_of(tree: Tree, wanted: tuple[str, str, str]) -> list[Definition | Clause]:
    """The clauses of a call that is promised, which must have the one of this label."""
    path, call, label = wanted
    found = [it for it in tree.clauses if it.path == path and it.call == call]
    if sum(not label or it.label == label for it in found) != 1:
        raise Fault(f"not one clause {label or 'at all'} of {call} in {path}")
    return list(found)


def definitions_of(tree: Tree, keys: tuple[str, ...]) -> list[Definition | Clause]:
    lacking = [key for key in keys if key not in tree.owner]
    if lacking:
        raise Fault(f"no definition {lacking[0]}")
    return [tree.owner[key] for key in keys]
