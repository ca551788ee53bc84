"""Device trees as text, in the syntax of the device tree compiler, which this reader doesn't need.

The compiler refuses nearly all of a kernel's files as they are: they include others, use macros, and name
nodes of other files. Here files that are included and macros aren't followed: a value that needs one is
refused when it is used.
"""

import ast
import operator
import re
from collections.abc import Callable, Iterator, Sequence
from dataclasses import dataclass, field
from functools import partial
from pathlib import PurePosixPath

from rtdvs.board._tree import Node, tree_fault

_DIRECTIVE = "include|define|undef|if|ifdef|ifndef|elif|else|endif|error|warning|pragma|line"
_COMMENT = re.compile(r"/\*.*?\*/|//[^\n]*", re.DOTALL)
_GROUP = r"\([^()]*+\)"
for _ in range(8):  # parentheses in parentheses
    _GROUP = rf"\((?:[^()]++|{_GROUP})*+\)"
_TOKEN = re.compile(
    rf"""(?P<space>\s+ | /\*.*?\*/ | //[^\n]* | ^[ \t]*\#[ \t]*(?:\d|(?:{_DIRECTIVE})\b)(?:\\\n|[^\n])*)
    | (?P<string>"(?:\\.|[^"\\])*")
    | (?P<open>/\*|")
    | (?P<word>/[\w-]+/ | &\{{[^}}\s]*\}} | &?[\w,.+?\#@-]+ | {_GROUP})
    | (?P<mark>.)""",
    re.VERBOSE | re.DOTALL | re.MULTILINE,
)
_NUMBER = re.compile(r"(0x[0-9a-f]{1,16}|0[0-7]{0,22}|[1-9][0-9]{0,19})(?:u|l|ul|ll|ull)?", re.IGNORECASE)
_ESCAPE = re.compile(rb"\\(x[0-9a-fA-F]{1,2}|[0-7]{1,3}|.)", re.DOTALL)
_LETTERS = {b"a": b"\a", b"b": b"\b", b"t": b"\t", b"n": b"\n", b"v": b"\v", b"f": b"\f", b"r": b"\r"}
_ALL = 2**64 - 1


def _below_64(shift: Callable[[int, int], int]) -> Callable[[int, int], int]:
    return lambda number, by: shift(number, by if by < 64 else -1)  # a negative shift is a ValueError


_TWO: dict[type[ast.operator], Callable[[int, int], int]] = {
    ast.Add: operator.add, ast.Sub: operator.sub, ast.Mult: operator.mul, ast.Div: operator.floordiv,
    ast.Mod: operator.mod, ast.BitAnd: operator.and_, ast.BitOr: operator.or_, ast.BitXor: operator.xor,
    ast.LShift: _below_64(operator.lshift), ast.RShift: _below_64(operator.rshift),
}
_ONE: dict[type[ast.unaryop], Callable[[int], int]] = {ast.USub: operator.neg, ast.Invert: operator.invert}


@dataclass(slots=True)
class _Tree:
    """The nodes by path, and the path of each label."""

    nodes: dict[PurePosixPath, Node]
    labels: dict[str, PurePosixPath] = field(default_factory=dict)

    def path(self, parent: Node, name: str) -> PurePosixPath:
        """The path of a node by its name in another one, or by a reference, which may be to another file."""
        if not name.startswith("&"):
            return parent.path / name
        path = PurePosixPath("/", name[2:-1]) if name.startswith("&{") else self.labels.get(name[1:])
        return path if path in self.nodes else PurePosixPath("/", name)

    def opened(self, parent: Node, words: Sequence[str]) -> Node:
        """The node that begins with these words."""
        name = words[-1] if words else ""
        path = self.path(parent, name)
        node = self.nodes.setdefault(path, Node(path, name.partition("&")[2]))
        for label, mark in zip(words, words[1:]):
            if mark == ":":
                node.name(label)
                self.labels[label] = path
        return node

    def follow(self, node: Node, words: Sequence[str]) -> None:
        """Keeps a property of a node, or deletes what a statement names."""
        if words[0] == "/delete-property/":
            node.properties.pop(words[-1], None)
        elif words[0] == "/delete-node/":
            gone = self.path(node, words[-1])
            self.nodes = {path: kept for path, kept in self.nodes.items() if not path.is_relative_to(gone)}
        else:
            at = words.index("=") if "=" in words[1:] else len(words)
            node.properties[words[at - 1]] = partial(value_of, words[at + 1:])


def nodes_of(text: str) -> list[Node]:
    """The nodes of a source, each before those in it; raises BadValue.

    >>> [node.key for node in nodes_of("/ { cpus { cpu0: cpu@0 { }; }; };")]
    ['', 'cpus', 'cpu0']
    """
    top = Node(PurePosixPath("/"))
    tree, nodes, words = _Tree({top.path: top}), [top], list[str]()
    for token in _tokens(text):
        if token not in ("{", "}", ";"):
            words.append(token)
            continue
        if token == "{":
            nodes.append(tree.opened(nodes[-1], words))
        elif token == "}":
            nodes.pop()
        elif words:
            tree.follow(nodes[-1], words)
        if not nodes:
            raise tree_fault("a bracket } too many")
        words = []
    if len(nodes) > 1:
        raise tree_fault(f"no end of node {nodes[-1].key or '/'}")
    places = {path: place for place, path in enumerate(tree.nodes)}
    return sorted(tree.nodes.values(), key=lambda node: [
        places[path] for path in (*reversed(node.path.parents), node.path) if path in places])


def _tokens(text: str) -> Iterator[str]:
    for match in _TOKEN.finditer(text):
        if match.lastgroup == "open":
            line = text.count("\n", 0, match.start()) + 1
            raise tree_fault(f"line {line}: no end of {'a comment' if match.group() == '/*' else 'a string'}")
        if match.lastgroup != "space":
            yield match.group()


def value_of(words: Sequence[str]) -> bytes:
    """The bytes of a value: of numbers, strings, and bytes in square brackets; raises BadValue.

    >>> value_of(["<", "0x10", "(3 * 2)", ">", ",", '"a"', ",", "[", "1f", "0a", "]"])
    b'\\x00\\x00\\x00\\x10\\x00\\x00\\x00\\x06a\\x00\\x1f\\n'
    """
    value, bits, inside = b"", 32, ""
    for before, word in zip(["", *words], words):
        if word in ("<", "["):
            bits, inside = bits if before.isdecimal() else 32, word
        elif word in (">", "]"):
            inside = ""
        elif inside == "<":
            value += number_of(word, bits).to_bytes(bits // 8)
        elif inside == "[" and re.fullmatch("(?:[0-9a-fA-F]{2})+", word):
            value += bytes.fromhex(word)
        elif word.startswith('"'):
            value += _ESCAPE.sub(_byte, word[1:-1].encode("utf-8")) + b"\0"
        elif before == "/bits/" and word in ("8", "16", "32", "64"):
            bits = int(word)
        elif word not in ("/bits/", ","):
            raise tree_fault(f"not a value: {word}")
    if inside:
        raise tree_fault(f"no end of {inside}")
    return value


def _byte(escape: re.Match[bytes]) -> bytes:
    word = escape[1]
    if word[:1] == b"x" and len(word) > 1:
        return bytes([int(word[1:], 16)])
    return bytes([int(word, 8) & 255]) if word[:1].isdigit() else _LETTERS.get(word, word)


def number_of(word: str, bits: int) -> int:
    """The number of a word, or of a sum, a product and the like in parentheses; raises BadValue.

    >>> number_of("0x10", 32), number_of("(400000 * 2)", 32), number_of("(1 << 31 | 010)", 32)
    (16, 800000, 2147483656)
    """
    number = _calculated(word) if word.startswith("(") else _spelled(word)
    most = (1 << bits) - 1
    if number > most and number | most != _ALL:  # a number below 0 is one near 2^64 here
        raise tree_fault(f"not a number of {bits} bits: {word}")
    return number & most


def _spelled(word: str) -> int:
    match = _NUMBER.fullmatch(word)
    if match is None:
        raise tree_fault(f"not a number: {word}")
    base = 16 if match[1][:2].lower() == "0x" else 8 if match[1].startswith("0") else 10
    return int(match[1], base)


def _calculated(word: str) -> int:
    spelled = re.sub(r"\w+", lambda number: str(_spelled(number[0])), _COMMENT.sub(" ", word))
    try:
        return _result(ast.parse(spelled, mode="eval").body)
    except (ArithmeticError, LookupError, RecursionError, SyntaxError, ValueError):
        raise tree_fault(f"not a number: {word}") from None


def _result(tree: ast.expr) -> int:
    """The value as the compiler has it: all numbers are whole, from 0 on and below 2^64."""
    match tree:
        case ast.Constant(value=int(number)):
            return number
        case ast.UnaryOp(op=sign, operand=operand):
            return _ONE[type(sign)](_result(operand)) & _ALL
        case ast.BinOp(left=left, op=sign, right=right):
            return _TWO[type(sign)](_result(left), _result(right)) & _ALL
    raise ValueError
