"""Reads OpenSCAD's evaluated form, which `openscad --render -o part.csg part.scad` writes: nodes with arguments and children.

There all is evaluated: numbers are decimals with six digits, and what is left of the language are nodes like
`multmatrix([[1, 0, 0, 5], ..]) { cube(size = [2, 2, 2], center = false); }`. Its texts are written as they are, without an
escape, so that a `"` ends one only where what follows goes on as a list of arguments does.
"""

from __future__ import annotations

import math
import re
from bisect import bisect_right
from dataclasses import dataclass, field, replace
from typing import Iterator, Sequence, Union

from .arguments import CURVE, LEAVES, READ, is_taken

#: A number, a truth, a text, `undef` as None, or a list of these.
Value = Union[float, bool, str, None, "list[Value]"]

_TOKEN = re.compile(
    r"(?P<name>\$?[A-Za-z_]\w*)"
    r"|(?P<number>[-+]?(?:(?:\d+\.?\d*|\.\d+)(?:[eE][-+]?\d+)?|inf|nan)\b)"
    r'|"(?P<text>.*?)"(?=\s*(?:,\s*\$?[A-Za-z_]\w*\s*=|\)))'
    r"|(?P<symbol>[()\[\]{},;=#!%*])",
    re.DOTALL,
)
_BLANK = re.compile(r"(?:\s|//[^\n]*|/\*.*?\*/)*", re.DOTALL)
_WORDS: dict[str, Value] = {"true": True, "false": False, "undef": None, "nan": math.nan, "inf": math.inf}
#: Nodes inside one another, and nodes in all: more than these have no reader here.
DEEPEST, MOST_NODES = 400, 100_000
#: Numbers greater than this in size are no lengths, angles or factors of a part that can be built.
GREATEST = 1e12


class CsgFault(Exception):
    """What can't be converted: its line and column, from 1, the name of its kind, what is wrong there, and the node's number.
    """

    def __init__(self, line: int, column: int, word: str, said: str, ordinal: int = 0) -> None:
        super().__init__(f"{line}:{column}: {word}: {said}")
        self.line, self.column, self.word, self.said, self.ordinal = line, column, word, said, ordinal

    def __reduce__(self) -> tuple[object, ...]:
        return type(self), (self.line, self.column, self.word, self.said, self.ordinal)


@dataclass(frozen=True)
class Node:
    """A node: its name, its named arguments and the first one without a name, as "", its children and marks, its place, and its
    number in the text, from 1; 0 for one that stands in no text."""

    name: str
    arguments: dict[str, Value]
    marks: str
    line: int
    column: int
    children: list[Node] = field(default_factory=list)
    ordinal: int = 0

    def fault(self, word: str, said: str) -> CsgFault:
        """A fault at this node, which is named."""
        return CsgFault(self.line, self.column, word, f"{self.name}: {said}", self.ordinal)

    def called(self) -> str:
        """What it is called in messages."""
        return f"{self.name} at {self.line}:{self.column}, node {self.ordinal}"

    def with_children(self, name: str, children: list[Node]) -> Node:
        """A node of another name with these children, told at the place of this one."""
        return Node(name, {}, "", self.line, self.column, children, self.ordinal)

    def number(self, name: str, default: float | None = None) -> float:
        """A number that is given. Raises CsgFault where it isn't, or is none or infinite."""
        value = self.arguments.get(name, default)
        if isinstance(value, bool) or not isinstance(value, (int, float)) or not math.isfinite(value):
            raise self.fault("BadArgument", f"{name} is not a finite number")
        return self._within(name, float(value))

    def _within(self, name: str, value: float) -> float:
        if abs(value) > GREATEST:
            raise self.fault(
                "OutOfRange", f"{name or 'its argument'} holds {value:.6g}, and numbers up to {GREATEST:.6g} are read"
            )
        return value

    def numbers(self, name: str, count: int, value: Value = None) -> list[float]:
        """This many numbers in a list, of an argument or of the value that is given. Raises CsgFault."""
        found = self.arguments.get(name) if value is None else value
        if not isinstance(found, list) or len(found) != count:
            raise self.fault("BadArgument", f"{name or 'its argument'} is not a list of {count} numbers")
        for it in found:
            if isinstance(it, bool) or not isinstance(it, (int, float)) or not math.isfinite(it):
                raise self.fault("BadArgument", f"{name or 'its argument'} holds what is not a finite number")
        return [self._within(name, float(it)) for it in found]  # type: ignore[arg-type]

    def indices(self, what: str, named: Value, count: int) -> list[int]:
        """The points, of this many, that a face or a path of it names. Raises CsgFault."""
        found: list[int] = []
        for it in named if isinstance(named, list) and named else [None]:
            if isinstance(it, bool) or not isinstance(it, float) or not 0 <= it < count:
                raise self.fault("BadPoint", f"{what} names a point that is not there")
            found.append(int(it))
        return found

    def is_endless(self, names: Sequence[str]) -> bool:
        """Whether one of these arguments is, or holds, what is infinite or undefined."""
        found: list[Value] = [self.arguments.get(it) for it in names]
        while any(isinstance(it, list) for it in found):
            found = [number for it in found for number in (it if isinstance(it, list) else [it])]
        return any(isinstance(it, float) and not math.isfinite(it) for it in found)

    def truth(self, name: str) -> bool:
        """A truth, false where none is given. Raises CsgFault."""
        value = self.arguments.get(name, False)
        if not isinstance(value, bool):
            raise self.fault("BadArgument", f"{name} is neither true nor false")
        return value

    def is_shown(self) -> bool:
        """Whether it counts: what is marked `%` or `*` doesn't."""
        return "%" not in self.marks and "*" not in self.marks

    def shown(self) -> list[Node]:
        """The children that count."""
        return [it for it in self.children if it.is_shown()]

    def all(self) -> Iterator[Node]:
        """The node and all in it."""
        waiting = [self]
        while waiting:
            node = waiting.pop()
            yield node
            waiting += reversed(node.children)


class _Tokens:
    """The tokens of a text, one after the other."""

    def __init__(self, text: str) -> None:
        self._text = text
        self._lines = [0, *(it.end() for it in re.finditer("\n", text))]
        self._at = self._end = 0
        self.kind: str | None = None
        self.word = ""
        self.next()

    def next(self) -> str:
        """Goes to the next token; gives the one before it."""
        before = self.word
        blank = _BLANK.match(self._text, self._end)
        self._at = blank.end() if blank else self._end
        token = _TOKEN.match(self._text, self._at)
        if token is not None:
            self.kind, self.word, self._end = token.lastgroup, token[token.lastgroup or 0], token.end()
        elif self._at == len(self._text):
            self.kind, self.word = None, ""
        else:
            raise self.fault("this is not a text as OpenSCAD writes it")
        return before

    def take(self, symbol: str) -> None:
        """Goes past a symbol. Raises CsgFault where another token stands."""
        if self.kind != "symbol" or self.word != symbol:
            raise self.fault(f"a {symbol} should stand here")
        self.next()

    def place(self) -> tuple[int, int]:
        """The line and the column of the token, from 1."""
        line = bisect_right(self._lines, self._at)
        return line, self._at - self._lines[line - 1] + 1

    def fault(self, said: str) -> CsgFault:
        return CsgFault(*self.place(), "Expected", said)


def read(text: str) -> list[Node]:
    """The nodes of a text. Raises CsgFault at the first place where it is none as OpenSCAD writes them."""
    tokens = _Tokens(text)
    top: list[Node] = []
    within, count = [top], 0
    while tokens.kind is not None or len(within) > 1:
        if tokens.kind == "symbol" and tokens.word == "}" and len(within) > 1:
            tokens.next()
            within.pop()
            continue
        count += 1
        node = _with_import(_head(tokens, count))
        if count > MOST_NODES:
            raise node.fault("TooManyNodes", f"the design has more than {MOST_NODES} nodes")
        within[-1].append(node)
        if node.name in LEAVES or node.children or (tokens.kind == "symbol" and tokens.word == ";"):
            tokens.take(";")
            continue
        tokens.take("{")
        within.append(node.children)
        if len(within) > DEEPEST:
            raise node.fault("Nested", f"more than {DEEPEST} nodes in one another")
    return _root(top)


def _root(top: list[Node]) -> list[Node]:
    """The nodes that count: where some are marked `!`, the first of them alone."""
    for node in (it for root in top for it in root.all()):
        if "!" in node.marks:
            return [node]
    return top


def _head(tokens: _Tokens, ordinal: int) -> Node:
    """A node up to its arguments' end."""
    marks = ""
    while tokens.kind == "symbol" and tokens.word in "#!%*":
        marks += tokens.next()
    line, column = tokens.place()
    if tokens.kind != "name":
        raise tokens.fault("a node's name should stand here")
    name = tokens.next()
    if name not in READ:
        raise CsgFault(line, column, "UnknownModule", f"{name} is not a node that is known here", ordinal)
    tokens.take("(")
    arguments: dict[str, Value] = {}
    while not (tokens.kind == "symbol" and tokens.word == ")"):
        if arguments:
            tokens.take(",")
        line_of, column_of = tokens.place()
        key, value = _argument(tokens)
        if key in arguments or not is_taken(name, key):
            # (also of a text that holds what looks like the end of it and another argument)
            what = (
                f"{key or 'an argument without a name'} is "
                f"{'given twice' if key in arguments else 'not an argument that is read here'}"
            )
            raise CsgFault(line_of, column_of, "BadArgument", f"{name}: {what}", ordinal)
        arguments[key] = value
    tokens.next()
    return Node(name, arguments, marks, line, column, ordinal=ordinal)


def _with_import(node: Node) -> Node:
    """An extrusion that names a file itself with the import of that file in it; any other node as it is. Raises CsgFault.

    OpenSCAD reads a DXF file for it, with the extrusion's fragments and the first factor of its scale.
    """
    if not node.name.endswith("_extrude"):
        return node
    file, scale = node.arguments.get("file"), node.arguments.get("scale", 1.0)
    of_file = ["file", "layer", "origin", "timestamp", *(["scale"] if node.name == "rotate_extrude" else [])]
    if file is None and any(it in node.arguments for it in of_file):
        raise node.fault("BadArgument", f"it has {', '.join(it for it in of_file if it in node.arguments)} and no file")
    if file is None:
        return node
    if not isinstance(file, str) or not file.lower().endswith(".dxf"):
        raise node.fault("BadArgument", "file names no .dxf file, and is read as one: import(..) inside it reads others")
    given: dict[str, Value] = {it: node.arguments[it] for it in ("layer", "origin", *CURVE) if it in node.arguments}
    given = {"file": file, "scale": scale[0] if isinstance(scale, list) and scale else scale, **given}
    kept = {name: value for name, value in node.arguments.items() if name not in of_file}
    return replace(node, arguments=kept, children=[Node("import", given, "", node.line, node.column, ordinal=node.ordinal)])


def _argument(tokens: _Tokens) -> tuple[str, Value]:
    """The name of an argument, or "", and its value."""
    if tokens.kind == "name" and tokens.word not in _WORDS:
        name = tokens.next()
        tokens.take("=")
        return name, _value(tokens)
    return "", _value(tokens)


def _value(tokens: _Tokens, depth: int = 0) -> Value:
    kind = tokens.kind
    if kind == "number":
        return float(tokens.next())
    if kind == "text":
        return tokens.next()
    if kind == "name" and tokens.word in _WORDS:
        return _WORDS[tokens.next()]
    if kind != "symbol" or tokens.word != "[" or depth > 8:
        raise tokens.fault("a value should stand here")
    tokens.next()
    items: list[Value] = []
    while not (tokens.kind == "symbol" and tokens.word == "]"):
        if items:
            tokens.take(",")
        items.append(_value(tokens, depth + 1))
    tokens.next()
    return items


def printed(nodes: list[Node], file_of: dict[str, str] | None = None) -> str:
    """A text of nodes that OpenSCAD reads. Names of files are looked up in `file_of`, so that they can be made absolute."""
    return "".join(_printed(it, file_of or {}) for it in nodes)


def _printed(node: Node, file_of: dict[str, str]) -> str:
    given = []
    for name, value in node.arguments.items():
        if name == "file" and isinstance(value, str):
            value = file_of.get(value, value)
        if name != "timestamp":
            given.append(f"{name} = {_literal(value)}" if name else _literal(value))
    inner = "".join(_printed(it, file_of) for it in node.shown())
    return f"{node.name}({', '.join(given)})" + (f" {{ {inner} }}\n" if inner else ";\n")


def _literal(value: Value) -> str:
    if value is None:
        return "undef"
    if isinstance(value, bool):
        return str(value).lower()
    if isinstance(value, str):
        escaped = value.replace("\\", "\\\\").replace('"', '\\"').replace("\n", "\\n").replace("\t", "\\t").replace("\r", "\\r")
        return f'"{escaped}"'
    if isinstance(value, list):
        return f"[{', '.join(map(_literal, value))}]"
    return repr(value)
