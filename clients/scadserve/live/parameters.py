"""The parameters of a source, as OpenSCAD's customizer reads them: assignments above the first `{`, and comments beside them.

    /* [Size] */
    // how wide it is
    width = 20; // [10:5:40]
    kind = "plate"; // [plate, rod:a rod]

A comment behind a value says its range (`[10]`, `[1:10]`, `[1:2:9]`), its choices (`[4, 6, 8]`, `[4:four, 6:six]`), its step or
the most letters of a text (`2`). One on the line above says what it is, and `/* [Name] */` begins a section; what stands in a
section `Hidden` is not a parameter. """

from __future__ import annotations

import re
from dataclasses import asdict, dataclass, field
from typing import Iterator, NamedTuple, Sequence

from ..source.tokens import PIECE

NUMBER, TRUTH, TEXT, LIST = "number", "truth", "text", "list"
_NUMERAL = rb"[+-]?(?:[0-9]+\.?[0-9]*|\.[0-9]+)(?:[eE][+-]?[0-9]+)?"
_LITERALS = {
    NUMBER: re.compile(_NUMERAL),
    TRUTH: re.compile(rb"true|false"),
    TEXT: re.compile(rb'"(?:\\[^\n]|[^"\\\n])*"'),
    LIST: re.compile(rb"\[\s*" + _NUMERAL + rb"(?:\s*,\s*" + _NUMERAL + rb")*\s*,?\s*\]"),
}
_SECTION = re.compile(rb"/\*\s*\[\s*(.*?)\s*\]\s*\*/", re.DOTALL)
_HINT = re.compile(r"//\s*(\[.*\]|[0-9.]+)\s*")
_WHOLE = re.compile(_NUMERAL.decode())
HIDDEN = "hidden"


class Choice(NamedTuple):
    """A value that may be chosen, as the language writes it, and what it is called."""

    value: str
    label: str


@dataclass
class Parameter:
    """A parameter: its value as the source writes it, and where that stands, in units of UTF-16 as a browser counts them."""

    name: str
    kind: str
    value: str
    start: int
    end: int
    section: str = ""
    description: str = ""
    low: str | None = None
    high: str | None = None
    step: str | None = None
    choices: list[Choice] = field(default_factory=list)

    def as_json(self) -> dict[str, object]:
        """What the page is told about it."""
        return {**asdict(self), "choices": [it._asdict() for it in self.choices]}


class _Piece(NamedTuple):
    start: int
    text: bytes
    is_comment: bool


def parameters(data: bytes) -> list[Parameter]:
    """The parameters of a source, in order; of a name with several assignments, the last one with a plain value."""
    pieces = _head(data)
    found: dict[str, Parameter] = {}
    section = ""
    before = b";"
    for at, piece in enumerate(pieces):
        if piece.is_comment:
            named = _SECTION.fullmatch(piece.text)
            section = named[1].decode("utf-8", "replace") if named else section
            continue
        parameter = _parameter(data, pieces, at) if before == b";" and section.lower() != HIDDEN else None
        before = piece.text
        if parameter is not None:
            parameter.section = section
            found[parameter.name] = parameter
    return list(found.values())


def _head(data: bytes) -> list[_Piece]:
    """The pieces above the line with the first `{`."""
    pieces: list[_Piece] = []
    for it in PIECE.finditer(data):
        if it[0] == b"{":
            line = data.rfind(b"\n", 0, it.start()) + 1
            return [piece for piece in pieces if piece.start < line]
        if it.lastgroup != "gap" or not it[0].isspace():
            pieces.append(_Piece(it.start(), it[0], it.lastgroup in ("gap", "open")))
    return pieces


def _parameter(data: bytes, pieces: Sequence[_Piece], at: int) -> Parameter | None:
    """The parameter whose name is a piece that begins a statement; None where that is none."""
    code = [it for it in pieces[at : at + 40] if not it.is_comment]
    if len(code) < 4 or code[1].text != b"=":
        return None
    if not re.fullmatch(rb"\$?[A-Za-z_][A-Za-z0-9_]*", code[0].text):
        return None
    end = next((it for it in code[2:] if it.text == b";"), None)
    if end is None:
        return None
    value = data[code[2].start : end.start].rstrip()
    kind = next((kind for kind, form in _LITERALS.items() if form.fullmatch(value)), None)
    if kind is None:
        return None
    start = code[2].start
    where = (_units(data[:start]), _units(data[: start + len(value)]))
    found = Parameter(code[0].text.decode(), kind, value.decode("utf-8", "replace"), *where)
    found.description = _description(data, pieces, at)
    _hint(found, _behind(data, pieces, end))
    return found


def _units(data: bytes) -> int:
    return len(data.decode("utf-8", "replace").encode("utf-16-le")) // 2


def _description(data: bytes, pieces: Sequence[_Piece], at: int) -> str:
    """The comment that stands on the line above a piece, alone."""
    if at == 0:
        return ""
    above, piece = pieces[at - 1], pieces[at]
    between = data[above.start + len(above.text) : piece.start]
    alone = not data[data.rfind(b"\n", 0, above.start) + 1 : above.start].strip()
    if not above.text.startswith(b"//") or between.count(b"\n") != 1 or not alone:
        return ""
    return above.text[2:].strip().decode("utf-8", "replace")


def _behind(data: bytes, pieces: Sequence[_Piece], end: _Piece) -> str:
    """The comment behind a piece, on its line."""
    line_end = data.find(b"\n", end.start)
    line_end = len(data) if line_end < 0 else line_end
    behind = (it for it in pieces if end.start < it.start < line_end)
    first = next(behind, None)
    return first.text.decode("utf-8", "replace") if first is not None and first.text.startswith(b"//") else ""


def _hint(found: Parameter, comment: str) -> None:
    """Takes the range, the choices or the step that a comment says."""
    said = _HINT.fullmatch(comment)
    if said is None or found.kind == TRUTH:
        return
    if not said[1].startswith("["):
        if found.kind == TEXT:
            found.high = said[1]
        else:
            found.step = said[1]
        return
    items = [it.strip() for it in _split(said[1][1:-1], ",")]
    parts = [it.strip() for it in items[0].split(":")]
    if len(items) == 1 and found.kind in (NUMBER, LIST) and all(_WHOLE.fullmatch(it) for it in parts) and len(parts) <= 3:
        found.low = parts[0] if len(parts) > 1 else "0"
        found.high = parts[-1]
        found.step = parts[1] if len(parts) == 3 else None
    elif found.kind in (NUMBER, TEXT):
        found.choices = [it for it in map(lambda item: _choice(found.kind, item), items) if it is not None]


def _split(text: str, by: str) -> Iterator[str]:
    """The parts of a text, in which what stands between quotes is not divided."""
    part, is_quoted = "", False
    for letter in text:
        is_quoted ^= letter == '"'
        if letter == by and not is_quoted:
            yield part
            part = ""
        else:
            part += letter
    yield part


def _choice(kind: str, item: str) -> Choice | None:
    value, *label = (it.strip() for it in _split(item, ":"))
    plain = value[1:-1] if len(value) > 1 and value[0] == value[-1] == '"' else value
    shown = ":".join(label).strip('"') or plain
    if kind == NUMBER:
        return Choice(value, shown) if _WHOLE.fullmatch(value) else None
    escaped = plain.replace("\\", "\\\\").replace('"', '\\"')
    return Choice(f'"{escaped}"', shown)
