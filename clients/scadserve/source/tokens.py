"""The tokens of a source, as docs/SPECIFICATION.md has them, with what stands between them left out."""

from __future__ import annotations

import re
from bisect import bisect_right
from typing import NamedTuple, Sequence

_GAP = rb"(?P<gap>[ \t\r\n]+|//[^\n]*|/\*.*?\*/)|(?P<open>/\*.*)"
_NAME = rb"(?P<name>\$?[A-Za-z_][A-Za-z0-9_]*)"
_NUMERAL = rb"(?P<numeral>(?:[0-9]+\.?[0-9]*|\.[0-9]+)(?:[eE][+-]?[0-9]+)?)"
_TEXT = rb'(?P<text>"(?:\\[^\n]|[^"\\\n])*"?)'
_SYMBOL = rb"(?P<symbol>[<>=!]=|&&|\|\||[\x80-\xff]+|.)"
#: What a source is made of, from left to right; a comment that is not closed goes to the end.
PIECE = re.compile(b"|".join((_GAP, _NAME, _NUMERAL, _TEXT, _SYMBOL)), re.DOTALL)

RESERVED = frozenset(b"module function if else for intersection_for true false undef use include let each".split())


class Token(NamedTuple):
    """A token: its kind (name, numeral, text or symbol), its bytes, its line and its first byte in that, both from 0."""

    kind: str
    text: bytes
    line: int
    start: int

    def is_name(self) -> bool:
        """Whether it is a name of the grammar, special ones too."""
        return self.kind == "name" and self.text not in RESERVED

    def is_special(self) -> bool:
        """Whether it is a special name."""
        return self.text.startswith(b"$")


def tokens(lines: Sequence[bytes]) -> list[Token]:
    """The tokens of these lines."""
    starts = [0]
    for line in lines:
        starts.append(starts[-1] + len(line) + 1)
    found = []
    for piece in PIECE.finditer(b"\n".join(lines)):
        kind = piece.lastgroup or ""
        if kind not in ("gap", "open"):
            number = bisect_right(starts, piece.start()) - 1
            found.append(Token(kind, piece[0], number, piece.start() - starts[number]))
    return found
