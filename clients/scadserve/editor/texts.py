"""Texts as bytes, and the places of an editor in them: lines from 0, and in a line the units of UTF-16 before a place."""

from __future__ import annotations

import re
from bisect import bisect_right
from typing import Any

from .framing import INVALID_PARAMS, Failed

_LINE_END = re.compile(rb"\r\n|\n|\r")


class Text:
    """The bytes of a file, in UTF-8 as far as they are."""

    def __init__(self, data: bytes) -> None:
        self.data = data
        # (an editor ends a line at a lone carriage return too, and the server at a newline alone)
        self._starts = [0, *(it.end() for it in _LINE_END.finditer(data))]
        self._own_starts = [0, *(it.end() for it in re.finditer(rb"\n", data))]

    def byte(self, line: int, column: int) -> int:
        """The byte at a place as the server tells it: its line and its byte, both from 1."""
        start = self._own_starts[min(line, len(self._own_starts)) - 1]
        return min(start + column - 1, len(self.data))

    def spot(self, byte: int) -> tuple[int, int]:
        """The line and the byte in it, both from 1, as the server tells them."""
        line = bisect_right(self._own_starts, byte)
        return line, byte - self._own_starts[line - 1] + 1

    def position(self, byte: int) -> dict[str, int]:
        """The place of a byte."""
        line = bisect_right(self._starts, byte) - 1
        return {"line": line, "character": _units(self.data[self._starts[line] : byte])}

    def range(self, start: int, end: int) -> dict[str, Any]:
        """The places of a first byte and of the one behind the last."""
        return {"start": self.position(start), "end": self.position(end)}

    def offset(self, position: Any) -> int:
        """The byte at a place; one behind the end of a line or of the text is taken for that end. Raises Failed."""
        line, character = (_count(position, it) for it in ("line", "character"))
        if line >= len(self._starts):
            return len(self.data)
        start = self._starts[line]
        end = self._starts[line + 1] if line + 1 < len(self._starts) else len(self.data)
        text = self.data[start:end].rstrip(b"\r\n") if line + 1 < len(self._starts) else self.data[start:end]
        return start + _bytes_of(text, character)

    def changed(self, change: Any) -> Text:
        """The text with a change of the protocol: other text for a range, or for all of it. Raises Failed."""
        if not isinstance(change, dict) or not isinstance(change.get("text"), str):
            raise Failed(INVALID_PARAMS, "a change has a text")
        new = encoded(change["text"])
        if change.get("range") is None:
            return Text(new)
        if not isinstance(change["range"], dict):
            raise Failed(INVALID_PARAMS, "a range has a start and an end")
        start, end = (self.offset(change["range"].get(it)) for it in ("start", "end"))
        if start > end:
            raise Failed(INVALID_PARAMS, "a range ends before it starts")
        return Text(self.data[:start] + new + self.data[end:])


def _count(position: Any, name: str) -> int:
    found = position.get(name) if isinstance(position, dict) else None
    if not isinstance(found, int) or isinstance(found, bool) or found < 0:
        raise Failed(INVALID_PARAMS, "the line and the character of a place are whole numbers from 0")
    return found


def encoded(text: str) -> bytes:
    """A text as bytes. JSON may have halves of characters in it."""
    return text.encode("utf-8", "surrogatepass")


def _decoded(text: bytes) -> str:
    try:
        return text.decode("utf-8", "surrogatepass")
    except UnicodeDecodeError:
        return text.decode("utf-8", "replace")


def _units(text: bytes) -> int:
    """How many units of UTF-16 a text has."""
    return len(text) if text.isascii() else len(_decoded(text).encode("utf-16-le", "surrogatepass")) // 2


def _bytes_of(text: bytes, units: int) -> int:
    """How many bytes of a line this many units of UTF-16 have; what is half a character counts for none."""
    if text.isascii():
        return min(units, len(text))
    all_units = _decoded(text).encode("utf-16-le", "surrogatepass")
    # (the second half of a character would come next: its high byte says so)
    is_half = units > 0 and 0xDC <= all_units[2 * units + 1 : 2 * units + 2].ljust(1, b"\0")[0] < 0xE0
    cut = all_units[: 2 * (units - is_half)]
    return min(len(encoded(cut.decode("utf-16-le", "surrogatepass"))), len(text))
