"""Units: how many millimetres a length of a source is, by an option or by a comment in the source like `// unit: 1/10`."""

from __future__ import annotations

import re
from fractions import Fraction
from typing import Iterable, Iterator, NamedTuple, Sequence

from .lengths import unit_of_text
from .sources import Line, Origin, Refused, Source, Spot
from .tokens import PIECE

_SAYS = rb"(?P<says>unit:[ \t]*(?P<unit>.*?))"
#: A comment to the end of its line that says a unit, and a line of another comment that does.
_LINE = re.compile(rb"\A//[ \t]*" + _SAYS + rb"[ \t\r]*\Z", re.IGNORECASE)
_BLOCK = re.compile(rb"(?:/\*|\n)[ \t*]*" + _SAYS + rb"[ \t\r*]*(?=\n|\*/)", re.IGNORECASE)
_ANY = re.compile(rb"unit:", re.IGNORECASE)


def unit_of(source: Source) -> Fraction | None:
    """The unit that comments in a source and in what it includes say; None where they say none.

    A comment says `unit:`, in small or large letters, and a number, with `mm` behind it or not. Raises Refused at one that
    says something else, or another unit than the one before.
    """
    return unit_said(_said(source.lines))


def with_unit(source: Source, unit: Fraction | None = None) -> Source:
    """A source with its unit: this one of an option, else the one that its comments say. Raises Refused."""
    source.unit = unit or unit_of(source)
    return source


class Said(NamedTuple):
    """A comment that says a unit: where it stands, where its file is included, and what it says."""

    spot: Spot
    origin: Origin | None
    unit: bytes


def unit_said(comments: Iterable[Said]) -> Fraction | None:
    """The unit that all of these comments say; None where there is none. Raises Refused."""
    unit: Fraction | None = None
    first = ""
    for spot, origin, said in comments:
        shown = said.decode("utf-8", "backslashreplace")
        own = unit_of_text(shown.removesuffix("mm").rstrip(" \t"))
        if own is None or unit not in (None, own):
            # (what tells faults is loaded where there is one, so that the tools are quicker to start)
            from .faults import FILES

            what, cure = FILES["BadUnit"]
            why = what.format(shown) if own is None else f"{first} says another unit, {unit}"
            raise Refused(spot, "BadUnit", why, cure, origin)
        unit, first = own, f"{spot.file}:{spot.line}"
    return unit


def says(comment: re.Match[bytes]) -> Iterator[tuple[int, bytes]]:
    """What a comment, a piece of a text, says of units, each with its place in the text."""
    is_line = comment[0].startswith(b"//")
    for it in (_LINE if is_line else _BLOCK).finditer(comment[0]):
        yield comment.start() + (0 if is_line else it.start("says")), it["unit"]


def _said(lines: Sequence[Line]) -> Iterator[Said]:
    """What comments say of units, in order; what a used file has in its definitions isn't said of the source."""
    text = b"\n".join(b"" if it.is_used() else it.sent for it in lines)
    if not _ANY.search(text):
        return
    for piece in PIECE.finditer(text):
        for at, unit in says(piece) if piece["gap"] else ():
            line = lines[text.count(b"\n", 0, at)]
            yield Said(line.spot(at - text.rfind(b"\n", 0, at)), line.origin, unit)
