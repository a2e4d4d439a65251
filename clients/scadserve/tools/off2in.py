"""`off2in`: whether points are in the solid of a 4OFF text of the server, out of it, or on its boundary, exactly.

A line is printed for each point: the point as it was given, and `in`, `out` or `on`.
"""

from __future__ import annotations

import re
from argparse import ArgumentTypeError, Namespace
from fractions import Fraction
from typing import NamedTuple, Sequence

from ..calls import off2tool
from ..calls.words import Words, write_out
from ..files import called
from ..solid import closing
from ..solid.crossings import Crossings, NoBoundary

TOOL = "off2in"
_DESCRIPTION = "Tells exactly whether points are in the solid of a 4OFF text, out of it, or on its faces."
_NUMBER = re.compile(r"-?[0-9]{1,40}(?:\.[0-9]{1,40}|/0*[1-9][0-9]{0,39})?")


class Point(NamedTuple):
    """A point as it was given, and its coordinates in units."""

    given: str
    place: tuple[Fraction, ...]


def main(words: Sequence[str]) -> int:
    """Runs the tool on its words, without its name; gives its status."""
    return off2tool.run(TOOL, _tell, words)


def parser() -> Words:
    """The words that there are."""
    words = Words(TOOL, _DESCRIPTION)
    words.add_argument("file", metavar="FILE", help="a 4OFF text; `-` is standard input")
    words.add_argument(
        "points",
        nargs="+",
        type=_point,
        metavar="X,Y,Z",
        help="a point in units: whole or decimal numbers, or fractions such as 1/3",
    )
    return words


def _tell(words: Sequence[str]) -> None:
    asked = _read_words(words)
    boundary = off2tool.boundary_of(asked.file)
    if boundary.faces:
        off2tool.check(asked.file, boundary, closing.close(boundary))
    faces = Crossings(boundary)
    lines = []
    for point in asked.points:
        try:
            lines.append(f"{point.given} {faces.place(point.place)}\n")
        except NoBoundary as bad:
            raise off2tool.BadSolid(f"{called(asked.file)}: error: {point.given}: {bad}") from None
    write_out("-", "".join(lines).encode())


def _read_words(words: Sequence[str]) -> Namespace:
    """The file and the points. A word that begins with a minus and a digit is a point, and no option."""
    return parser().parse_args([f" {it}" if re.match(r"-[0-9]", it) else it for it in words])


def _point(text: str) -> Point:
    """The point that a word says. Raises ArgumentTypeError."""
    given = text.strip(" ")
    numbers = given.split(",")
    if len(numbers) != 3 or not all(_NUMBER.fullmatch(it) for it in numbers):
        raise ArgumentTypeError(f"{given!r} is not a point like 1,2.5,-1/3")
    return Point(given, tuple(Fraction(it) for it in numbers))
