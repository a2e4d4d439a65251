"""Notes: where a source stands in a form that OpenSCAD takes for another solid without an error.

    for note in notes_of(read_source("part.scad")):
        print(note.file, note.line, note.column, note.form, note.text)

docs/differences.txt has the forms. A form is told by the tokens of a source and by how it is built (`structure`), and nothing
is evaluated: where both solids are the same by chance, as where a condition always holds, a note stands all the same.
"""

from __future__ import annotations

from functools import lru_cache
from typing import TYPE_CHECKING, NamedTuple, Sequence

from .sources import Source, Spot
from .tokens import Token, tokens

if TYPE_CHECKING:
    from .differing import Found

#: A source stands in no form that has none of these and no special name, and in which `_is_plain` holds.
_TOKENS = frozenset(b"module function if for intersection_for children polyhedron ! == != .".split())
_OPENING, _CLOSING = (b"(", b"[", b"{"), (b")", b"]", b"}")
_FEWEST_POINTS = 4  # (of a polygon that goes round twice)


class Note(NamedTuple):
    """A place of a source, by file, line and byte from 1, with the name of the form that it stands in, and what differs."""

    file: str
    line: int
    column: int
    form: str
    text: str

    def told(self) -> str:
        """The line that is said of it, in the form that editors read."""
        place = self.file if self.file.startswith("-D ") else f"{self.file}:{self.line}:{self.column}"
        return f"{place}: note: {self.message()}\n"

    def message(self) -> str:
        """What is said of it, without its place."""
        return f"OpenSCAD takes this for another solid: {self.text} [{self.form}]"


def notes_of(source: Source) -> list[Note]:
    """The notes of a source with all that it includes and uses, in order. There are none of what is not a program."""
    return [it for it, _ in placed_notes(source)]


def placed_notes(source: Source) -> list[tuple[Note, Spot]]:
    """The same, each with its place and the line that it stands in."""
    read = tokens(source.sent())
    if _is_plain(read):
        return []
    # (what finds the forms takes longer to load than a plain source to be answered)
    from .differing import FORMS, Found
    from .structure import NoProgram, structure_of

    try:
        found = Found(structure_of(read))
    except NoProgram:
        return []
    places = {(at, name) for name, places_in in FORMS.items() for at in places_in(found) if not found.is_left_out(at)}
    return [_note(source, found, at, name) for at, name in sorted(places)]


def _is_plain(found: Sequence[Token]) -> bool:
    """Whether it shows at once that tokens stand in no form: nothing that a form has is in them, no braces have an assignment,
    no extrusion has a second argument, and no polygon has a name, or enough lists that it could go round twice."""
    if any(it.text in _TOKENS or it.is_special() for it in found):
        return False
    opened: list[int] = []
    for at, it in enumerate(found):
        before = found[opened[-1] - 1].text if opened and opened[-1] else b""
        if it.text in _OPENING:
            opened.append(at)
        elif it.text in _CLOSING and opened:
            first = opened.pop()
            lists = sum(1 for other in found[first:at] if other.text == b"[")
            if before == b"polygon" and (lists > _FEWEST_POINTS or found[first + 1].is_name()):
                return False
        elif it.text == b"," and before == b"linear_extrude":
            return False
        elif it.text == b"=" and opened and found[opened[-1]].text == b"{":
            return False
    return True


def _note(source: Source, found: Found, at: int, name: str) -> tuple[Note, Spot]:
    token = found.tokens[at]
    spot = source.spot(token.line + 1, token.start + 1)
    return Note(spot.file, spot.line, spot.column, name, _texts()[name]), spot


@lru_cache(maxsize=None)
def _texts() -> dict[str, str]:
    """What is said about each form."""
    # (a source without a note needs none of it)
    from .differences import forms

    return {it.name: it.says for it in forms()}


def notes_told(source: Source) -> str:
    """What is said of all places of a source."""
    return "".join(it.told() for it in notes_of(source))


__all__: Sequence[str] = ("Note", "notes_of", "notes_told")
