"""Sources by OpenSCAD's own front end: OpenSCAD evaluates a file, and what is sent to the server is the source that comes of
it.

    reader = Reader(Wanted())
    call = Call(.., read=reader, larger=reader.larger, coarser=reader.coarser, last=reader.last)

Where a design, or the solid of its source, passes a limit of the server, it is made by tiles; or else, where that is asked
for, it is converted once more with fewer planes.
"""

from __future__ import annotations

import os
from dataclasses import replace
from fractions import Fraction
from functools import partial
from typing import Callable, NamedTuple, Sequence

from ..ending import BadCall
from ..files import say
from ..openscad.conversion import Conversion, Design, Wanted, converted, of_any_size, whole
from ..openscad.front import Front, NotEvaluated, NotThere, Told, evaluated, warned
from ..openscad.grid import PLANES
from ..openscad.included import units_said
from ..openscad.reader import CsgFault, Node, read
from ..server.failures import Malformed
from ..server.replies import Solid
from ..solid.surface import NotClosed
from ..source.faults import FAULTS
from ..source.sources import LargeSource, Line, Refused, Source, Spot
from ..source.telling import refused_told
from ..source.units import unit_said
from ..tiles.gluing import NotOfTile
from ..tiles.joined import text_of
from ..tiles.making import made
from ..tiles.progress import Progress

# The share of planes that is taken next, and how few planes are tried at least.
_SHARE, _LEAST = 0.7, 64
# What kind of fault an error of OpenSCAD's is, by how it begins.
_WORDS = {"Parser error": "Expected", "Assertion": "AssertFailed", "Recursion": "TooDeep", "For loop": "TooManyTurns"}
# The cures of faults that OpenSCAD tells, and of those that a source in whole numbers has not, or has others for.
_CURES = {
    **{word: FAULTS[word][1] for word in ("Expected", "AssertFailed", "TooDeep", "NotClosed", "BadPoint")},
    "TooManyTurns": "let the loop end sooner",
    "Warned": "without --strict the part is made, and may lack what this is about",
    "Empty": "look for a * or %, an if, or a difference that leaves nothing",
    "WrongDimension": "linear_extrude(1) makes a solid of flat shapes, and --flat 1 of a design that is flat as a whole",
    "TooCoarse": "allow the difference, or make several parts of it: each may be finer",
    "OutOfRange": "move it to the middle, or make it smaller",
    "TooManyPlanes": "use fewer fragments ($fn), or make several parts of it",
    "TooManyParts": "make several parts of it",
    "TooManyCorners": "use fewer fragments ($fn) or slices",
    "TooManyNodes": "make several parts of it",
    "NotConvex": "join convex shapes by union; corners of a polyhedron's faces go clockwise as seen from outside",
}
_ABOVE = "OpenSCAD's own words are above"
_NODES = "openscad --render -o part.csg PART.scad writes the nodes, and docs/OPENSCAD.md says which are taken"


class _Evaluated(NamedTuple):
    """What OpenSCAD made of a file: its nodes, what renders them, and how often it warned."""

    nodes: list[Node]
    front: Front
    warnings: int


class Reader:
    """Reads sources by OpenSCAD, and tells what it says and what was changed of each, on standard error or otherwise.

    Where a design passes a limit of a source, its solid is made by tiles, or, where fewer corners are wanted, of these.
    """

    def __init__(
        self, wanted: Wanted, unit: Fraction | None = None, tell: Callable[[str], None] = say, may_import: bool = True
    ) -> None:
        """With what is wanted, the unit, what tells something, and whether a source may import files."""
        self._wanted, self._unit, self._tell, self._may_import = wanted, unit, tell, may_import
        self._units: dict[str, Fraction | None] = {}
        self._evaluated: dict[str, _Evaluated] = {}
        self._warnings: dict[str, int] = {}
        self._planes: dict[str, int] = {}

    def __call__(self, file: str, definitions: Sequence[str], folders: Sequence[str]) -> Source:
        """The source that comes of a file. Raises OSError, BadCall and Refused."""
        if file == "-":
            raise BadCall("OpenSCAD reads only files, not standard input")
        said = units_said(file, folders)
        self._units[file] = self._unit or unit_said(said)
        try:
            csg, told = evaluated(file, definitions, folders)
        except NotThere as error:
            raise BadCall(f"--by-openscad runs OpenSCAD, and {error}") from error
        except NotEvaluated as error:
            self._tell(str(error))
            raise _not_evaluated(file, error.error) from error
        warnings = warned(told)
        if warnings and self._wanted.is_strict:
            *others, last = (_told(file, it, "Warned", it.said) for it in warnings)
            self._tell("".join(map(refused_told, others)))
            raise last
        self._tell(told)
        front = Front(os.path.dirname(os.path.abspath(file)), self._wanted.is_strict)
        try:
            nodes = read(csg)
            importing = next((it for root in nodes for it in root.all() if "file" in it.arguments), None)
            if importing and not self._may_import:
                raise importing.fault("NotInProfile", "it reads a file, which OpenSCAD may not do here")
            self._evaluated[file] = _Evaluated(nodes, front, len(warnings))
        except CsgFault as fault:
            raise _refused(file, fault) from fault
        return self._converted(file, PLANES)

    def coarser(self, source: Source) -> Source | None:
        """The source of the same file with fewer planes; None where there is none. Raises Refused."""
        planes = int(self._planes[source.name] * _SHARE)
        if not self._wanted.may_be_fewer or planes < _LEAST:
            return None
        self._tell(f"{source.name}: its solid exceeds a limit of the server, so it is tried with at most {planes} planes\n")
        return self._converted(source.name, planes)

    def larger(self, source: Source) -> LargeSource | None:
        """The same source as one that is made by tiles; None where that isn't asked for. Raises Refused."""
        if self._wanted.may_be_fewer:
            return None
        nodes, front, _ = self._evaluated[source.name]
        self._tell(f"{source.name}: its solid exceeds a limit of the server, so it is made by tiles\n")
        try:
            return self._large(source.name, whole(nodes, self._wanted, front))
        except CsgFault as fault:
            raise _refused(source.name, fault) from fault

    def last(self, source: Source) -> str:
        """What is told last of a part: how often OpenSCAD warned of it."""
        return warnings_told(source.name, self._warnings[source.name])

    def _converted(self, file: str, planes: int) -> Source:
        nodes, front, _ = self._evaluated[file]
        self._planes[file] = planes
        try:
            wanted = replace(self._wanted, planes=planes)
            found = converted(nodes, wanted, front) if wanted.may_be_fewer else of_any_size(nodes, wanted, front)
        except CsgFault as fault:
            raise _refused(file, fault) from fault
        self._tell(conversion_told(file, found))
        if isinstance(found, Design):
            return self._large(file, found)
        self._warnings[file] = self._evaluated[file].warnings + found.warnings
        lines = _lines(file, found.text)
        return Source(file, lines, (), len(lines), self._units[file], found.unit)

    def _large(self, file: str, design: Design) -> LargeSource:
        """The source of a design that is made by tiles."""
        self._warnings[file] = self._evaluated[file].warnings + design.warnings
        lines = _lines(file, f"// unit: {design.unit}\n".encode())
        make = partial(self._of_tiles, file, design)
        return LargeSource(file, lines, self._units[file], design.unit, make)

    def _of_tiles(self, file: str, design: Design, server: Sequence[str], jobs: int | None, until: float | None) -> Solid:
        """The solid of a design by tiles; tells how many there were. Raises Refused, Malformed, and what `run` of `server`
        does."""
        progress = Progress(file, self._tell is say)
        try:
            found = made(design.grid, server, jobs, progress=progress, until=until, steps=design.steps)
        except CsgFault as fault:
            raise _refused(file, fault) from fault
        except (NotClosed, NotOfTile) as fault:
            raise Malformed(f"{file}: the solids of its tiles do not fit together: {fault}") from fault
        finally:
            progress.end()
        proved = "the text of each tile is proved; that they join to a closed surface was checked"
        self._tell(f"{file}: made of {found.tiles} tiles; {proved}\n")
        return text_of(found.surface)


def _lines(file: str, text: bytes) -> list[Line]:
    """The lines of a text that comes of a file."""
    return [Line(it, it, file, number) for number, it in enumerate(text.split(b"\n")[:-1], 1)]


def conversion_told(name: str, found: Conversion | Design) -> str:
    """What is said about a conversion, a line each."""
    return "".join(f"{name}: {it}\n" for it in found.told)


def warnings_told(name: str, count: int) -> str:
    """What is said last about a part: how many times OpenSCAD warned, if it did."""
    often = f"{count} warning{'s' * (count != 1)} by OpenSCAD: the part may lack something; --strict makes each of them a fault"
    return f"{name}: {often}\n" if count else ""


def _not_evaluated(file: str, error: Told) -> Refused:
    """The fault of an error by which OpenSCAD evaluates nothing."""
    word = next((word for begins, word in _WORDS.items() if error.said.startswith(begins)), None)
    if word is not None:
        return _told(file, error, word, error.said)
    return _told(file, error, "NotInProfile", f"OpenSCAD can't evaluate it: {error.said}")


def _told(file: str, told: Told, word: str, said: str) -> Refused:
    """A fault by OpenSCAD, at the file and the line that it names."""
    folder = os.path.dirname(file)
    own = not told.file or os.path.join(folder, told.file) == os.path.join(folder, os.path.basename(file))
    place = file if own else os.path.join(folder, told.file)
    text = _line(place, told.line)
    spot = Spot(place if text is not None or own else told.file, told.line, 0, text)
    return Refused(spot, word, said, _CURES.get(word, _ABOVE))


def _line(file: str, number: int) -> bytes | None:
    """A line of a file; None where it has none."""
    try:
        with open(file, "rb") as it:
            lines = it.read().split(b"\n")
    except OSError:
        return None
    return lines[number - 1] if 0 < number <= len(lines) else None


def _refused(file: str, fault: CsgFault) -> Refused:
    """A fault of the evaluated form, which says no lines of the source: it is told by the number of its node."""
    place = f"node {fault.ordinal}, " if fault.ordinal else ""
    return Refused(Spot(file, 0, 0, None), fault.word, place + fault.said, _CURES.get(fault.word, _NODES))
