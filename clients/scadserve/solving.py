"""Sources in, solids out: `solve`, which the package has at its top."""

from __future__ import annotations

import errno
import math
import os
import re
import tempfile
from dataclasses import dataclass, replace
from fractions import Fraction
from functools import cached_property
from pathlib import Path
from time import monotonic
from typing import Iterable, Iterator, Mapping, Sequence, Union

from .server.replies import Complex, Reply
from .server.replies import Fault as ToldFault
from .server.replies import Solid as ToldSolid
from .server.processes import Server, server_words
from .server.scripts import passed_limit, shown_value, test_options
from .solid import closing, fouroff, measures
from .solid.crossings import Crossings
from .solid.formats import WRITERS
from .solid.merging import merged
from .solid.meshes import mesh
from .solid.surface import Surface, surface_of
from .source.answering import answered
from .source.notes import Note as Note
from .source.notes import notes_of
from .source.reading import read_source, source_of, unused
from .source.sources import LargeSource, Refused
from .source.sources import Source as ReadSource
from .source.telling import limit_told, refused_told, reply_told

#: A text of the language, in UTF-8 where it is bytes; or the path of a file.
Source = Union[str, bytes, "os.PathLike[str]"]
#: A point, in units: x, y and z.
Point = tuple[Fraction, Fraction, Fraction]

_MOST_UNIT, _MOST_NUMBER = 10**9, 2**53
_NAME = re.compile(r"\$?[A-Za-z_][A-Za-z0-9_]*")
_ESCAPES = str.maketrans({"\\": "\\\\", '"': '\\"', "\n": "\\n", "\t": "\\t", "\r": "\\r"})


@dataclass(frozen=True)
class Fault:
    """Why a source has no solid: a fault at a place of it, or a limit that it or its solid passes."""

    #: What the server answers, as `NotWhole` or `complex facets`; docs/FAULTS.md has each.
    word: str
    #: The file, or `<source 1>` for the first of the texts.
    file: str
    #: The line and its byte, both from 1; None where the solid as a whole passes a limit, or memory ran out.
    line: int | None
    column: int | None
    #: All that `scad2off` says of it: lines with the place, the cause and the cure.
    message: str

    def __str__(self) -> str:
        return self.message.rstrip("\n")


@dataclass(frozen=True)
class Solid:
    """A solid, exactly. What is asked of it is worked out at the first time and kept. Lengths are in units of the source."""

    #: Its 4OFF text.
    text: bytes
    #: Where its source stands in a form that OpenSCAD takes for another solid.
    notes: tuple[Note, ...] = ()
    #: By OpenSCAD: how many lengths of the source one of the text is, and the lines that OpenSCAD and the conversion told.
    step: Fraction = Fraction(1)
    told: tuple[str, ...] = ()

    @cached_property
    def volume(self) -> Fraction:
        """The volume in cubic units; where its denominator has more than 4,096 bits, off by less than a part in 10^13."""
        return measures.volume(self._boundary).value * self.step**3

    @cached_property
    def box(self) -> tuple[Point, Point] | None:
        """The corners of the box around it: the least x, y and z, and the greatest. None of the empty solid."""
        if not self._boundary.faces:
            return None
        (a, x), (b, y), (c, z) = ((low * self.step, high * self.step) for low, high in measures.box(self._boundary))
        return (a, b, c), (x, y, z)

    @cached_property
    def faces(self) -> list[tuple[Point, ...]]:
        """Its faces, each convex, as their corners counterclockwise seen from outside. There are none of the empty solid."""
        points = self._points
        return [tuple(points[corner] for corner in face) for face in self._boundary.faces]

    @cached_property
    def triangles(self) -> list[tuple[Point, Point, Point]]:
        """A closed surface of triangles, as few as there can be on each plane, counterclockwise seen from outside.

        A corner of one is never inside an edge of another one.
        """
        points, surface = self._points, self._surface
        corners = (tuple(points[surface.places[node]] for node in surface.triangle(at)) for at in range(len(surface.planes)))
        return [(p, q, r) for p, q, r in corners]

    def place(self, point: Sequence[Fraction | int]) -> str:
        """Whether a point is in the solid, out of it, or on a face of it: "in", "out" or "on"."""
        return self._crossings.place(point if self.step == 1 else [Fraction(it) / self.step for it in point])

    def mesh(self, form: str = "stl", unit: Fraction | int = 1, name: str = "solid") -> bytes:
        """The bytes of a file in a format (stl, binstl, off, obj or 3mf), with corners times the unit in millimetres.

        Raises ValueError where there is no such format, the unit is not above 0 and below 10^9, or the solid is empty; and
        TypeError where the unit is neither a whole number nor a Fraction.
        """
        if form not in WRITERS:
            raise ValueError(f"{form!r} is not a format: {', '.join(WRITERS)} are")
        if not isinstance(unit, (int, Fraction)) or isinstance(unit, bool):
            raise TypeError(f"a unit is a whole number or a Fraction, and not {unit!r}")
        if not 0 < unit < _MOST_UNIT:
            raise ValueError(f"a unit is above 0 and below 10^9, and not {shown_value(unit)}")
        if not self._boundary.faces:
            raise ValueError("the solid is empty, so there is nothing to write")
        return WRITERS[form](mesh(name, self._surface, Fraction(unit), form, self.step))

    @cached_property
    def _boundary(self) -> fouroff.Boundary:
        return fouroff.read(self.text)

    @cached_property
    def _crossings(self) -> Crossings:
        return Crossings(self._boundary)

    @cached_property
    def _points(self) -> list[Point]:
        step, below = self.step.numerator, self.step.denominator
        corners = ((x * step, y * step, z * step, w * below) for x, y, z, w in self._boundary.corners)
        return [(Fraction(x, w), Fraction(y, w), Fraction(z, w)) for x, y, z, w in corners]

    @cached_property
    def _surface(self) -> Surface:
        return merged(surface_of(self._boundary, closing.close(self._boundary)))


def solve(
    sources: Iterable[Source],
    *,
    half: bool = False,
    definitions: Mapping[str, object] | None = None,
    folders: Sequence[str] = (),
    workers: int | None = None,
    memo: int | None = None,
    time: float | None = None,
    server: Server | None = None,
    by_openscad: bool = False,
) -> list[Solid | Fault]:
    """The solid or the fault of each source, in order, in as few runs of the server as can be.

    `half`: corners may lie at half units. `definitions`: values by name, which are assigned behind each source's own lines.
    `folders`: where to look for what a source includes or uses, behind its own folder. `workers` (1 to 64, else 4) and
    `memo` (0 to 2,000,000, else 500,000) are the server's, and change no answer. `time`: seconds for all of it. `server`:
    the program, or words that start it; else what SCADSERVE in the environment names, or `./scadserve`. `by_openscad`: let
    OpenSCAD evaluate the sources, and build the solids of their corners rounded to a grid.

    Raises ServerFailed where the server doesn't start, ends otherwise than it should, or takes longer than `time`
    (OutOfTime); Malformed where it answers something else; OSError where a file can't be read, or OpenSCAD isn't there; and
    TypeError or ValueError where an argument is none, or no source has a name that `definitions` assigns.
    """
    given = _listed(sources)
    _test_words(half, by_openscad, folders, time)
    test_options(server, workers, memo)
    until = None if time is None else monotonic() + time
    words = server_words(server)
    assigned = [_assignment(name, value) for name, value in _pairs(definitions)]
    reading = _ByOpenscad(folders) if by_openscad else _Reading(folders)
    found = [reading.read(it, f"<source {number}>", assigned) for number, it in enumerate(given, 1)]
    if assigned and not by_openscad:
        _test_used(found)
    sent = [it for it in found if isinstance(it, ReadSource) and not isinstance(it, LargeSource)]
    told = iter(answered(sent, half, words, workers, memo, until))
    return [it if isinstance(it, Fault) else reading.answer(it, told, words, until) for it in found]


def _listed(sources: Iterable[Source]) -> list[Source]:
    """The sources. Raises TypeError where they are no list of them: a text alone would be as many sources as it has letters."""
    if isinstance(sources, (str, bytes, os.PathLike)):
        raise TypeError("sources are a list of texts or paths, and not one alone: solve([source])")
    found = list(sources)
    for number, it in enumerate(found, 1):
        if not isinstance(it, (str, bytes, os.PathLike)):
            raise TypeError(f"source {number} is a text, bytes or a path, and not {it!r}")
    return found


def _test_words(half: bool, by_openscad: bool, folders: Sequence[str], time: float | None) -> None:
    """Raises TypeError and ValueError where one of these is none."""
    for name, value in (("half", half), ("by_openscad", by_openscad)):
        if not isinstance(value, bool):
            raise TypeError(f"{name} is True or False, and not {value!r}")
    if half and by_openscad:
        raise ValueError("by_openscad chooses its grid itself, so half can't be given with it")
    if isinstance(folders, (str, bytes)) or not all(isinstance(it, (str, os.PathLike)) for it in folders):
        raise TypeError(f"folders are a list of folders, and not {folders!r}")
    if time is not None and (not isinstance(time, (int, float)) or isinstance(time, bool)):
        raise TypeError(f"time is a number of seconds, and not {time!r}")
    if time is not None and not 0 <= time < _MOST_UNIT:
        raise ValueError(f"time is 0 or more seconds and below 10^9, and not {shown_value(time)}")


def _pairs(definitions: Mapping[str, object] | None) -> list[tuple[str, object]]:
    if definitions is not None and not isinstance(definitions, Mapping):
        raise TypeError(f"definitions are values by name, and not {definitions!r}")
    return list((definitions or {}).items())


def _test_used(found: Sequence[ReadSource | Fault]) -> None:
    """Raises ValueError where definitions assign a name that no source has, as far as each source could be read."""
    lacking = [set(unused(it)) if isinstance(it, ReadSource) else set() for it in found]
    nowhere = sorted(set.intersection(*lacking)) if lacking else []
    if nowhere:
        raise ValueError(f"no source has {' or '.join(nowhere)}, which definitions assign")


def _assignment(name: str, value: object) -> str:
    """A value by its name, as -D takes it. Raises ValueError where the name is none, and TypeError where the value is."""
    if not isinstance(name, str) or not _NAME.fullmatch(name):
        raise ValueError(f"{name!r} is not a name of a variable")
    return f"{name}={_literal(name, value)}"


def _literal(name: str, value: object) -> str:
    """A value as the language writes it: a number, a truth, a text, a list or None."""
    if value is None or isinstance(value, bool):
        return "undef" if value is None else str(value).lower()
    if isinstance(value, (list, tuple)):
        return f"[{', '.join(_literal(name, it) for it in value)}]"
    if isinstance(value, str):
        return '"' + value.translate(_ESCAPES) + '"'
    if isinstance(value, float) and not math.isfinite(value):
        raise ValueError(f"definitions give {name} a number that is none: {value}")
    if isinstance(value, int) and abs(value) >= _MOST_NUMBER:
        raise ValueError(f"definitions give {name} a number past 2^53 - 1")
    if isinstance(value, (int, float)):
        return repr(value)
    if isinstance(value, Fraction):
        return str(value)
    raise TypeError(f"definitions give {name} a {type(value).__name__}, which the language has not")


class _Reading:
    """How sources are read, and what they are answered."""

    def __init__(self, folders: Sequence[str]) -> None:
        self.folders = [os.fspath(it) for it in folders]

    def read(self, source: Source, name: str, definitions: Sequence[str]) -> ReadSource | Fault:
        """The source as it is sent, with what it includes, or what is wrong with it before. Raises OSError."""
        try:
            read = self._read(source, name, definitions)
        except Refused as refused:
            return _refused(refused)
        limit = passed_limit(read.sent())
        return read if limit is None else _fault(read, limit, limit_told(read, limit))

    def _read(self, source: Source, name: str, definitions: Sequence[str]) -> ReadSource:
        if isinstance(source, (str, bytes)):
            return source_of(_bytes(source), name, definitions, self.folders)
        return read_source(os.fspath(source), definitions, self.folders)

    def answer(
        self, source: ReadSource, told: Iterator[tuple[ReadSource, Reply]], server: Sequence[str], until: float | None
    ) -> Solid | Fault:
        """What a source is answered: the next of what those that were sent are told. Raises what `run` of `server` raises."""
        return self._solid(*next(told))

    def _solid(self, source: ReadSource, reply: Reply) -> Solid | Fault:
        """What the export of a source was answered."""
        if isinstance(reply, ToldSolid):
            return Solid(reply.text, tuple(notes_of(source)))
        message = reply_told(source, reply)
        if isinstance(reply, ToldFault):
            return _fault(source, reply, message)
        word = f"complex {reply.kind}" if isinstance(reply, Complex) else "nomem"
        return Fault(word, source.name, None, None, message)


class _ByOpenscad(_Reading):
    """Sources that OpenSCAD evaluates. A text is a file for it, in a folder that is there for so long."""

    def __init__(self, folders: Sequence[str]) -> None:
        # (it is much to load, and most sources need none of it)
        from .calls.by_openscad import Reader
        from .openscad.conversion import Wanted
        from .openscad.front import program

        super().__init__(folders)
        if program() is None:
            raise FileNotFoundError(errno.ENOENT, "OpenSCAD is not installed", os.environ.get("OPENSCAD") or "openscad")
        self._told: list[str] = []
        self._reader = Reader(Wanted(), tell=self._told.append)
        #: By the file of a source what was told until it was read, and what a text is called instead.
        self._lines: dict[str, str] = {}
        self._names: dict[str, str] = {}

    def read(self, source: Source, name: str, definitions: Sequence[str]) -> ReadSource | Fault:
        """As it is said of all sources. What OpenSCAD says of an error stands before what is said of the fault."""
        self._told.clear()
        if not isinstance(source, (str, bytes)):
            return self._with_told(super().read(source, name, definitions), os.fspath(source))
        with tempfile.TemporaryDirectory() as folder:
            file = os.path.join(folder, "source.scad")
            with open(file, "wb") as it:
                it.write(_bytes(source))
            self._names[file] = name
            return self._with_told(super().read(Path(file), name, definitions), file)

    def _read(self, source: Source, name: str, definitions: Sequence[str]) -> ReadSource:
        # (what a text includes is looked for in the folder that the program runs in)
        file = os.fspath(source) if isinstance(source, os.PathLike) else ""
        folders = [os.getcwd(), *self.folders] if file in self._names else self.folders
        return self._reader(file, definitions, folders)

    def _with_told(self, found: ReadSource | Fault, file: str) -> ReadSource | Fault:
        """What was read of a file, with what was said about it."""
        self._lines[file] = "".join(self._told)
        return self._called(found, file) if isinstance(found, Fault) else found

    def _called(self, fault: Fault, file: str) -> Fault:
        """A fault as it is told about a text, which has no file."""
        name = self._names.get(file, file)
        return replace(
            fault, file=fault.file.replace(file, name), message=(self._lines[file] + fault.message).replace(file, name)
        )

    def answer(
        self, source: ReadSource, told: Iterator[tuple[ReadSource, Reply]], server: Sequence[str], until: float | None
    ) -> Solid | Fault:
        """What a source is answered; where it, or its solid, passes a limit, its solid is made by tiles."""
        self._told.clear()
        try:
            if isinstance(source, LargeSource):
                reply: Reply = source.solid(server, until=until)
            else:
                source, reply = next(told)
                large = self._reader.larger(source) if isinstance(reply, Complex) else None
                if large is not None:
                    source, reply = large, large.solid(server, until=until)
        except Refused as refused:
            return self._called(_refused(refused), source.name)
        lines = (self._lines[source.name] + "".join(self._told)).replace(source.name, self._names.get(source.name, source.name))
        found = self._solid(source, reply)
        if isinstance(found, Fault):
            return self._called(found, source.name)
        return Solid(found.text, (), source.step, tuple(lines.splitlines()))


def _refused(refused: Refused) -> Fault:
    return Fault(refused.word, refused.spot.file, refused.spot.line, refused.spot.column, refused_told(refused))


def _bytes(source: str | bytes) -> bytes:
    return source.encode("utf-8", "surrogateescape") if isinstance(source, str) else source


def _fault(source: ReadSource, fault: ToldFault, message: str) -> Fault:
    spot = source.spot(fault.line, fault.column)
    return Fault(fault.word, spot.file, spot.line, spot.column, message)
