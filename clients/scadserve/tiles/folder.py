"""A folder with a design's tiles, which are made anywhere: a source for each tile, and an index of all of them.

The index says of each tile its box, the planes on which faces of its solid may lie, and the sum of its source, and it ends
with its own sum. So a text that is put in a tile's place is told from that tile's: its corners are in the box, its faces lie
on those planes, and its edges on walls meet those of the tiles beside it.
"""

from __future__ import annotations

import contextlib
import hashlib
import json
import os
from dataclasses import dataclass
from fractions import Fraction
from typing import Any, NamedTuple, Sequence

from ..files import read_file, write_file
from ..openscad.conversion import Design
from ..openscad.exact_hull import Point
from ..solid import fouroff
from ..solid.fouroff import Plane
from .cutting import Box, Limits, Tile
from .dividing import pieces, sources
from .gluing import NotOfTile, Part, part_of
from .side_by_side import done, processors

INDEX = "tiles.json"
_KIND = "tiles of scadserve 2"


class BadIndex(ValueError):
    """The index of a folder can't be read, or isn't whole: why not."""


@dataclass(frozen=True)
class OneTile:
    """A tile of an index: its name; its box, the planes of its shapes, and the sum of its source, which has an origin of its
    own and this many steps to a unit of the design."""

    name: str
    origin: Point
    steps: int
    box: Box
    planes: list[Plane]
    sum_of_source: str


@dataclass(frozen=True)
class Index:
    """All tiles of a design, and how long a unit is in OpenSCAD's lengths."""

    unit: Fraction
    tiles: list[OneTile]


class _Written(NamedTuple):
    """A tile as it is written: see OneTile."""

    origin: Point
    steps: int
    box: Box
    lines: list[bytes]
    planes: list[Plane]


def write_folder(folder: str, name: str, design: Design, limits: Limits, jobs: int | None = None) -> int:
    """Writes the sources of a design's tiles and their index, which comes last, to an empty folder; gives how many there are.

    Raises OSError where a file can't be written, and CsgFault where the design can't be cut; then none is left.
    """
    try:
        return _written_folder(folder, name, design, limits, jobs)
    except BaseException:
        with contextlib.suppress(OSError):
            for it in os.listdir(folder):
                os.unlink(os.path.join(folder, it))
        raise


def _written_folder(folder: str, name: str, design: Design, limits: Limits, jobs: int | None) -> int:
    """Writes a folder, of which some may be left where an exception is raised."""
    found = pieces(design.grid, limits, design.steps)
    of_pieces: list[list[_Written]] = [[] for _ in found]

    def work(piece: Tile) -> list[_Written]:
        return [_Written(it.origin, it.tile.steps, it.box(), it.lines, sorted(it.planes)) for it in sources([piece], limits)]

    for number, made in done(work, found, jobs or processors()):
        of_pieces[number] = made
    all_tiles = [it for made in of_pieces for it in made]
    width = max(4, len(str(len(all_tiles))))
    tiles = []
    for number, (origin, steps, box, lines, planes) in enumerate(all_tiles, 1):
        head = f"// unit: {design.unit / steps}\n// tile {number} of {len(all_tiles)} of {name}\n".encode("ascii", "replace")
        text = head + b"".join(it + b"\n" for it in lines)
        own = f"{number:0{width}}"
        write_file(os.path.join(folder, f"{own}.scad"), text)
        tile: dict[str, object] = {"name": own, "origin": origin, "steps": steps, "box": box}
        tile["planes"] = [n for it in planes for n in it]
        tile["source"] = _sum(text)
        tiles.append(tile)
    index = {"kind": _KIND, "unit": str(design.unit), "tiles": tiles}
    write_file(os.path.join(folder, INDEX), _printed({**index, "sum": _sum(_printed(index))}))
    return len(tiles)


def _printed(index: dict[str, Any]) -> bytes:
    return json.dumps(index, separators=(",", ":")).encode("ascii") + b"\n"


def _sum(text: bytes) -> str:
    return hashlib.sha256(text).hexdigest()


def read_index(folder: str) -> Index:
    """The index of a folder. Raises BadIndex, and OSError."""
    try:
        index = json.loads(read_file(os.path.join(folder, INDEX)))
        own = index.pop("sum")
        if index["kind"] != _KIND or own != _sum(_printed(index)):
            raise BadIndex("it isn't as csg2scad wrote it")
        return Index(Fraction(index["unit"]), [_tile(it) for it in index["tiles"]])
    except (KeyError, TypeError, AttributeError, ValueError) as error:
        raise error if isinstance(error, BadIndex) else BadIndex("it is not an index of tiles") from None


def _tile(it: dict[str, Any]) -> OneTile:
    x, y, z = it["origin"]
    return OneTile(it["name"], (x, y, z), it["steps"], _box(it["box"]), _planes(it["planes"]), it["source"])


def _planes(numbers: Sequence[int]) -> list[Plane]:
    return list(zip(numbers[::4], numbers[1::4], numbers[2::4], numbers[3::4]))


def _box(numbers: Sequence[int]) -> Box:
    a, b, c, x, y, z = numbers
    return (a, b, c, x, y, z)


@dataclass(frozen=True)
class Texts:
    """Where the texts of an index's tiles are: the file of each tile, or those that are in none of the folders."""

    files: dict[str, str]
    missing: list[str]


def texts_of(index: Index, folders: Sequence[str]) -> Texts:
    """The file of each tile's text: the first that is in one of these folders."""
    files: dict[str, str] = {}
    for it in index.tiles:
        for folder in folders:
            file = os.path.join(folder, f"{it.name}.4off")
            if os.path.exists(file):
                files.setdefault(it.name, file)
    return Texts(files, [it.name for it in index.tiles if it.name not in files])


class BadTile(ValueError):
    """The text of a tile can't be read, or isn't that tile's: what is said of it."""


def parts_of(index: Index, files: dict[str, str], jobs: int | None) -> list[Part]:
    """The part of the boundary in each tile. Raises BadTile."""

    def work(tile: OneTile) -> Part:
        file = files[tile.name]
        try:
            boundary = fouroff.read(read_file(file))
            return part_of(boundary.corners, boundary.faces, tile.box, set(tile.planes)).moved(tile.origin, tile.steps)
        except fouroff.Malformed as fault:
            raise BadTile(f"{file}:{fault.line}: error: {fault.reason}") from None
        except NotOfTile as fault:
            raise BadTile(f"{file}: error: it isn't the text of this tile: {fault}") from None
        except OSError as error:
            raise BadTile(f"{file}: error: it can't be read: {error.strerror}") from None

    parts = dict(done(work, index.tiles, jobs or processors()))
    return [parts[it] for it in range(len(index.tiles))]
