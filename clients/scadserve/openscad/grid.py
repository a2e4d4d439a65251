"""A design on the grid: the corners of its leaves rounded, their hulls taken exactly, and the source that has these solids.

All that has corners in common still has: each place has one rounded corner. Where sides run along no axis, a corner is rounded
as the sum of two, its foot on the plane across that direction and the way from there; so sides of prisms stay flat, and both
ends are rounded in one way.
"""

from __future__ import annotations

import math
from bisect import bisect, bisect_left
from dataclasses import dataclass, field
from fractions import Fraction
from typing import Callable, Iterable, Iterator, List, Mapping, Sequence, TypeVar, Union, cast

from .exact_hull import Hull, Plane, Point, hull, plane_of
from .fineness import fits
from .frames import Frame, basis, whole
from .pockets import Carving, NotCarved, carved, flat_faces
from .reader import Node
from .tree import DIFFERENCE, UNION, Carved, Dented, Faced, Join, Leaf, Matrix, Sliced, Solid, Vector, direction, joined

#: Coordinates are at most this many grid steps in size.
ROOM = 4095
#: What a design may have at most.
PLANES, SHAPES = 1024, 1024
_MOST_CORNERS, _MOST_FACETS = 128, 64
_LINE = 900


@dataclass(frozen=True)
class Body:
    """A leaf on the grid."""

    hull: Hull
    node: Node


Grid = Union[Body, "Join[Body]"]


@dataclass
class Rounded:
    """What a design comes to on the grid: its tree, and what rounding did."""

    tree: Grid | None = None
    #: How far a corner was moved at most, in OpenSCAD's lengths.
    moved: float = 0.0
    vanished: List[Node] = field(default_factory=list)
    planes: set[Plane] = field(default_factory=set)
    shapes: int = 0
    frames: Mapping[Matrix, Frame] = field(default_factory=dict)


class TooMany(Exception):
    """A design has more planes or shapes than it may have: the word of that fault."""


class TooLong(Exception):
    """A design has a facet that is too long for tiles with origins of their own."""


class Rounder:
    """Rounds designs with at most this many planes, or with any number; hulls that it has taken are known, wherever they stand.

    Where there is no bound, leaves stay whole however many corners they have, since tiles cut them. Where tiles shall have
    origins of their own, TooLong is raised at a leaf for which they have no room.
    """

    def __init__(self, planes: int | None, is_fine: bool = False) -> None:
        self._planes, self._is_fine = planes, is_fine
        self._known: dict[tuple[Point, ...], Hull | None] = {}

    def rounded(self, solid: Solid | None, unit: Fraction, frames: Mapping[Matrix, Frame] | None = None) -> Rounded:
        """A design on a grid of this step, in which turned parts may have frames of their own. Raises TooMany."""
        found = Rounded(frames=frames or {})
        found.tree = self._tree(solid, float(unit), found)
        return found

    def _tree(self, solid: Solid | None, unit: float, found: Rounded) -> Grid | None:
        if solid is None:
            return None
        if isinstance(solid, Carved):
            return self._tree(solid.hull if self._has_lids(solid, unit, found.frames) else solid.pieces, unit, found)
        if isinstance(solid, Dented):
            dented = self._dented(solid, unit, found) if self._planes is None else None
            return dented or self._tree(solid.parts, unit, found)
        if isinstance(solid, Sliced):
            return self._tree(solid.dented if self._planes is None else solid.pieces, unit, found)
        if isinstance(solid, Join):
            return joined(solid.operation, [self._tree(it, unit, found) for it in solid.parts])
        if isinstance(solid, Faced):
            return self._carved(solid, unit, found)
        body = self._hull(placed(solid, unit, found))
        if body is None:
            found.vanished.append(solid.node)
            return None
        return self._bodies(body, solid.node, found)

    def _bodies(self, body: Hull, node: Node, found: Rounded) -> Grid | None:
        """A hull as shapes of a source. Raises TooMany."""
        # (before it is cut, which takes longer, and after which all its planes are there too)
        self._count(body.facets, found)
        parts = [body] if self._planes is None else split(body)
        for it in parts:
            self._check_room(it)
            self._count(it.facets, found)
            found.shapes += 1 if _is_plain(it) else 2
        if self._planes is not None and found.shapes > SHAPES:
            raise TooMany("TooManyParts")
        return joined(UNION, [Body(it, node) for it in parts])

    def _check_room(self, body: Hull) -> None:
        """Raises TooLong."""
        if self._is_fine and not fits(body):
            raise TooLong

    def _count(self, planes: Iterable[Plane], found: Rounded) -> None:
        """Notes planes. Raises TooMany."""
        found.planes.update(map(_either, planes))
        if self._planes is not None and len(found.planes) > self._planes:
            raise TooMany("TooManyPlanes")

    def _carved(self, solid: Faced, unit: float, found: Rounded) -> Grid | None:
        """A polyhedron as hulls without bays. Raises TooMany, and CsgFault where it has no such form."""
        corners = points(solid.leaf, unit, found)
        node = solid.leaf.node
        try:
            faces = list(flat_faces([corners[it] for it in ring] for ring in solid.faces))
            self._count((plane for plane, _ in faces), found)
            carving = carved(faces)
        except NotCarved:
            raise node.fault("NotConvex", "it isn't convex, and can't be cut into convex parts with its own corners") from None
        if carving is None:
            found.vanished.append(node)
            return None
        return self._of_carving(carving, node, found)

    def _of_carving(self, carving: Carving, node: Node, found: Rounded) -> Grid | None:
        if isinstance(carving, Hull):
            return self._bodies(carving, node, found)
        return joined(carving.operation, [self._of_carving(it, node, found) for it in carving.parts])

    def _has_lids(self, solid: Carved, unit: float, frames: Mapping[Matrix, Frame]) -> bool:
        """Whether each lid lies on a side of its hull on the grid: else a thin wall would be left there."""
        for leaf, lid in solid.lids:
            aside = Rounded(frames=frames)
            body = self._hull(placed(leaf, unit, aside))
            corners = placed(Leaf(lid, leaf.frame, leaf.node), unit, aside)
            if body is None or not any(all(a * x + b * y + c * z == d for x, y, z in corners) for a, b, c, d in body.facets):
                return False
        return True

    def _dented(self, solid: Dented, unit: float, found: Rounded) -> Grid | None:
        """A slice as the hull of its corners without dents; None where that isn't exact on this grid."""
        corners = points(solid.leaf, unit, found)
        body = self._hull(set(corners))
        if body is None:
            return None
        size = len(solid.ways)
        self._check_room(body)
        parts: List[Grid | None] = [Body(body, solid.leaf.node)]
        for at, way in enumerate(solid.ways):
            ends = (at, (at + 1) % size, size + at, size + (at + 1) % size)
            side = [corners[it] for it in ends]
            found_ways = [it for it in (way, not way) if all(_is_on(body, _half(side, it, high)) for high in (False, True))]
            if not found_ways:
                return None
            dent = None if way in found_ways or at in solid.filled else self._hull(set(side))
            parts += [] if dent is None else [Body(dent, solid.leaf.node)]
        return joined(DIFFERENCE, parts)

    def _hull(self, corners: set[Point]) -> Hull | None:
        x, y, z = low = min(corners)
        key = tuple(sorted((a - x, b - y, c - z) for a, b, c in corners))
        if key not in self._known:
            self._known[key] = hull(key)
        body = self._known[key]
        return None if body is None else moved_hull(body, low)


def _half(side: Sequence[Point], is_rising: bool, is_high: bool) -> tuple[Point, Point, Point]:
    """The lower or the upper triangle of a side, counterclockwise seen from outside, that is cut along one of its diagonals."""
    p, q, r, s = side
    return ((p, s, r) if is_high else (p, q, s)) if is_rising else (q, s, r) if is_high else (p, q, r)


def _is_on(body: Hull, triangle: tuple[Point, Point, Point]) -> bool:
    """Whether a triangle of corners lies on a facet of a hull, or has no area."""
    plane = plane_of(*triangle)
    return plane is None or plane in body.facets


def moved_hull(body: Hull, by: Point) -> Hull:
    """A hull at another place."""
    x, y, z = by
    facets = {(a, b, c, d + a * x + b * y + c * z): ring for (a, b, c, d), ring in body.facets.items()}
    return Hull([(a + x, b + y, c + z) for a, b, c in body.corners], facets)


def _either(plane: Plane) -> Plane:
    """The one of two opposite planes that stands for both."""
    a, b, c, d = plane
    return plane if (a, b, c) > (0, 0, 0) else (-a, -b, -c, -d)


def placed(leaf: Leaf, unit: float, found: Rounded) -> set[Point]:
    """The different corners of a leaf on the grid."""
    return set(points(leaf, unit, found))


def points(leaf: Leaf, unit: float, found: Rounded) -> List[Point]:
    """The corners of a leaf on the grid, one after the other."""
    corners: List[Point] = []
    farthest = 0.0
    along = None if leaf.frame is None else direction(leaf.frame)
    frame = None if leaf.frame is None or not found.frames else found.frames.get(basis(leaf.frame))
    for place in leaf.corners:
        x, y, z = (it / unit for it in place)
        if frame is not None:
            point = frame.placed(place)
        elif along is None:
            point = (whole(x), whole(y), whole(z))
        else:
            point = _along(along, x, y, z)
        corners.append(point)
        farthest = max(farthest, (point[0] - x) ** 2 + (point[1] - y) ** 2 + (point[2] - z) ** 2)
    found.moved = max(found.moved, math.sqrt(farthest) * unit)
    return corners


def _along(along: Vector, x: float, y: float, z: float) -> Point:
    """A place as the rounded foot on the plane through the origin across a direction, and the rounded way from there."""
    u, v, w = along
    height = x * u + y * v + z * w
    return (
        whole(x - height * u) + whole(height * u),
        whole(y - height * v) + whole(height * v),
        whole(z - height * w) + whole(height * w),
    )


def split(body: Hull) -> List[Hull]:
    """Hulls of few corners whose union is this one.

    It is cut across an axis at levels that no edge goes through, since there corners alone bound the cut. Else its facets are
    dealt out to parts, and each part is the hull of its facets' corners and of one point of all: from that point each other one
    is on the way to a facet.
    """
    if len(body.corners) <= _MOST_CORNERS:
        return [body]
    return _slabs(body) or _cones(body)


def _slabs(body: Hull) -> List[Hull] | None:
    for axis in (2, 1, 0):
        heights = [it[axis] for it in body.corners]
        levels = sorted(set(heights))
        edges = {(heights[u], heights[v]) for ring in body.facets.values() for u, v in zip(ring, [*ring[1:], *ring[:1]])}
        crossed = {it for low, high in edges if low < high for it in levels[bisect(levels, low) : bisect_left(levels, high)]}
        groups = _grouped(levels, [sum(1 for it in heights if it == level) for level in levels], crossed)
        if groups is not None:
            parts = [hull(it for it in body.corners if low <= it[axis] <= high) for low, high in groups]
            return [it for it in parts if it is not None]
    return None


def _grouped(levels: List[int], counts: List[int], crossed: set[int]) -> List[tuple[int, int]] | None:
    """Stretches of levels that begin and end at whole ones, with few corners each; None where there are none."""
    groups, start = [], 0
    while start < len(levels) - 1:
        end = None
        total = counts[start]
        for at in range(start + 1, len(levels)):
            total += counts[at]
            if total > _MOST_CORNERS:
                break
            if levels[at] not in crossed:
                end = at
        if end is None:
            return None
        groups.append((levels[start], levels[end]))
        start = end
    return groups


def _cones(body: Hull) -> List[Hull]:
    count = len(body.corners)
    x, y, z = (sum(it[axis] for it in body.corners) // count for axis in range(3))
    if any(a * x + b * y + c * z > d for a, b, c, d in body.facets):
        x, y, z = body.corners[0]
    groups: List[set[int]] = [set()]
    for ring in sorted(body.facets.values(), key=lambda it: sum(body.corners[at][2] for at in it) / len(it)):
        if len(groups[-1] | set(ring)) >= _MOST_CORNERS:
            groups.append(set())
        groups[-1] |= set(ring)
    parts = [hull([(x, y, z), *(body.corners[at] for at in group)]) for group in groups]
    return [it for it in parts if it is not None]


def _is_plain(body: Hull) -> bool:
    """Whether it is one shape of a source, and no hull of one."""
    return len(body.facets) <= _MOST_FACETS and max(map(len, body.facets.values())) <= _MOST_FACETS


L = TypeVar("L")


def written_grid(tree: Grid) -> Iterator[str]:
    """The lines of the source that has the solid of a design on the grid."""
    return written(tree, lambda it: shape_text(it.hull))


def written(tree: Union[L, Join[L]], text_of: Callable[[L], str]) -> Iterator[str]:
    """The lines of a source of shapes, of which each has a text; deep joins are modules of their own."""
    modules: List[List[str]] = []
    body = list(_written(tree, 0, modules, text_of))
    if any(line.startswith("hull()") for line in [*body, *(it for module in modules for it in module)]):
        yield "F = [[0, 1, 2], [0, 3, 1], [1, 3, 2], [2, 3, 0]];"
    for number, lines in enumerate(modules, 1):
        yield f"module part_{number}() {{"
        yield from lines
        yield "}"
    yield from body


def _written(tree: Union[L, Join[L]], depth: int, modules: List[List[str]], text_of: Callable[[L], str]) -> Iterator[str]:
    if not isinstance(tree, Join):
        yield from _broken(text_of(tree))
        return
    if depth == 24:
        lines = list(_written(cast("Union[L, Join[L]]", tree), 0, modules, text_of))
        modules.append(lines)
        yield f"part_{len(modules)}();"
        return
    yield f"{tree.operation}() {{"
    for it in tree.parts:
        yield from _written(it, depth + 2, modules, text_of)
    yield "}"


def shape_text(body: Hull) -> str:
    """A hull as a shape of a source."""
    low = tuple(min(axis) for axis in zip(*body.corners))
    high = tuple(max(axis) for axis in zip(*body.corners))
    if len(body.corners) == 8 and all(at in (a, b) for it in body.corners for at, a, b in zip(it, low, high)):
        return f"translate({_list(low)}) cube({_list(b - a for a, b in zip(low, high))});"
    prism = _prism(body, low[2], high[2])
    if prism is not None:
        points = ", ".join(_list(body.corners[it][:2]) for it in prism)
        move = f"translate([0, 0, {low[2]}]) " if low[2] else ""
        return f"{move}linear_extrude({high[2] - low[2]}) polygon([{points}]);"
    if _is_plain(body):
        # (clockwise as seen from outside)
        faces = ", ".join(_list(ring[::-1]) for ring in body.facets.values())
        return f"polyhedron([{', '.join(map(_list, body.corners))}], [{faces}]);"
    first = _first_four(body)
    rest = [it for at, it in enumerate(body.corners) if at not in first]
    return hull_text([*(body.corners[it] for it in first), *rest])


def hull_text(points: Iterable[Point]) -> str:
    """The hull of points as a shape of a source: the first three are clockwise seen from outside, the fourth is behind them."""
    return f"hull() polyhedron([{', '.join(map(_list, points))}], F);"


def _prism(body: Hull, low: int, high: int) -> List[int] | None:
    """The lower corners of an upright prism, in order; None where it is none."""
    ring = body.facets.get((0, 0, -1, -low))
    if ring is None or (0, 0, 1, high) not in body.facets or not 3 <= len(ring) <= _MOST_FACETS:
        return None
    if len(body.corners) != 2 * len(ring) or len(body.facets) != len(ring) + 2:
        return None
    return ring[::-1] if all(plane[2] == 0 or plane[:2] == (0, 0) for plane in body.facets) else None


def _first_four(body: Hull) -> List[int]:
    """Four corners whose tetrahedron has the faces F, clockwise as seen from outside."""
    plane, ring = next(iter(body.facets.items()))
    a, b, c, d = plane
    fourth = next(at for at, (x, y, z) in enumerate(body.corners) if a * x + b * y + c * z < d)
    return [ring[0], ring[2], ring[1], fourth]


def _list(numbers: Iterable[int]) -> str:
    return f"[{', '.join(map(str, numbers))}]"


def _broken(line: str) -> Iterator[str]:
    """A line as lines that a source may have."""
    while len(line) > _LINE:
        at = line.rfind(" ", 0, _LINE)
        yield line[:at]
        line = line[at + 1 :]
    yield line

