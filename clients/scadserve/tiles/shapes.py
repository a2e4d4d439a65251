"""The source of a tile: its box, and in it the shapes that leaves of the design come to there.

A small leaf stands as it is. Of another one the hull of two kinds of points does: the corners of the facets that go through
the tile, and the corners of the tile that are in the leaf. Within the tile that hull and the leaf are the same: each corner
of what they have there is a corner of the tile, or it is on a facet that goes through the tile.

Where the grid is so fine that the design has no room on it, a tile has an origin of its own, and leaves are cut off beside it
along the axes along which they are prisms.

A hull has 128 points at most. Where more facets than that meet in one corner, as at the tip of a cone, no tile is small
enough: such a leaf is the union of hulls, each of an inner point and of some of its facets.
"""

from __future__ import annotations

from dataclasses import dataclass
from typing import Iterator, Sequence

from ..openscad.exact_hull import Hull, Plane, Point, cross, dot, hull, less, tetrahedron
from ..openscad.fineness import MOST_AT_CORNER, across
from ..openscad.grid import ROOM, hull_text, moved_hull, shape_text, written
from ..openscad.tree import INTERSECTION, UNION, Join, joined
from .cutting import Box, Convex, Limits, Near, Tile, Tree, block, box_of, either

#: A hull of a source has at most this many points.
MOST_POINTS = 128
# Leaves with so few corners stand as they are, and facets with so few keep all of them.
_FEW_CORNERS, _FEW_OF_RING = 12, 6


class TooMuch(Exception):
    """A tile has more than it may have."""


@dataclass(frozen=True)
class Shape:
    """A shape of a source."""

    text: str


@dataclass(frozen=True)
class TileSource:
    """A tile with the lines of its source, and the planes of the design on which faces of its solid may lie, each one of two
    opposite ones. All is seen from an origin of its own."""

    tile: Tile
    lines: list[bytes]
    planes: set[Plane]
    origin: Point

    def box(self) -> Box:
        """Its box, seen from its origin."""
        a, b, c, x, y, z = self.tile.box
        i, j, k = self.origin
        return a - i, b - j, c - k, x - i, y - j, z - k


def source(tile: Tile, limits: Limits) -> TileSource | None:
    """The source of a tile; None where nothing of the design is in it. Raises TooMuch."""
    shapes = _Shapes(tile, limits)
    tree = shapes.of(tile.tree)
    if tree is None:
        return None
    whole: Shape | Join[Shape] = Join(INTERSECTION, [shapes.of_hull(block(tile.box)), tree])
    origin = tile.origin()
    planes = {(a, b, c, d - dot((a, b, c), origin)) for a, b, c, d in shapes.planes} if any(origin) else shapes.planes
    return TileSource(tile, [it.encode("ascii") for it in written(whole, _text)], planes, origin)


def _text(shape: Shape) -> str:
    return shape.text


class _Shapes:
    """Makes the shapes of a tile, and counts them and their planes."""

    def __init__(self, tile: Tile, limits: Limits) -> None:
        self._box, self._origin, self._limits = tile.box, tile.origin(), limits
        # (where the design has room, leaves are within it)
        self._is_fine = tile.steps > 1
        a, b, c, x, y, z = tile.box
        self._corners = [(i, j, k) for i in (a, x) for j in (b, y) for k in (c, z)]
        self.planes: set[Plane] = set()
        self._count = self._others = 0
        # (hulls whose planes beside those of the design are estimated, and what such planes there are of others)
        self._estimated: list[list[Point]] = []
        self._inner: set[Plane] = set()

    def of(self, tree: Tree) -> Shape | Join[Shape] | None:
        """The shapes of a tree; None where they are nothing. Raises TooMuch."""
        if isinstance(tree, Join):
            return joined(tree.operation, [self.of(it) for it in tree.parts])
        leaf = tree.leaf
        if (len(leaf.hull.corners) <= _FEW_CORNERS or not tree.facets) and not self._is_fine:
            return self._shape(Shape(leaf.text()), leaf.sides(), 0)
        if len(leaf.hull.corners) <= _FEW_CORNERS or not tree.facets:
            whole = self._cut_off(leaf)
            if self._has_room(whole.corners) or not tree.facets:
                return self._shape(self.of_hull(whole), list(map(either, whole.facets)), 0)
        points, triangles = self._points(tree)
        if len(points) <= MOST_POINTS:
            return self._hull(leaf, tree.facets, points, triangles)
        if not leaf.peaks(MOST_AT_CORNER, self._box):
            raise TooMuch
        found = [it for it in leaf_pieces(leaf) if _meet(box_of(it[1]), self._box)]
        return joined(UNION, [self._hull(leaf, *it, sum(len(leaf.rings[at]) - 2 for at in it[0])) for it in found])

    def of_hull(self, body: Hull) -> Shape:
        """A hull as a shape, seen from the origin of the tile. Raises TooMuch where it has no room."""
        if not self._has_room(body.corners):
            raise TooMuch
        x, y, z = self._origin
        return Shape(shape_text(moved_hull(body, (-x, -y, -z)) if any(self._origin) else body))

    def _has_room(self, points: Sequence[Point]) -> bool:
        x, y, z = self._origin
        return not self._is_fine or all(max(abs(a - x), abs(b - y), abs(c - z)) <= ROOM for a, b, c in points)

    def _cut_off(self, leaf: Convex) -> Hull:
        """A leaf, cut off beside the tile along the axes along which it is a prism where that is asked for."""
        axes = leaf.prism_axes() if self._is_fine else []
        if not axes:
            return leaf.hull
        found = hull(self._beside(it, axes) for it in leaf.hull.corners)
        assert found is not None
        return found

    def _beside(self, point: Point, axes: Sequence[int]) -> Point:
        """A corner of a prism along axes, moved along these until it is just beside the tile."""
        low, high = self._box[:3], self._box[3:]
        x, y, z = (max(low[it] - 1, min(high[it] + 1, point[it])) if it in axes else point[it] for it in range(3))
        return x, y, z

    def _shape(self, shape: Shape, planes: Sequence[Plane], others: int) -> Shape:
        """A shape with these planes, each one of two opposite ones, and about this many others, which are counted."""
        self.planes.update(planes)
        self._others += others
        self._count += 1
        if len(self.planes) + self._others > self._limits.planes:
            self._count_planes()
        if len(self.planes) + self._others > self._limits.planes or self._count > self._limits.shapes:
            raise TooMuch
        return shape

    def _count_planes(self) -> None:
        """Counts planes of hulls that were estimated so far: many have them in common."""
        for points in self._estimated:
            found = hull(points)
            self._inner.update(map(either, found.facets if found else ()))
        self._estimated.clear()
        self._others = len(self._inner - self.planes)

    def _hull(self, leaf: Convex, facets: Sequence[int], points: list[Point], triangles: int) -> Shape | None:
        """The hull of points of a leaf, among which those of these facets are, and this many triangles on these; None where it
        is flat."""
        if not self._has_room(points):
            raise TooMuch
        first = _first_four(leaf, facets, points)
        if first is None:
            return None
        sides = leaf.sides()
        planes = [sides[it] for it in facets]
        # (of n points in general position a hull has 2 n - 4 triangles)
        others = max(2 * len(points) - 4 - triangles, 3)
        chosen = [*first, *(it for it in points if it not in first)]
        self._estimated.append(chosen)
        return self._shape(Shape(hull_text([less(it, self._origin) for it in chosen])), planes, others)

    def _points(self, near: Near) -> tuple[list[Point], int]:
        """The points whose hull a leaf is within the tile, and how many triangles there are on its facets."""
        leaf = near.leaf
        corners = leaf.hull.corners
        axes = leaf.prism_axes() if self._is_fine else []
        found: set[int] = set()
        held = [it for it in self._corners if near.holds(it)]
        triangles = 0
        for at in near.facets:
            axis = across(leaf.planes[at]) if self._is_fine or len(leaf.rings[at]) > _FEW_OF_RING else None
            section: list[Point] = []
            if axis is None:
                numbers = _ring_near(leaf, at, self._box)
            else:
                # (what of it is in the tile has corners of edges that are near, and of the tile's section there)
                numbers = _edges_near(leaf, at, self._box)
                place = corners[leaf.rings[at][0]][axis]
                section = [it for it in dict.fromkeys(_at(it, axis, place) for it in self._corners) if near.holds(it)]
                held += section
            found.update(numbers)
            triangles += max(0, len(numbers) + len(section) - 2)
        points = [corners[it] for it in sorted(found)]
        points = [self._beside(it, axes) for it in points] if axes else points
        return list(dict.fromkeys([*points, *held])), triangles


def _at(point: Point, axis: int, place: int) -> Point:
    """A point moved along an axis to a place."""
    x, y, z = (place if it == axis else point[it] for it in range(3))
    return x, y, z


def _meet(one: Box, other: Box) -> bool:
    """Whether two boxes have inner points in common."""
    return all(one[it] < other[it + 3] and other[it] < one[it + 3] for it in range(3))


def _first_four(leaf: Convex, facets: Sequence[int], points: Sequence[Point]) -> list[Point] | None:
    """Four of the points, of which the first three are clockwise seen from outside; None where all points are on one plane."""
    known = set(points)
    for at in facets:
        on = [it for it in (leaf.hull.corners[it] for it in leaf.rings[at]) if it in known][:3]
        if len(on) == 3:
            a, b, c, d = leaf.planes[at]
            fourth = next((it for it in points if a * it[0] + b * it[1] + c * it[2] < d), None)
            return None if fourth is None else [on[0], on[2], on[1], fourth]
    found = tetrahedron(points)
    return None if found is None else [points[found[0]], points[found[2]], points[found[1]], points[found[3]]]


def _edges_near(leaf: Convex, at: int, box: Box) -> Sequence[int]:
    """The corners of those edges of a facet that are near a box."""
    ring = leaf.rings[at]
    corners = leaf.hull.corners
    near = [(p, q) for p, q in zip(ring, [*ring[1:], ring[0]]) if _touch(box_of((corners[p], corners[q])), box)]
    return list(dict.fromkeys(it for edge in near for it in edge))


def _ring_near(leaf: Convex, at: int, box: Box) -> Sequence[int]:
    """Corners of a facet whose hull is all of the facet within a box."""
    ring = leaf.rings[at]
    if len(ring) <= _FEW_OF_RING:
        return ring
    corners = [leaf.hull.corners[it] for it in ring]
    size = len(ring)
    kept = set()
    for one in range(size):
        other = (one + 1) % size
        if _touch(box_of((corners[one], corners[other])), box):
            kept |= {one, other}
    kept |= {0} if kept else {0, size // 3, 2 * size // 3}
    waiting = list(zip(sorted(kept), [*sorted(kept)[1:], min(kept) + size]))
    while waiting:
        start, end = waiting.pop()
        if end - start > 1 and not _is_beside(corners[start], corners[end % size], leaf.planes[at], box):
            middle = (start + end) // 2
            kept.add(middle % size)
            waiting += [(start, middle), (middle, end)]
    return [ring[it] for it in kept]


def _touch(one: Box, other: Box) -> bool:
    """Whether two boxes have a point in common."""
    return all(one[it] <= other[it + 3] and other[it] <= one[it + 3] for it in range(3))


def _is_beside(start: Point, end: Point, plane: Plane, box: Box) -> bool:
    """Whether all of a box is to the left of a way on a plane, seen from ahead of it, or on it."""
    x, y, z = cross(less(end, start), (plane[0], plane[1], plane[2]))
    most = sum(it * (high if it > 0 else low) for it, low, high in zip((x, y, z), box, box[3:]))
    return most <= dot((x, y, z), start)


def leaf_pieces(leaf: Convex) -> Iterator[tuple[list[int], list[Point]]]:
    """Hulls of an inner point and of neighbouring facets whose union a leaf is: the facets and the points of each."""
    corners = leaf.hull.corners
    middle = [sum(axis) // len(corners) for axis in zip(*corners)]
    inner: Point = (middle[0], middle[1], middle[2])
    if not leaf.holds(inner):
        inner = corners[0]
    facets: list[int] = []
    numbers: set[int] = set()
    for at in leaf.in_order():
        for part in _parts(leaf.rings[at]):
            if facets and len(numbers | set(part)) > MOST_AT_CORNER:
                yield facets, _with(inner, [corners[it] for it in sorted(numbers)])
                facets, numbers = [], set()
            facets = [*facets, at] if at not in facets else facets
            numbers |= set(part)
    yield facets, _with(inner, [corners[it] for it in sorted(numbers)])


def _parts(ring: Sequence[int]) -> Iterator[Sequence[int]]:
    """A ring as rings of few corners, which have its first one in common."""
    for at in range(1, len(ring) - 1, MOST_AT_CORNER // 2):
        yield [ring[0], *ring[at : at + MOST_AT_CORNER // 2 + 1]]


def _with(inner: Point, points: list[Point]) -> list[Point]:
    return points if inner in points else [*points, inner]
