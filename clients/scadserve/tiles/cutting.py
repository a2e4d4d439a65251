"""Cuts a design on the grid into tiles: boxes of space in which few facets of it stand, each with what of the design is near.

    for tile in tiles(whole_tree(grid), box, Limits()):
        tile.tree, tile.box

On which side of the design a point of a tile lies depends on the facets alone that go through the tile. So a leaf is handed
down to a part of a tile with the facets that went through the tile itself, and to a leaf none of whose facets goes through it
a tile is FULL or EMPTY. Joins with these fall away.
"""

from __future__ import annotations

from collections import Counter, deque
from dataclasses import dataclass
from enum import Enum
from functools import cached_property
from typing import Iterator, Sequence, Union

from ..openscad.exact_hull import Hull, Plane, Point
from ..openscad.fineness import across, prism_axes
from ..openscad.grid import Grid, shape_text
from ..openscad.reader import Node
from ..openscad.tree import DIFFERENCE, INTERSECTION, UNION, Join

#: The least x, y and z, and the greatest ones, on the grid.
Box = tuple[int, int, int, int, int, int]


class Fill(Enum):
    """What a tile is where no facet goes through it."""

    FULL = "full"
    EMPTY = "empty"


FULL, EMPTY = Fill.FULL, Fill.EMPTY


class Convex:
    """A leaf on the grid by its facets, each with its plane, the numbers of its corners and its box."""

    __slots__ = ("hull", "node", "planes", "rings", "boxes", "box", "_peaks", "_axes", "_twice", "_sides", "_text", "_places")

    def __init__(self, hull: Hull, node: Node) -> None:
        self.hull, self.node = hull, node
        self.planes = list(hull.facets)
        self.rings = list(hull.facets.values())
        self.boxes = [box_of([hull.corners[it] for it in ring]) for ring in self.rings]
        self.box = box_of(hull.corners)
        self._peaks: list[Point] | None = None
        self._axes: list[int] | None = None
        self._twice: Convex | None = None
        self._sides: list[Plane] | None = None
        self._text: str | None = None
        self._places: tuple[dict[int, int], ...] | None = None

    def sides(self) -> list[Plane]:
        """The planes of its facets, each as the one of two opposite ones that stands for both."""
        if self._sides is None:
            self._sides = list(map(either, self.planes))
        return self._sides

    def places(self, axis: int) -> dict[int, int]:
        """The places of the facets that are across an axis, by their numbers."""
        if self._places is None:
            self._places = ({}, {}, {})
            for at, plane in enumerate(self.planes):
                its_axis = across(plane)
                if its_axis is not None:
                    self._places[its_axis][at] = plane[3] * plane[its_axis]
        return self._places[axis]

    def text(self) -> str:
        """It as a shape of a source."""
        if self._text is None:
            self._text = shape_text(self.hull)
        return self._text

    def prism_axes(self) -> list[int]:
        """The axes along which it is a prism."""
        if self._axes is None:
            self._axes = prism_axes(self.hull)
        return self._axes

    def twice(self) -> Convex:
        """The same on a grid that is twice as fine."""
        if self._twice is None:
            corners = [(2 * x, 2 * y, 2 * z) for x, y, z in self.hull.corners]
            facets = {(a, b, c, 2 * d): ring for (a, b, c, d), ring in self.hull.facets.items()}
            self._twice = Convex(Hull(corners, facets), self.node)
        return self._twice

    def peaks(self, most: int, box: Box) -> bool:
        """Whether more facets than this many meet in a corner that is in a box, or at its border."""
        if self._peaks is None:
            counts = Counter(it for ring in self.rings for it in ring)
            self._peaks = [self.hull.corners[it] for it, count in counts.items() if count > most]
        return any(all(low <= it <= high for it, low, high in zip(peak, box, box[3:])) for peak in self._peaks)

    def in_order(self) -> Iterator[int]:
        """The numbers of the facets, so that most have an edge in common with one before."""
        across = {edge: at for at, ring in enumerate(self.rings) for edge in zip(ring, [*ring[1:], ring[0]])}
        seen = [False] * len(self.rings)
        waiting = deque([0])
        while waiting:
            at = waiting.pop()
            if not seen[at]:
                seen[at] = True
                yield at
                ring = self.rings[at]
                waiting += [across[v, u] for u, v in zip(ring, [*ring[1:], ring[0]])]

    def holds(self, point: Sequence[int], times: int = 1) -> bool:
        """Whether a point, whose coordinates are given this many times as large, is in it or on it."""
        x, y, z = point
        return all(a * x + b * y + c * z <= d * times for a, b, c, d in self.planes)


@dataclass(frozen=True)
class Near:
    """What of a leaf counts in a tile: the numbers of its facets that may go through the tile.

    Where a corner of the leaf is inside the tile, these facets alone tell of each point of the tile whether it is in the
    leaf: on the way to a point inside both, a point that is out of the leaf comes ahead of a facet to it, which goes through
    the tile. Where no corner is known there, the leaf may be beside the tile, and all its facets are asked.
    """

    leaf: Convex
    facets: Sequence[int]
    tile: Box | None = None

    @cached_property
    def has_corner(self) -> bool:
        """Whether a corner of the leaf is known to be inside the tile; there is one where that is no tile, but all of space."""
        corners, rings = self.leaf.hull.corners, self.leaf.rings
        return self.tile is None or any(_is_inside(corners[it], self.tile) for at in self.facets for it in rings[at])

    def holds(self, point: Point, times: int = 1) -> bool:
        """Whether a point of the tile, whose coordinates are given this many times as large, is in the leaf or on it."""
        x, y, z = point
        planes = self.leaf.planes
        for at in self.facets:
            a, b, c, d = planes[at]
            if a * x + b * y + c * z > d * times:
                return False
        return self.has_corner or self.leaf.holds(point, times)


Tree = Union[Near, "Join[Near]"]


@dataclass(frozen=True)
class Tile:
    """A box, and what of a design counts in it. Its grid has a number of steps to a unit of the design, and may be one that was
    made twice as fine for its walls."""

    box: Box
    tree: Tree
    steps: int = 1
    is_halved: bool = False

    def origin(self) -> Point:
        """Where its own origin is, so that what is near has room: the design's, where all of that has."""
        if self.steps == 1:
            return (0, 0, 0)
        a, b, c, x, y, z = self.box
        return (a + x) // 2, (b + y) // 2, (c + z) // 2

    def with_half_steps(self) -> Tile:
        """The same on a grid that is twice as fine."""
        return Tile(_twice_as_large(self.box), _twice(self.tree), 2 * self.steps, True)


@dataclass(frozen=True)
class Limits:
    """What a tile may have at most: different planes, facets in all, and shapes."""

    planes: int = 300
    facets: int = 1200
    shapes: int = 240


def _twice(tree: Tree) -> Tree:
    if isinstance(tree, Join):
        return Join(tree.operation, [_twice(it) for it in tree.parts])
    return Near(tree.leaf.twice(), tree.facets, None if tree.tile is None else _twice_as_large(tree.tile))


def _twice_as_large(box: Box) -> Box:
    a, b, c, x, y, z = box
    return 2 * a, 2 * b, 2 * c, 2 * x, 2 * y, 2 * z


def box_of(points: Sequence[Point]) -> Box:
    """The box around points."""
    xs, ys, zs = zip(*points)
    return min(xs), min(ys), min(zs), max(xs), max(ys), max(zs)


def whole_tree(grid: Grid) -> Tree:
    """A design with all its facets."""
    if isinstance(grid, Join):
        return Join(grid.operation, [whole_tree(it) for it in grid.parts])
    leaf = Convex(grid.hull, grid.node)
    return Near(leaf, range(len(leaf.planes)))


def near_leaves(tree: Tree) -> Iterator[Near]:
    """The leaves from left to right."""
    waiting = [tree]
    while waiting:
        it = waiting.pop()
        if isinstance(it, Join):
            waiting += reversed(it.parts)
        else:
            yield it


def whole_box(tree: Tree) -> Box:
    """A box around a design, on none of whose sides a facet stands."""
    boxes = [it.leaf.box for it in near_leaves(tree)]
    low = [min(it[axis] for it in boxes) - 1 for axis in range(3)]
    high = [max(it[axis] for it in boxes) + 1 for axis in range(3, 6)]
    return (low[0], low[1], low[2], high[0], high[1], high[2])


def within(tree: Tree, box: Box) -> Tree | Fill:
    """What of a tree counts in a box that lies in its own."""
    if isinstance(tree, Join):
        return rejoined(tree.operation, [within(it, box) for it in tree.parts], box, tree)
    return _near(tree, box)


def rejoined(operation: str, parts: Sequence[Tree | Fill], box: Box, whole: Tree) -> Tree | Fill:
    """The join of what parts are in a box, which are those of a whole one."""
    if operation == UNION:
        if FULL in parts:
            return FULL
        return _join(UNION, [it for it in parts if not isinstance(it, Fill)], EMPTY)
    if operation == INTERSECTION:
        if EMPTY in parts:
            return EMPTY
        return _join(INTERSECTION, [it for it in parts if not isinstance(it, Fill)], FULL)
    first, rest = parts[0], [it for it in parts[1:] if it is not EMPTY]
    if first is EMPTY or FULL in rest:
        return EMPTY
    taken = [it for it in rest if not isinstance(it, Fill)]
    if isinstance(first, Fill):
        if not taken:
            return FULL
        first = _filled(box, next(near_leaves(whole)).leaf.node)
    return first if not taken else Join(DIFFERENCE, [first, taken[0] if len(taken) == 1 else Join(UNION, taken)])


def _join(operation: str, parts: list[Tree], nothing: Fill) -> Tree | Fill:
    if not parts:
        return nothing
    return parts[0] if len(parts) == 1 else Join(operation, parts)


def _filled(box: Box, node: Node) -> Near:
    """A leaf that fills a box: none of its facets goes through it."""
    return Near(Convex(block(box), node), (), box)


def block(box: Box) -> Hull:
    """A box as a hull."""
    a, b, c, x, y, z = box
    corners = [(i, j, k) for i in (a, x) for j in (b, y) for k in (c, z)]
    facets = {
        (-1, 0, 0, -a): [0, 1, 3, 2], (1, 0, 0, x): [4, 6, 7, 5], (0, -1, 0, -b): [0, 4, 5, 1],
        (0, 1, 0, y): [2, 3, 7, 6], (0, 0, -1, -c): [0, 2, 6, 4], (0, 0, 1, z): [1, 5, 7, 3],
    }  # fmt: skip
    return Hull(corners, facets)


def _near(near: Near, box: Box) -> Near | Fill:
    """What of a leaf counts in a box."""
    lx, ly, lz, hx, hy, hz = box
    leaf = near.leaf
    a, b, c, x, y, z = leaf.box
    if a >= hx or b >= hy or c >= hz or x <= lx or y <= ly or z <= lz:
        return EMPTY
    sx, sy, sz, ex, ey, ez = lx + hx, ly + hy, lz + hz, hx - lx, hy - ly, hz - lz
    boxes, planes = leaf.boxes, leaf.planes
    found = []
    for at in near.facets:
        a, b, c, x, y, z = boxes[at]
        if a >= hx or b >= hy or c >= hz or x <= lx or y <= ly or z <= lz:
            continue
        p, q, r, d = planes[at]
        # (how far the middle of the box is ahead, and how far the box goes to both sides of its middle, twice)
        ahead = p * sx + q * sy + r * sz - 2 * d
        beside = abs(p) * ex + abs(q) * ey + abs(r) * ez
        if ahead >= beside:
            return EMPTY
        if ahead > -beside:
            found.append(at)
    if found:
        return Near(leaf, found, box)
    # (no facet goes through the box, so all of it is on the side of its middle)
    return FULL if near.holds((sx, sy, sz), 2) else EMPTY


def _is_inside(point: Point, box: Box) -> bool:
    """Whether a point is in a box and not at its border."""
    x, y, z = point
    return box[0] < x < box[3] and box[1] < y < box[4] and box[2] < z < box[5]


def halved(tile: Tile) -> list[Tile] | None:
    """The two parts of a tile, of which those are left out through which no facet goes and that are empty; None where there is
    no wall between two parts on which no facet stands."""
    box = tile.box
    for axis in sorted(range(3), key=lambda it: box[it] - box[it + 3]):
        wall = _wall(tile, axis)
        if wall is not None:
            low, high = list(box), list(box)
            low[axis + 3] = high[axis] = wall
            found = []
            for half in (low, high):
                part: Box = (half[0], half[1], half[2], half[3], half[4], half[5])
                tree = within(tile.tree, part)
                if not isinstance(tree, Fill):
                    found.append(Tile(part, tree, tile.steps, tile.is_halved))
            return found
    return None


def _wall(tile: Tile, axis: int) -> int | None:
    """The place nearest to the middle of a tile where it can be cut across an axis."""
    taken: set[int] = set()
    for it in near_leaves(tile.tree):
        places = it.leaf.places(axis)
        if places:
            taken.update(places[at] for at in it.facets if at in places)
    low, high = tile.box[axis], tile.box[axis + 3]
    middle = (low + high) // 2
    for away in range((high - low) // 2 + 1):
        for place in (middle - away, middle + away):
            if low < place < high and place not in taken:
                return place
    return None


def planes_of(tile: Tile) -> int:
    """On how many different planes the facets are that go through a tile."""
    planes: set[Plane] = set()
    for it in near_leaves(tile.tree):
        sides = it.leaf.sides()
        planes.update(sides[at] for at in it.facets)
    return len(planes)


def count_of(tile: Tile, most: int) -> tuple[int, int]:
    """How many facets go through a tile, counted up to about this many, and how many leaves it has."""
    facets = leaves = 0
    for it in near_leaves(tile.tree):
        facets += len(it.facets)
        leaves += 1
        if facets > most:
            break
    return facets, leaves


def either(plane: Plane) -> Plane:
    """The one of two opposite planes that stands for both."""
    a, b, c, d = plane
    return plane if (a, b, c) > (0, 0, 0) else (-a, -b, -c, -d)
