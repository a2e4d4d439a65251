"""Puts the solids of tiles together: one closed surface, without the walls between them.

    part = part_of(fouroff.read(text), tile_box)
    whole = glued([part, ..])

What a tile prints on the planes of its walls is wall, since no facet of the design lies there. The other faces are a part of
the boundary of the whole, whose border lies on walls. There each edge meets the edges of other tiles along its line: corners
that end some of these are put into it, and then each is paired with one that goes the other way. If one is left over, the
solids are none of one design, and are refused. Faces of one plane on both sides of a wall are cut anew together.
"""

from __future__ import annotations

import gc
from dataclasses import dataclass
from math import gcd
from typing import AbstractSet, Iterable, Sequence

from ..openscad.exact_hull import Point, dot
from ..solid import closing
from ..solid.closing import ears
from ..solid.fouroff import Boundary, Corner, Plane, flatten, plane_of
from ..solid.merging import merged
from ..solid.surface import NO_SIDE, NotClosed, Side, Surface, next_side, nodes_of, pair, surface_of
from .cutting import Box, either


@dataclass(frozen=True)
class Part:
    """The part of a boundary in a tile, as triangles: the corner at which each side begins, its twin, and each plane."""

    corners: list[Corner]
    starts: list[int]
    twins: list[Side]
    planes: list[Plane]

    def moved(self, by: Point, steps: int) -> Part:
        """The same in units, of which each has this many steps, at its place from the design's origin."""
        if steps == 1 and by == (0, 0, 0):
            return self
        x, y, z = by
        corners = [_reduced(a + x * d, b + y * d, c + z * d, d * steps) for a, b, c, d in self.corners]
        known = {it: _reduced(it[0] * steps, it[1] * steps, it[2] * steps, it[3] + dot(it[:3], by)) for it in set(self.planes)}
        return Part(corners, self.starts, self.twins, [known[it] for it in self.planes])


def _reduced(a: int, b: int, c: int, d: int) -> tuple[int, int, int, int]:
    divisor = gcd(a, b, c, d)
    return a // divisor, b // divisor, c // divisor, d // divisor


class NotOfTile(ValueError):
    """A solid isn't that of a tile: why not."""


def part_of(corners: Sequence[Corner], faces: Sequence[tuple[int, ...]], box: Box, planes: AbstractSet[Plane]) -> Part:
    """What of the boundary of a tile's solid is that of the whole, which lies on these planes, of which each is one of two
    opposite ones.

    Raises NotOfTile where the solid isn't in the box, lies on other planes, or isn't closed within the tile.
    """
    walls = [_walls_of(it, box) for it in corners]
    inner = Boundary(list(corners), [it for it in faces if not _common(walls, it)], [])
    for face in inner.faces:
        plane = plane_of(corners[face[0]], corners[face[1]], corners[face[2]])
        if plane is None or either(plane) not in planes:
            raise NotOfTile("a face of it lies on a plane that no shape of its tile has")
        inner.planes.append(plane)
    try:
        surface = merged(surface_of(inner, closing.close(inner), is_part=True))
    except NotClosed as fault:
        raise NotOfTile(str(fault)) from None
    starts = [surface.places[it] for it in surface.starts]
    for side, twin in enumerate(surface.twins):
        if twin == NO_SIDE and not walls[starts[side]] & walls[starts[next_side(side)]]:
            raise NotOfTile("it is not closed: a face ends within the tile")
    numbers: dict[int, int] = {}
    starts = [numbers.setdefault(it, len(numbers)) for it in starts]
    return Part([corners[it] for it in numbers], starts, surface.twins, surface.planes)


def _walls_of(corner: Corner, box: Box) -> int:
    """On which walls of a tile a corner is, one bit for each. Raises NotOfTile where it is outside of them."""
    x, y, z, w = corner
    found = 0
    for axis, place in enumerate((x, y, z)):
        low, high = box[axis] * w, box[axis + 3] * w
        if not low <= place <= high:
            raise NotOfTile("a corner of it is outside of its tile")
        found |= (place == low) << axis | (place == high) << axis + 3
    return found


def _common(walls: Sequence[int], face: Sequence[int]) -> int:
    """The wall on which all corners of a face are; 0 where there is none."""
    found = walls[face[0]]
    for it in face[1:]:
        found &= walls[it]
    return found


def glued(parts: Iterable[Part]) -> Surface:
    """The closed surface of parts. Raises NotClosed where these don't fit one another."""
    # (nothing here refers to itself, and a search for such things would walk over all corners again and again)
    was_searching = gc.isenabled()
    gc.disable()
    try:
        whole = _Gluing()
        for it in parts:
            whole.add(it)
        return whole.closed()
    finally:
        if was_searching:
            gc.enable()


class _Gluing:
    """A surface that grows by parts."""

    def __init__(self) -> None:
        self._numbers: dict[Corner, int] = {}
        self._starts: list[int] = []
        self._twins: list[Side] = []
        self._planes: list[Plane] = []

    def add(self, part: Part) -> None:
        """Adds a part, which is paired with no other one yet."""
        first = len(self._starts)
        numbers = [self._numbers.setdefault(it, len(self._numbers)) for it in part.corners]
        self._starts += [numbers[it] for it in part.starts]
        self._twins += [it if it == NO_SIDE else it + first for it in part.twins]
        self._planes += part.planes

    def closed(self) -> Surface:
        """The surface, with the borders of parts paired, and cut anew there. Raises NotClosed."""
        corners = list(self._numbers)
        border = [side for side, twin in enumerate(self._twins) if twin == NO_SIDE]
        self._cut(corners, border)
        rims: dict[tuple[int, int], list[Side]] = {}
        on_walls = set()
        for side, twin in enumerate(self._twins):
            if twin == NO_SIDE:
                p, q = self._starts[side], self._starts[next_side(side)]
                rims.setdefault((min(p, q), max(p, q)), []).append(side)
                on_walls |= {p, q}
        unpaired = pair(corners, rims, self._starts, self._twins, self._planes)
        if unpaired:
            raise NotClosed(f"not closed: {unpaired} edges between tiles do not occur equally often in both directions")
        nodes, places = nodes_of(self._starts, self._twins)
        surface = Surface(corners, places, nodes, self._twins, self._planes)
        return merged(surface, [node for node, place in enumerate(places) if place in on_walls])

    def _cut(self, corners: Sequence[Corner], border: Sequence[Side]) -> None:
        """Cuts triangles at the border anew, so that no corner of another one is inside an edge there."""
        inside = closing.corners_inside([(self._starts[it], self._starts[next_side(it)]) for it in border], corners)
        cut = {side: found for side, found in zip(border, inside) if found}
        for triangle in sorted({it // 3 for it in cut}):
            self._cut_triangle(triangle, cut, corners)

    def _cut_triangle(self, triangle: int, cut: dict[Side, list[int]], corners: Sequence[Corner]) -> None:
        """Cuts a triangle, into some of whose sides corners are put."""
        ring: list[int] = []
        outer: list[Side] = []
        for side in range(3 * triangle, 3 * triangle + 3):
            more = cut.get(side, [])
            ring += [self._starts[side], *more]
            outer += [self._twins[side], *[NO_SIDE] * len(more)]
        plane = self._planes[triangle]
        size = len(ring)
        known = {(at, (at + 1) % size): twin for at, twin in enumerate(outer)}
        for number, ear in enumerate(ears(flatten([corners[it] for it in ring], plane))):
            at = triangle if number == 0 else len(self._planes)
            if number:
                self._planes.append(plane)
                self._starts += [0, 0, 0]
                self._twins += [NO_SIDE] * 3
            for side, (one, other) in enumerate(closing.edges(ear), 3 * at):
                self._starts[side] = ring[one]
                twin = known.pop((one, other), None)
                if twin is None:
                    known[other, one] = side
                    continue
                self._twins[side] = twin
                if twin != NO_SIDE:
                    self._twins[twin] = side
