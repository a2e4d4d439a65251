"""Slices of extrusions that turn or are scaled on the way, with the sides that OpenSCAD gives them.

Between two places of a convex outline each side has four corners, which are on no plane. OpenSCAD cuts it into two triangles,
along the shorter of its diagonals. Where all sides bulge so, the slice is the hull of its corners; else it is less. """

from __future__ import annotations

import math
from typing import Sequence

from .polyhedron import Parts, Surface, seen
from .reader import CsgFault, Node
from .tree import Vector

# Diagonals that differ by less are of one length, in their own size; so is what is on a plane.
_SAME = 1e-5
_FLAT = 1e-6


class Slice:
    """A slice between two places of a convex outline, counterclockwise as seen from above."""

    def __init__(self, below: Sequence[Vector], above: Sequence[Vector], rising: Sequence[bool]) -> None:
        """With each side's diagonal: whether it goes up along the outline, from the corner where the side begins."""
        self.below, self.above, self.rising = below, above, rising
        self._size = max(abs(number) for it in (*below, *above) for number in it)

    def is_hull(self) -> bool:
        """Whether it is the hull of its corners."""
        for at in range(len(self.below)):
            p, q, r, s = self._side(at)
            beside = (p, s, r) if self.rising[at] else (p, q, r)
            before = self.below[at - 1] if self.rising[at - 1] else self.above[at - 1]
            if self._is_hollow(at) or self._is_ahead(beside, before):
                return False
        return True

    def hollow(self, sides: Sequence[int]) -> Slice:
        """The same with the hollow one of two ways to cut each of these sides."""
        ways = list(self.rising)
        for at in sides:
            ways[at] = ways[at] == self._is_hollow(at)
        return Slice(self.below, self.above, ways)

    def _side(self, at: int) -> tuple[Vector, Vector, Vector, Vector]:
        """The lower corners of a side and those above them."""
        behind = (at + 1) % len(self.below)
        return self.below[at], self.below[behind], self.above[at], self.above[behind]

    def _is_hollow(self, at: int) -> bool:
        p, q, r, s = self._side(at)
        return self._is_ahead((p, q, s), r) if self.rising[at] else self._is_ahead((p, q, r), s)

    def hull_off(self) -> float:
        """How far the hull of its corners goes past it at most: half way up, and what two ways to cut a side differ by."""
        rings = (self.below, self.above, [_middle(p, q) for p, q in zip(self.below, self.above)])
        most = 0.0
        for ring in rings:
            for p, q in zip(ring, [*ring[1:], *ring[:1]]):
                length = math.hypot(q[0] - p[0], q[1] - p[1])
                if length:
                    x, y = (q[1] - p[1]) / length, (p[0] - q[0]) / length
                    low, high, middle = (max(x * it[0] + y * it[1] for it in other) for other in rings)
                    most = max(most, (low + high) / 2 - middle)
        return most + self.sides_off()

    def sides_off(self) -> float:
        """How far the middles of two diagonals of a side are from one another at most."""
        pairs = list(zip(self.below, self.above))
        sides = zip(pairs, [*pairs[1:], *pairs[:1]])
        return max(math.hypot(p[0] - q[0] - r[0] + s[0], p[1] - q[1] - r[1] + s[1]) / 2 for (p, r), (q, s) in sides)

    def parts(self, node: Node) -> Parts | None:
        """What makes the corners of convex parts of it; None where there are none without more corners than one."""
        size = len(self.below)
        faces = [list(range(size)), list(range(2 * size - 1, size - 1, -1))]
        for p in range(size):
            q = (p + 1) % size
            r, s = p + size, q + size
            faces += [[s, q, p], [r, s, p]] if self.rising[p] else [[r, q, p], [r, s, q]]
        # (as high as it is wide, so that a flat one has an inside too)
        wide = max(max(axis) - min(axis) for axis in zip(*((x, y) for x, y, _ in (*self.below, *self.above))))
        low, high = self.below[0][2], self.above[0][2]
        factor = wide / (high - low)
        try:
            found = seen(node, [(x, y, (z - low) * factor) for x, y, z in (*self.below, *self.above)], faces)
        except CsgFault:
            return None
        if isinstance(found, Surface):
            return None
        make = found
        return lambda: [[(x, y, z / factor + low) for x, y, z in part] for part in make()]

    def placed_parts(self, node: Node) -> list[list[Vector]]:
        """The corners of convex parts of it. Raises CsgFault where there are none."""
        make = self.parts(node)
        if make is None:
            raise node.fault("NotConvex", "a slice of it has hollow sides, and can't be cut into convex parts")
        return make()

    def _is_ahead(self, triangle: Sequence[Vector], point: Vector) -> bool:
        """Whether a point is ahead of a triangle, counterclockwise from outside, by more than digits leave open."""
        (ax, ay, az), (bx, by, bz), (cx, cy, cz) = triangle
        ux, uy, uz, vx, vy, vz = bx - ax, by - ay, bz - az, cx - ax, cy - ay, cz - az
        x, y, z = uy * vz - uz * vy, uz * vx - ux * vz, ux * vy - uy * vx
        height = x * (point[0] - ax) + y * (point[1] - ay) + z * (point[2] - az)
        return height > _FLAT * self._size * math.sqrt(x * x + y * y + z * z)


def rising(below: Sequence[Vector], above: Sequence[Vector], turns_right: bool, has_no_area: bool) -> list[bool]:
    """Whether OpenSCAD cuts each side along the diagonal that goes up along the outline: the shorter one, of two that are as
    long that against the turn, and the other one at an end without an area."""
    found = []
    for p, q, r, s in zip(below, [*below[1:], *below[:1]], above, [*above[1:], *above[:1]]):
        up, down = math.hypot(p[0] - s[0], p[1] - s[1]), math.hypot(q[0] - r[0], q[1] - r[1])
        is_same = abs(up - down) * 2 / _SAME <= up + down
        found.append((turns_right if is_same else up < down) != has_no_area)
    return found


def _middle(p: Vector, q: Vector) -> Vector:
    return (p[0] + q[0]) / 2, (p[1] + q[1]) / 2, (p[2] + q[2]) / 2
