"""Whether points are inside the solid of a 4OFF text: by how often a way out of it crosses the faces, exactly.

A way from a to b crosses a face where a and b are strictly on the two sides of its plane, and the way passes strictly on the
inner side of each edge: 1 from behind to ahead, -1 back. By the law `crossings_tell_inside` of crates/ray_crossings the sum
over all faces is 1 where a is inside and b outside, if both are off all face planes and the way touches no edge of a face. That
is tested here on the faces, and another way is tried where it fails. Where the point itself is on planes of faces, the way
begins a little further on, before it meets any face.

A plane of the source that has no face can't be seen on the text. What is said about a point that is on no face holds for all
points near by that are on no such plane.
"""

from __future__ import annotations

from fractions import Fraction
from itertools import count
from math import lcm
from random import Random
from typing import Sequence

from .fouroff import Boundary, Corner, Plane
from .measures import box

IN, OUT, ON = "in", "out", "on"
# Ways out end so far beyond the solid, which is still inside the world box.
_BEYOND = Fraction(1, 4)


class NoBoundary(ValueError):
    """The faces are no boundary: the sum of the crossings of a way out is neither 0 nor 1."""


class Crossings:
    """The faces of a boundary, for ways through them."""

    def __init__(self, boundary: Boundary) -> None:
        self._rings = [[boundary.corners[at] for at in face] for face in boundary.faces]
        self._faces = list(zip(boundary.planes, self._rings))
        self._box = box(boundary) if boundary.faces else []

    def place(self, point: Sequence[Fraction | int]) -> str:
        """Whether a point, in units, is in the solid, out of it, or on a face. Raises NoBoundary."""
        at = [Fraction(it) for it in point]
        if not self._box or any(not low <= it <= high for it, (low, high) in zip(at, self._box)):
            return OUT
        start = _corner(at)
        if any(_is_on(plane, ring, start) for plane, ring in self._faces):
            return ON
        chance = Random(70)
        for attempt in count(1):
            crossed = self.crossed(start, self._end(chance, attempt))
            if crossed is not None:
                break
        if crossed not in (0, 1):
            raise NoBoundary(f"a way out from there crosses the faces {crossed} times more from inside than from outside")
        return IN if crossed else OUT

    def _end(self, chance: Random, attempt: int) -> Corner:
        """A point above the solid, by chance, of more places at each attempt."""
        parts = 1009**attempt
        x, y = (low + (high - low) * Fraction(chance.randrange(1, parts), parts) for low, high in self._box[:2])
        return _corner([x, y, self._box[2][1] + _BEYOND])

    def crossed(self, start: Corner, end: Corner) -> int | None:
        """The sum of the crossings of the way from a point on no face; None where it touches an edge, or ends on a face's
        plane."""
        sum_of = 0
        direction = tuple(start[3] * end[i] - end[3] * start[i] for i in range(3))
        for plane, ring in self._faces:
            first, last = _value(plane, start), _value(plane, end)
            if last == 0:
                return None
            if first == 0 or (first < 0) == (last < 0):
                continue
            sign = 1 if first < 0 else -1
            turns = [sign * _turn(direction, p, q, start) for p, q in zip(ring, ring[1:] + ring[:1])]
            least = min(turns)
            if least == 0:
                return None
            sum_of += sign if least > 0 else 0
        return sum_of


def _corner(point: Sequence[Fraction]) -> Corner:
    """A point of fractions by whole numbers."""
    below = lcm(*(it.denominator for it in point))
    x, y, z = (it.numerator * (below // it.denominator) for it in point)
    return (x, y, z, below)


def _value(plane: Plane, p: Corner) -> int:
    """Below 0 behind the plane, 0 on it, and above 0 ahead of it."""
    return plane[0] * p[0] + plane[1] * p[1] + plane[2] * p[2] - plane[3] * p[3]


def _turn(n: Sequence[int], p: Corner, q: Corner, r: Corner) -> int:
    """Above 0 where the way from p over q to r turns left, seen from ahead of the direction n."""

    def product(p: Corner, q: Corner) -> int:
        return n[0] * (p[1] * q[2] - p[2] * q[1]) + n[1] * (p[2] * q[0] - p[0] * q[2]) + n[2] * (p[0] * q[1] - p[1] * q[0])

    return p[3] * product(q, r) + q[3] * product(r, p) + r[3] * product(p, q)


def _is_on(plane: Plane, ring: Sequence[Corner], p: Corner) -> bool:
    """Whether a point is on a face, at its border too."""
    return _value(plane, p) == 0 and all(_turn(plane, ring[at - 1], ring[at], p) >= 0 for at in range(len(ring)))
