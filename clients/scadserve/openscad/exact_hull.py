"""The convex hull of points in space with whole coordinates, exactly: its corners, its facets and their planes.

The method is quickhull (Barber, Dobkin and Huhdanpaa): from a tetrahedron on, the point that is farthest ahead of a triangle
is added, and the triangles that it sees are replaced by those from it to their horizon. In whole numbers nothing is in doubt:
a point on the plane of a triangle isn't ahead of it. At the end triangles on one plane make a facet.
"""

from __future__ import annotations

from dataclasses import dataclass
from math import gcd
from typing import Iterable, Sequence

from . import convex_pieces

#: A point with whole coordinates.
Point = tuple[int, int, int]
#: The plane ax + by + cz = d as a, b, c and d without a common factor; (a, b, c) points out of the hull.
Plane = tuple[int, int, int, int]


@dataclass(frozen=True)
class Hull:
    """Corners in ascending order, and the facets by their planes: the numbers of the corners, counterclockwise from outside."""

    corners: list[Point]
    facets: dict[Plane, list[int]]


class _Triangle:
    """A triangle of the hull so far, with the plane it looks away from, and the points ahead of it."""

    __slots__ = ("ring", "plane", "ahead", "is_there")

    def __init__(self, points: Sequence[Point], ring: tuple[int, int, int]) -> None:
        (ax, ay, az), (bx, by, bz), (cx, cy, cz) = points[ring[0]], points[ring[1]], points[ring[2]]
        ux, uy, uz, vx, vy, vz = bx - ax, by - ay, bz - az, cx - ax, cy - ay, cz - az
        x, y, z = uy * vz - uz * vy, uz * vx - ux * vz, ux * vy - uy * vx
        self.ring = ring
        self.plane = (x, y, z, x * ax + y * ay + z * az)
        self.ahead: list[int] = []
        self.is_there = True

    def height(self, point: Point) -> int:
        """How far a point is ahead of the plane, in no unit: above 0 where it is."""
        x, y, z, d = self.plane
        return x * point[0] + y * point[1] + z * point[2] - d


class _Growing:
    """A hull that grows by points."""

    def __init__(self, points: Sequence[Point], first: tuple[int, int, int, int]) -> None:
        self._points = points
        self._at: dict[tuple[int, int], _Triangle] = {}
        a, b, c, d = first
        made = [self._add(ring) for ring in ((a, b, c), (a, d, b), (b, d, c), (c, d, a))]
        self._share(made, (it for it in range(len(points)) if it not in first))
        self._waiting = [it for it in made if it.ahead]

    def _add(self, ring: tuple[int, int, int]) -> _Triangle:
        made = _Triangle(self._points, ring)
        a, b, c = ring
        self._at[a, b] = self._at[b, c] = self._at[c, a] = made
        return made

    def _share(self, made: Sequence[_Triangle], numbers: Iterable[int]) -> None:
        """Gives each point to the first triangle that it is ahead of; it is inside where there is none."""
        planes = [(*it.plane, it.ahead) for it in made]
        for number in numbers:
            px, py, pz = self._points[number]
            for x, y, z, d, ahead in planes:
                if x * px + y * py + z * pz > d:
                    ahead.append(number)
                    break

    def grow(self) -> list[_Triangle]:
        """The triangles once no point is ahead of any."""
        while self._waiting:
            triangle = self._waiting.pop()
            if not triangle.is_there:
                continue
            farthest = max(triangle.ahead, key=lambda it: triangle.height(self._points[it]))
            seen, horizon = self._seen(triangle, self._points[farthest])
            for it in seen:
                it.is_there = False
            made = [self._add((u, v, farthest)) for u, v in horizon]
            self._share(made, (number for it in seen for number in it.ahead if number != farthest))
            self._waiting += [it for it in made if it.ahead]
        return list({id(it): it for it in self._at.values() if it.is_there}.values())

    def _seen(self, first: _Triangle, point: Point) -> tuple[list[_Triangle], list[tuple[int, int]]]:
        """The triangles that a point sees, of which this is one, and the ways along their common edge."""
        seen, horizon, known = [first], [], {id(first): True}
        for triangle in seen:
            a, b, c = triangle.ring
            for u, v in ((a, b), (b, c), (c, a)):
                other = self._at[v, u]
                sees = known.get(id(other))
                if sees is None:
                    sees = known[id(other)] = other.height(point) > 0
                    if sees:
                        seen.append(other)
                if not sees:
                    horizon.append((u, v))
        return seen, horizon


def hull(points: Iterable[Point]) -> Hull | None:
    """The hull of points; None where all of them lie on one plane."""
    different = sorted(set(points))
    for axis in range(3):
        ends = {it[axis] for it in different}
        if len(ends) == 2:
            seen = [{(it[(axis + 1) % 3], it[(axis + 2) % 3]) for it in different if it[axis] == end} for end in sorted(ends)]
            if seen[0] == seen[1]:
                return _prism(convex_pieces.hull(seen[0]), sorted(ends), axis)
    first = tetrahedron(different)
    if first is None:
        return None
    return _with_facets(different, _Growing(different, first).grow())


def _prism(ring: Sequence[tuple[int, int]], ends: Sequence[int], axis: int) -> Hull | None:
    """The hull of a polygon, counterclockwise, moved along an axis."""
    if len(ring) < 3:
        return None

    def turned(along: int, second: int, third: int) -> Point:
        back = (along, second, third)
        return back[-axis % 3], back[(1 - axis) % 3], back[(2 - axis) % 3]

    both = [turned(end, *it) for end in ends for it in ring]
    corners = sorted(both)
    names = {it: number for number, it in enumerate(corners)}
    numbers = [names[it] for it in both]
    size = len(ring)
    facets: dict[Plane, list[int]] = {
        (*turned(-1, 0, 0), -ends[0]): numbers[size - 1 :: -1],
        (*turned(1, 0, 0), ends[1]): numbers[size:],
    }
    for at, (p, q) in enumerate(zip(ring, [*ring[1:], *ring[:1]])):
        u, v = q[1] - p[1], p[0] - q[0]
        divisor = gcd(u, v)
        u, v = u // divisor, v // divisor
        behind = (at + 1) % size
        facets[(*turned(0, u, v), u * p[0] + v * p[1])] = [numbers[it] for it in (at, behind, size + behind, size + at)]
    return Hull(corners, facets)


def tetrahedron(points: Sequence[Point]) -> tuple[int, int, int, int] | None:
    """Four points that are not on one plane, the first three counterclockwise seen from outside; None where there are none."""
    if len(points) < 4:
        return None
    base = points[0]
    ways = [less(it, base) for it in points]
    second = _of_greatest(list(map(_square, ways)))
    along = ways[second]
    third = _of_greatest([_square(cross(along, it)) for it in ways])
    normal = cross(along, ways[third])
    heights = [dot(normal, it) for it in ways]
    fourth = _of_greatest([abs(it) for it in heights])
    if heights[fourth] == 0:
        return None
    return (0, second, third, fourth) if heights[fourth] < 0 else (0, third, second, fourth)


def _of_greatest(numbers: list[int]) -> int:
    """The place of the first of the greatest numbers."""
    return numbers.index(max(numbers))


def _with_facets(points: Sequence[Point], triangles: Sequence[_Triangle]) -> Hull:
    """The hull that triangles bound, whose facets are those on one plane together."""
    ways: dict[Plane, set[tuple[int, int]]] = {}
    met: dict[int, set[Plane]] = {}
    for it in triangles:
        divisor = gcd(*it.plane)
        x, y, z, d = it.plane
        plane = (x // divisor, y // divisor, z // divisor, d // divisor)
        a, b, c = it.ring
        ways.setdefault(plane, set()).update(((a, b), (b, c), (c, a)))
        for number in it.ring:
            met.setdefault(number, set()).add(plane)
    # (what is inside a facet, or an edge, is on one plane, or two)
    corners = sorted(number for number, planes in met.items() if len(planes) > 2)
    names = {number: name for name, number in enumerate(corners)}
    facets = {}
    for plane, edges in ways.items():
        behind = {u: v for u, v in edges if (v, u) not in edges}
        ring, at = [], next(iter(behind))
        for _ in behind:
            ring.append(at)
            at = behind[at]
        facets[plane] = [names[it] for it in ring if it in names]
    return Hull([points[it] for it in corners], facets)


def _square(point: Point) -> int:
    return dot(point, point)


def less(p: Point, q: Point) -> Point:
    """The way from the second point to the first."""
    return p[0] - q[0], p[1] - q[1], p[2] - q[2]


def dot(u: Sequence[int], v: Sequence[int]) -> int:
    """The sum of products: 0 where two ways are across each other."""
    return u[0] * v[0] + u[1] * v[1] + u[2] * v[2]


def cross(u: Point, v: Point) -> Point:
    """A way across two others, counterclockwise from the first to the second as seen from its end; 0 where they are along one
    line."""
    return u[1] * v[2] - u[2] * v[1], u[2] * v[0] - u[0] * v[2], u[0] * v[1] - u[1] * v[0]


def plane_of(a: Point, b: Point, c: Point) -> Plane | None:
    """The plane of a triangle, which looks to where its corners are seen counterclockwise; None where it has no area."""
    x, y, z = cross(less(b, a), less(c, a))
    divisor = gcd(x, y, z)
    if divisor == 0:
        return None
    # (the common factor of all four divides these three)
    x, y, z = x // divisor, y // divisor, z // divisor
    return x, y, z, dot((x, y, z), a)


def volume6(body: Hull) -> int:
    """Six times the volume."""
    total = 0
    for ring in body.facets.values():
        p = body.corners[ring[0]]
        for second, third in zip(ring[1:], ring[2:]):
            total += dot(p, cross(body.corners[second], body.corners[third]))
    return total
