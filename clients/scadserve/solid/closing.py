"""Closes the boundary of a solid exactly, so that neighbouring faces have their edges in common.

The faces of a 4OFF text are split without regard to their neighbours, so a corner of one may lie inside an edge of
another. Here each such corner is put into that edge: edges that lie on one line are found by the line's Pluecker
coordinates in whole numbers, and the corners along it are sorted by exact fractions. No corner is moved and none is new.
A corner that only touches an edge, and ends none on the edge's line, stays out of it: the faces at that edge have it
in common without.

With the corners put in, `open_edges` checks exactly what the law `elementary_edges_pair` of crates/watertight states:
between two corners with none strictly between them, as many edges run the one way as the other. A corner that only
touches an edge would cut a piece of it in two, and the same edges run along both.

Then ears are cut off each face until triangles are left, each with an area above 0. The time grows like the number of
corners, but for the sorting.
"""

from __future__ import annotations

from collections import Counter, deque
from fractions import Fraction
from math import gcd
from typing import Iterable, Sequence

from .fouroff import Boundary, Corner, Flat, flatten, turn

#: The direction and the moment of a line, without a common factor, the first number that is not 0 above 0.
Line = tuple[int, ...]
#: A face or a triangle, as numbers of corners counterclockwise seen from outside.
Ring = tuple[int, ...]
#: How often rings go along each way from a corner to another.
Ways = Counter[tuple[int, int]]


def close(boundary: Boundary) -> list[Ring]:
    """The faces in order, each with the corners that lie on its edges put into them."""
    inside = iter(corners_inside([edge for face in boundary.faces for edge in edges(face)], boundary.corners))
    return [tuple(corner for start in face for corner in (start, *next(inside))) for face in boundary.faces]


def corners_inside(ways_of: Sequence[tuple[int, int]], points: Sequence[Corner]) -> list[list[int]]:
    """For each edge the ends of others on its line that are inside it, in its direction."""
    lines = {}
    ends: dict[Line, set[int]] = {}
    for edge in ways_of:
        if edge not in lines:
            line = line_through(points[edge[0]], points[edge[1]])
            lines[edge] = lines[edge[::-1]] = line
            ends.setdefault(line, set()).update(edge)
    along = {line: _sorted_along(line, corners, points) for line, corners in ends.items() if len(corners) > 2}
    places = {line: {corner: at for at, corner in enumerate(corners)} for line, corners in along.items()}

    def inside(edge: tuple[int, int]) -> list[int]:
        line = lines[edge]
        if line not in along:
            return []
        start, end = places[line][edge[0]], places[line][edge[1]]
        return along[line][start + 1 : end] if start < end else along[line][end + 1 : start][::-1]

    return [inside(edge) for edge in ways_of]


def line_through(p: Corner, q: Corner) -> Line:
    """The line through two different points."""
    direction = tuple(p[3] * q[i] - q[3] * p[i] for i in range(3))
    moment = (p[1] * q[2] - p[2] * q[1], p[2] * q[0] - p[0] * q[2], p[0] * q[1] - p[1] * q[0])
    divisor = gcd(*direction, *moment)
    if next(number for number in direction if number) < 0:
        divisor = -divisor
    return tuple(number // divisor for number in direction + moment)


def _sorted_along(line: Line, corners: Iterable[int], points: Sequence[Corner]) -> list[int]:
    """The corners in the direction of the line on which they lie."""
    axis = next(i for i in range(3) if line[i])

    def place(corner: int) -> Fraction | int:
        point = points[corner]
        return point[axis] if point[3] == 1 else Fraction(point[axis], point[3])

    return sorted(corners, key=place)


def edges(ring: Ring) -> Iterable[tuple[int, int]]:
    """The ways from each corner of the ring to the next."""
    return zip(ring, ring[1:] + ring[:1])


def triangles(boundary: Boundary, rings: Sequence[Ring]) -> list[list[Ring]]:
    """The triangles into which each face is cut, in the order of the faces, which are given with all their corners."""
    cut: list[list[Ring]] = []
    for ring, plane in zip(rings, boundary.planes):
        flat = flatten([boundary.corners[corner] for corner in ring], plane)
        cut.append([(ring[a], ring[b], ring[c]) for a, b, c in ears(flat)])
    return cut


def ears(ring: Sequence[Flat]) -> list[tuple[int, int, int]]:
    """Cuts a polygon of n corners into n - 2 triangles with an area above 0, as numbers of its corners.

    The polygon is convex, and corners may lie inside its sides. A corner that turns left is cut off with its two
    neighbours, unless all others are on one line; then its neighbours turn left, and cutting one of them off leaves an
    area. A corner that turns left does so until it is cut off, so each is tried about once.
    """
    size = len(ring)
    before = [(i - 1) % size for i in range(size)]
    behind = [(i + 1) % size for i in range(size)]
    turns = [turn(ring[before[i]], ring[i], ring[behind[i]]) > 0 for i in range(size)]
    pointed = [i for i in range(size) if turns[i]]
    # Every second corner goes first, which leaves triangles less thin than a fan.
    queue = deque(pointed[::2] + pointed[1::2])
    cut: list[tuple[int, int, int]] = []
    while len(cut) < size - 3:
        tip = queue.popleft()
        left, right = before[tip], behind[tip]
        if turn(ring[before[left]], ring[left], ring[right]) == 0:
            queue.append(tip)
            continue
        cut.append((left, tip, right))
        behind[left], before[right] = right, left
        queue += [i for i in (left, right) if not turns[i]]
        turns[left] = turns[right] = True
    tip = queue.popleft()
    return cut + [(before[tip], tip, behind[tip])]


def ways(rings: Iterable[Ring]) -> Ways:
    """How often the rings go along each way from a corner to another."""
    return Counter(edge for ring in rings for edge in edges(ring))


def open_edges(used: Ways) -> int:
    """How many edges are not met as often in the one direction as in the other: 0 where the rings are closed."""
    return sum(1 for (p, q), times in used.items() if times > used[q, p])


def shared_edges(used: Ways) -> int:
    """How many edges more than two rings have in common, as where a solid touches itself."""
    return sum(1 for (p, q), times in used.items() if times + used[q, p] > 2 and (p < q or (q, p) not in used))


def touching_corners(rings: Iterable[Ring]) -> int:
    """How many corners have rings that do not hang together there by edges: the solid touches itself at that point."""
    neighbours: dict[int, dict[int, int]] = {}
    for ring in rings:
        for before, corner, behind in zip(ring[-1:] + ring[:-1], ring, ring[1:] + ring[:1]):
            groups = neighbours.setdefault(corner, {})
            groups[_group(groups, before)] = _group(groups, behind)
    return sum(1 for groups in neighbours.values() if len({_group(groups, corner) for corner in list(groups)}) > 1)


def _group(groups: dict[int, int], corner: int) -> int:
    """The corner that stands for all that hang together with this one: each names one of them, and itself at the end."""
    while groups.setdefault(corner, corner) != corner:
        # The way to the end is halved for the next time.
        groups[corner] = groups[groups[corner]]
        corner = groups[corner]
    return corner
