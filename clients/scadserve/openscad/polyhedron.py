"""Polyhedra of OpenSCAD's evaluated form as convex parts: one where they are convex, and else cones from a point that sees all.

A face goes clockwise round its corners as seen from outside. Parts have the polyhedron's own corners, and that one point. Where
no point sees all faces, corners and faces are given, for a carving on the grid. A terrain is a column under each of its
triangles.
"""

from __future__ import annotations

import math
from collections import Counter
from functools import partial
from typing import Callable, NamedTuple, Sequence

from . import convex_pieces, exact_hull
from .flat import FINE
from .reader import Node
from .tree import Vector

Triangle = tuple[int, int, int]
# How far a corner may be ahead of a face of a convex polyhedron, which is what its digits leave open, in its own size.
_FLAT = 1e-5
_TRIES = 400
# A polyhedron with more has more planes than a part may have, where it isn't one of large flat sides.
_MOST_TRIANGLES = 4096


#: Makes the corners of convex parts.
Parts = Callable[[], "list[list[Vector]]"]


class Surface(NamedTuple):
    """A closed surface that doesn't go through itself: its different corners, and its faces, counterclockwise from outside."""

    places: list[Vector]
    rings: list[list[int]]


def faces_of(node: Node, count: int) -> list[list[int]]:
    """The faces of a `polyhedron` of this many points. Raises CsgFault."""
    faces = node.arguments.get("faces")
    if faces is None:
        return []
    if not isinstance(faces, list):
        raise node.fault("BadArgument", "faces is not a list")
    return [node.indices("a face", face, count) for face in faces]


def looks_inward(places: Sequence[Vector], faces: Sequence[Sequence[int]]) -> bool:
    """Whether the faces of a closed polyhedron go counterclockwise as seen from outside, all of them: its volume is below 0."""
    points, numbers = _merged(places)
    triangles = ((face[0], c, b) for face in faces for b, c in zip(face[1:], face[2:]))
    return sum(_volume6((0, 0, 0), [points[numbers[at]] for at in it]) for it in triangles) < 0


def columns(node: Node, places: Sequence[Vector], faces: Sequence[Sequence[int]]) -> list[list[Vector]]:
    """The corners of the columns of a terrain, one under each triangle of it down to its floor.

    Neighbours have a side in common. Four triangles around a point that lie on one plane have one column. Raises CsgFault where
    what looks down isn't the floor.
    """
    points, numbers = _merged(places)
    floor = min(z for _, _, z in points)
    rings = [[points[numbers[it]] for it in face] for face in faces]
    upward = []
    for ring in rings:
        # (clockwise as seen from outside)
        turned = sum(p[0] * q[1] - q[0] * p[1] for p, q in zip(ring, [*ring[1:], *ring[:1]]))
        if turned > 0 and any(z > floor for _, _, z in ring):
            raise node.fault("NotConvex", "it is not a terrain: some face of it looks down, and isn't its floor")
        upward += [ring] if turned < 0 else []
    tops = [[ring[0], q, r] for ring in upward for q, r in zip(ring[1:], ring[2:])]
    return [[_place(it) for x, y, z in top for it in ((x, y, floor), (x, y, z))] for top in _joined_tops(tops)]


def _joined_tops(tops: list[list[exact_hull.Point]]) -> list[list[exact_hull.Point]]:
    """Triangles, of which four round one point that lie on one plane are one square."""
    found: list[list[exact_hull.Point]] = []
    at = 0
    while at < len(tops):
        four = tops[at : at + 4]
        middle = set(four[0]).intersection(*four[1:]) if len(four) == 4 else set()
        corners = list(dict.fromkeys(it for top in four for it in top if it not in middle))
        is_square = len(middle) == 1 and len(corners) == 4
        if is_square and all(_volume6(it, corners[:3]) == 0 for it in (corners[3], *middle)):
            found.append(corners)
            at += 4
        else:
            found.append(tops[at])
            at += 1
    return found


def cut(node: Node, places: Sequence[Vector], faces: Sequence[Sequence[int]]) -> list[list[Vector]] | Surface:
    """The corners of the convex parts of a polyhedron, none where it has no faces, or else its surface. Raises CsgFault."""
    found = seen(node, places, faces)
    return found if isinstance(found, Surface) else found()


def seen(node: Node, places: Sequence[Vector], faces: Sequence[Sequence[int]]) -> Parts | Surface:
    """What makes the convex parts of a polyhedron where some point sees all faces, or else its surface. Raises CsgFault."""
    points, numbers = _merged(places)
    rings = _single([[numbers[it] for at, it in enumerate(face) if numbers[it] != numbers[face[at - 1]]] for face in faces])
    rings = _flat_rings(node, points, rings)
    triangles, planes = _triangulated(points, rings)
    if not triangles:
        return list
    is_simple = _is_simple(node, rings)
    if sum(_volume6((0, 0, 0), [points[it] for it in triangle]) for triangle in triangles) <= 0:
        raise node.fault("NotConvex", "its faces bound no volume: they go clockwise round their corners as seen from outside")
    size = _size(points)
    used = sorted({it for ring in rings for it in ring})
    if is_simple and all(_height(plane, points[it]) <= _FLAT * size for plane in planes for it in used):
        return partial(_placed, [[points[it] for it in used]])
    eye = _eye(planes, [points[it] for it in used]) if is_simple else None
    if eye is None and len(triangles) > _MOST_TRIANGLES:
        what = f"it isn't convex, and has {len(triangles)} triangles: {_MOST_TRIANGLES} are looked at"
        raise node.fault("TooManyPlanes", what)
    if eye is None:
        _check_uncrossed(node, points, triangles)
        return Surface([_place(it) for it in points], [ring[::-1] for ring in rings if len(ring) > 2])
    return partial(_placed_cones, eye, points, triangles)


def _placed_cones(
    eye: exact_hull.Point, points: Sequence[exact_hull.Point], triangles: Sequence[Triangle]
) -> list[list[Vector]]:
    return _placed(_cones(eye, points, triangles))


def _placed(parts: list[list[exact_hull.Point]]) -> list[list[Vector]]:
    return [[_place(it) for it in part] for part in parts]


def _merged(places: Sequence[Vector]) -> tuple[list[exact_hull.Point], list[int]]:
    """The different points, in millionths, and the number of each place's."""
    names: dict[exact_hull.Point, int] = {}
    numbers = [names.setdefault((round(x * FINE), round(y * FINE), round(z * FINE)), len(names)) for x, y, z in places]
    return list(names), numbers


def _place(point: Sequence[int]) -> Vector:
    return point[0] / FINE, point[1] / FINE, point[2] / FINE


def _single(rings: list[list[int]]) -> list[list[int]]:
    """The faces without those that lie back to back, which bound nothing."""
    left: dict[tuple[int, ...], list[int]] = {}
    for number, ring in enumerate(rings):
        opposite = left.get(_turned(ring[::-1]))
        if opposite:
            opposite.pop()
        else:
            left.setdefault(_turned(ring), []).append(number)
    return [rings[it] for it in sorted(number for numbers in left.values() for number in numbers)]


def _flat_rings(node: Node, points: Sequence[exact_hull.Point], rings: list[list[int]]) -> list[list[int]]:
    """The faces, of which convex ones with four corners that aren't flat are cut from the second to the fourth, as by OpenSCAD.

    Raises CsgFault at another face that isn't flat: it is not known how OpenSCAD cuts it.
    """
    size = _size(points)
    found: list[list[int]] = []
    for ring in rings:
        corners = [points[it] for it in ring]
        normal = _normal(corners)
        length = sum(float(it) * it for it in normal) ** 0.5
        heights = [exact_hull.dot(normal, exact_hull.less(it, corners[0])) / length if length else 0.0 for it in corners]
        if len(ring) < 4 or max(heights) - min(heights) <= 3 * _FLAT * size:
            found.append(ring)
            continue
        bends = [_normal([corners[at - 1], corners[at], corners[(at + 1) % len(ring)]]) for at in range(len(ring))]
        if len(ring) > 4 or any(exact_hull.dot(normal, it) <= 0 for it in bends):
            raise node.fault("NotConvex", "a face of it isn't flat: give its triangles")
        a, b, c, d = ring
        found += [[a, b, d], [b, c, d]]
    return found


def _triangulated(
    points: Sequence[exact_hull.Point], rings: Sequence[Sequence[int]]
) -> tuple[list[Triangle], list[tuple[float, float, float, float]]]:
    """The triangles of faces, counterclockwise as seen from outside, and their planes; the plane of the face itself where some
    of its triangles from its first corner on is turned over, or so thin that its digits leave its plane open."""
    least = 3 * _FLAT * _size(points)
    found: list[Triangle] = []
    planes: list[tuple[float, float, float, float] | None] = []
    for ring in rings:
        # (turned round, since a face goes clockwise)
        fan = [(ring[0], c, b) for b, c in zip(ring[1:], ring[2:]) if len({ring[0], b, c}) == 3]
        own = _normal([points[it] for it in ring[::-1]])
        ears = None if len(ring) < 4 or all(_is_wide([points[it] for it in three], own, least) for three in fan) else _ears(
            points, ring[::-1], own)  # fmt: skip
        found += fan if ears is None else ears
        if ears is None:
            planes += [_plane([points[it] for it in three]) for three in fan]
        else:
            planes.append(_across(own, [points[it] for it in ring]))
    return found, [it for it in planes if it]


def _is_wide(corners: Sequence[exact_hull.Point], own: exact_hull.Point, least: float) -> bool:
    """Whether a triangle looks to where its face looks, and no corner of it is nearer to the opposite side than that."""
    normal = _normal(corners)
    longest = max(math.dist(p, q) for p, q in zip(corners, [*corners[1:], corners[0]]))
    return exact_hull.dot(normal, own) > 0 and math.hypot(*normal) > least * longest


def _ears(points: Sequence[exact_hull.Point], ring: Sequence[int], normal: exact_hull.Point) -> list[Triangle] | None:
    """The triangles of a flat face that goes counterclockwise, as they are seen along an axis; None where it isn't simple."""
    axis = max(range(3), key=lambda it: abs(normal[it]))
    first, second = ((axis + 1) % 3, (axis + 2) % 3) if normal[axis] > 0 else ((axis + 2) % 3, (axis + 1) % 3)
    seen = [(points[it][first], points[it][second]) for it in ring]
    try:
        convex_pieces.check_simple([seen])
        return [(ring[i], ring[j], ring[k]) for i, j, k in convex_pieces.triangles(seen)]
    except convex_pieces.NotSimple:
        return None


def _across(normal: exact_hull.Point, corners: Sequence[exact_hull.Point]) -> tuple[float, float, float, float] | None:
    """The plane across a direction through the middle of corners."""
    length = math.hypot(*normal)
    if not length:
        return None
    x, y, z = (it / length for it in normal)
    return x, y, z, sum(x * a + y * b + z * c for a, b, c in corners) / len(corners)


def _size(points: Sequence[exact_hull.Point]) -> int:
    """The farthest of points from the origin, along an axis."""
    return max((max(abs(it) for it in point) for point in points), default=0)


def _normal(corners: Sequence[exact_hull.Point]) -> exact_hull.Point:
    """The direction across a closed line, as long as twice its area."""
    normal = (0, 0, 0)
    for p, q in zip(corners, [*corners[1:], *corners[:1]]):
        x, y, z = exact_hull.cross(exact_hull.less(p, corners[0]), exact_hull.less(q, corners[0]))
        normal = (normal[0] + x, normal[1] + y, normal[2] + z)
    return normal


def _turned(ring: Sequence[int]) -> tuple[int, ...]:
    """The same closed line, from its least corner on."""
    first = min(range(len(ring)), key=ring.__getitem__, default=0)
    return (*ring[first:], *ring[:first])


def _is_simple(node: Node, rings: Sequence[Sequence[int]]) -> bool:
    """Whether faces go along each edge once one way and once the other, and not more often, as where a body touches itself.

    Raises CsgFault where they don't go along it equally often both ways.
    """
    ways = Counter(way for ring in rings for way in zip(ring, [*ring[1:], *ring[:1]]))
    if any(times != ways[way[::-1]] for way, times in ways.items()):
        raise node.fault("NotClosed", "its faces do not close a body")
    return max(ways.values(), default=1) == 1


def _check_uncrossed(node: Node, points: Sequence[exact_hull.Point], triangles: Sequence[Triangle]) -> None:
    """Raises CsgFault where an edge goes through a triangle; both are taken from left to right."""
    edges = {(min(way), max(way)) for it in triangles for way in _ways(it)}
    bodies = [(edge, [points[it] for it in edge]) for edge in edges] + [(it, [points[at] for at in it]) for it in triangles]
    boxes = [([min(axis) for axis in zip(*corners)], [max(axis) for axis in zip(*corners)]) for _, corners in bodies]
    there: list[list[int]] = [[], []]
    for number in sorted(range(len(bodies)), key=lambda it: boxes[it][0]):
        (numbers, _), (low, high) = bodies[number], boxes[number]
        is_edge = len(numbers) == 2
        there[is_edge] = [it for it in there[is_edge] if boxes[it][1][0] >= low[0]]
        for other in there[is_edge]:
            (other_low, other_high), edge, triangle = boxes[other], *((number, other) if is_edge else (other, number))
            if all(other_low[it] <= high[it] and low[it] <= other_high[it] for it in (1, 2)):
                if set(bodies[edge][0]).isdisjoint(bodies[triangle][0]) and _goes_through(bodies[edge][1], bodies[triangle][1]):
                    raise node.fault("NotConvex", "it isn't convex, and its faces go through one another")
        there[not is_edge].append(number)


def _goes_through(edge: Sequence[exact_hull.Point], triangle: Sequence[exact_hull.Point]) -> bool:
    """Whether an edge goes through the inside of a triangle, from one side of it to the other."""
    ends = [_volume6(it, triangle) for it in edge]
    if ends[0] * ends[1] >= 0:
        return False
    a, b, c = triangle
    sides = [_volume6(edge[0], (edge[1], *two)) for two in ((a, b), (b, c), (c, a))]
    return all(it > 0 for it in sides) or all(it < 0 for it in sides)


def _volume6(eye: Sequence[int], corners: Sequence[exact_hull.Point]) -> int:
    """Six times the volume of the tetrahedron of a point and a triangle, above 0 where the point is behind it."""
    (ax, ay, az), (bx, by, bz), (cx, cy, cz) = (tuple(q - p for q, p in zip(corner, eye)) for corner in corners)
    return ax * (by * cz - bz * cy) - ay * (bx * cz - bz * cx) + az * (bx * cy - by * cx)


def _plane(corners: Sequence[exact_hull.Point]) -> tuple[float, float, float, float] | None:
    """The plane of a triangle, with a direction of the length 1; None where the triangle has no area."""
    (ax, ay, az), (bx, by, bz), (cx, cy, cz) = corners
    ux, uy, uz, vx, vy, vz = bx - ax, by - ay, bz - az, cx - ax, cy - ay, cz - az
    x, y, z = float(uy * vz - uz * vy), float(uz * vx - ux * vz), float(ux * vy - uy * vx)
    length = (x * x + y * y + z * z) ** 0.5
    return (x / length, y / length, z / length, (x * ax + y * ay + z * az) / length) if length else None


def _height(plane: Sequence[float], point: Sequence[float]) -> float:
    return plane[0] * point[0] + plane[1] * point[1] + plane[2] * point[2] - plane[3]


def _eye(planes: Sequence[Sequence[float]], points: Sequence[exact_hull.Point]) -> exact_hull.Point | None:
    """A point that is behind all planes, by more than their digits leave open; None where none is found.

    From the middle on it goes behind the plane of which it is farthest ahead, again and again.
    """
    eye = [sum(axis) / len(points) for axis in zip(*points)]
    size = max(max(axis) - min(axis) for axis in zip(*points))
    room = size / 4
    for number in range(_TRIES):
        plane = max(planes, key=lambda it: _height(it, eye))
        height = _height(plane, eye)
        if height < -size / 500:
            return round(eye[0]), round(eye[1]), round(eye[2])
        if number % 20 == 19:
            room /= 2
        eye = [at - (height + room) * along for at, along in zip(eye, plane)]
    return None


def _cones(
    eye: exact_hull.Point, points: Sequence[exact_hull.Point], triangles: Sequence[Triangle]
) -> list[list[exact_hull.Point]]:
    """The corners of cones over faces. Neighbours stand together as long as that is convex, which their volumes say exactly."""
    parts: list[tuple[set[exact_hull.Point], int]] = []
    across = {way: number for number, it in enumerate(triangles) for way in _ways(it)}
    seen: set[int] = set()
    for first in range(len(triangles)):
        if first in seen:
            continue
        corners, volume, waiting = {eye}, 0, [first]
        while waiting:
            number = waiting.pop()
            if number in seen:
                continue
            added = [points[it] for it in triangles[number]]
            of_added = _volume6(eye, added)
            body = exact_hull.hull(corners | set(added))
            if volume and (body is None or exact_hull.volume6(body) != volume + of_added or len(corners) > 60):
                continue
            seen.add(number)
            corners, volume = corners | set(added), volume + of_added
            waiting += [across[way[::-1]] for way in _ways(triangles[number])]
        parts.append((corners, volume))
    return [sorted(corners) for corners, volume in parts if volume]


def _ways(triangle: Triangle) -> list[tuple[int, int]]:
    a, b, c = triangle
    return [(a, b), (b, c), (c, a)]
