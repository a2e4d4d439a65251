"""Closed polyhedra on the grid as hulls without their bays, exactly: each part is the hull of some of the polyhedron's corners.

What a polyhedron lacks of its hull are bays, each closed by a lid on a side of the hull; a bay has a hull and bays itself.
Where a bay has all of the hull around it, it is halved by the plane of a side, where that makes corners on the grid alone. A
boundary is the different planes on which it has a part, each with the ways round that part, counterclockwise as seen from
outside; so two boundaries are joined, or one is turned round, way by way. """

from __future__ import annotations

from bisect import bisect, bisect_left
from functools import cmp_to_key
from typing import Dict, Iterable, Iterator, List, Sequence, Set, Tuple, TypeVar, Union

from . import convex_pieces
from .exact_hull import Hull, Plane, Point, cross, dot, hull, less, plane_of
from .tree import DIFFERENCE, UNION, Join, joined

Way = Tuple[Point, Point]
#: By the plane, which looks outward, the ways round the boundary's part on it.
Boundary = Dict[Plane, Set[Way]]
Carving = Union[Hull, "Join[Hull]"]
T = TypeVar("T")
# Bays in one another: more than these are no carving.
_DEEPEST = 24


class NotCarved(ValueError):
    """A polyhedron that has no such form, or whose faces go through one another on the grid."""


def carved(faces: Sequence[tuple[Plane, list[Way]]]) -> Carving | None:
    """The solid of flat faces; None where it has no volume. Raises NotCarved."""
    points = sorted({point for _, ways in faces for way in ways for point in way})
    boundary: Boundary = {}
    for plane, ways in faces:
        _add(boundary, plane, _divided(ways, points))
    found = joined(UNION, [_carved(it, 0) for it in _bodies(boundary)])
    if (volume6(found) if found else 0) != _volume6(boundary):
        raise NotCarved
    return found


def volume6(carving: Carving) -> int:
    """Six times the volume, of bays that don't overlap."""
    if isinstance(carving, Hull):
        return _volume6({plane: set(_ways([carving.corners[it] for it in ring])) for plane, ring in carving.facets.items()})
    first, *others = map(volume6, carving.parts)
    return first + sum(others) * (1 if carving.operation == UNION else -1)


def _carved(boundary: Boundary, depth: int, around: Hull | None = None) -> Carving | None:
    """A body as its hull without its bays, where it lies in a larger hull. Raises NotCarved."""
    points = sorted({point for ways in boundary.values() for way in ways for point in way})
    body = hull(points)
    if body is None:
        return None
    if depth > _DEEPEST:
        raise NotCarved
    if around is not None and around.corners == body.corners:
        return joined(UNION, [_carved(it, depth + 1) for half in _halves(boundary) for it in _bodies(half)])
    lacking: Boundary = {}
    for plane, ring in body.facets.items():
        _add(lacking, plane, _divided(_ways([body.corners[it] for it in ring]), points))
    for (a, b, c, d), ways in boundary.items():
        # (on a side of the hull what is there leaves its lid; elsewhere the bay is on the other side)
        is_outer = (a, b, c, d) in body.facets
        _add(lacking, (a, b, c, d) if is_outer else (-a, -b, -c, -d), [(v, u) for u, v in ways])
    return joined(DIFFERENCE, [body, *(_carved(it, depth + 1, body) for it in _bodies(lacking))])


def flat_faces(rings: Iterable[Sequence[Point]]) -> Iterator[tuple[Plane, list[Way]]]:
    """Faces, counterclockwise as seen from outside, with their planes: one that isn't flat as triangles. Raises NotCarved."""
    for ring in rings:
        corners = [it for at, it in enumerate(ring) if it != ring[at - 1]]
        plane = _plane_of_ring(corners)
        if plane is not None and all(dot(plane[:3], it) == plane[3] for it in corners):
            yield plane, _ways(corners)
            continue
        for triangle in _triangles(corners, plane):
            of_triangle = plane_of(*triangle)
            if of_triangle is not None:
                yield of_triangle, _ways(triangle)


def _triangles(corners: Sequence[Point], plane: Plane | None) -> list[tuple[Point, Point, Point]]:
    """The triangles of a face, as they are seen from where its greatest side is."""
    if plane is None or len(corners) == 3:
        return []
    a, b, c, _ = plane
    axis = max(range(3), key=[abs(a), abs(b), abs(c)].__getitem__)
    seen = [
        (it[(axis + 1) % 3], it[(axis + 2) % 3]) if plane[axis] > 0 else (it[(axis + 2) % 3], it[(axis + 1) % 3])
        for it in corners
    ]
    try:
        found = convex_pieces.triangles(seen)
    except convex_pieces.NotSimple:
        raise NotCarved from None
    return [(corners[i], corners[j], corners[k]) for i, j, k in found]


def _plane_of_ring(corners: Sequence[Point]) -> Plane | None:
    """The plane of a flat closed line that goes counterclockwise round its area as seen from ahead; None where it has none."""
    area = (0, 0, 0)
    for u, v in _ways(corners):
        x, y, z = cross(less(u, corners[0]), less(v, corners[0]))
        area = (area[0] + x, area[1] + y, area[2] + z)
    if area == (0, 0, 0):
        return None
    along = next(it for it in range(3) if area[it])
    # (three points of that plane, in whole numbers)
    u = (area[1], -area[0], 0) if along < 2 else (0, area[2], -area[1])
    base = corners[0]
    v = cross(area, u)
    return plane_of(base, (base[0] + u[0], base[1] + u[1], base[2] + u[2]), (base[0] + v[0], base[1] + v[1], base[2] + v[2]))


def _ways(corners: Sequence[Point]) -> list[Way]:
    return list(zip(corners, [*corners[1:], *corners[:1]]))


def _divided(ways: Iterable[Way], points: Sequence[Point]) -> Iterator[Way]:
    """Ways cut at each of the points, in ascending order, that they go through."""
    for u, v in ways:
        along = less(v, u)
        within = {}
        for it in points[bisect_left(points, min(u, v)) : bisect(points, max(u, v))]:
            share = dot(along, less(it, u))
            if 0 < share < dot(along, along) and cross(along, less(it, u)) == (0, 0, 0):
                within[share] = it
        stops = [u, *(within[it] for it in sorted(within)), v]
        yield from zip(stops, stops[1:])


def _add(boundary: Boundary, plane: Plane, ways: Iterable[Way]) -> None:
    """Adds a part on a plane; ways that two parts go along in both directions are in no boundary. Raises NotCarved."""
    there = boundary.setdefault(plane, set())
    for u, v in ways:
        if (v, u) in there:
            there.remove((v, u))
        elif (u, v) in there:
            raise NotCarved
        else:
            there.add((u, v))
    if not there:
        del boundary[plane]


def _volume6(boundary: Boundary) -> int:
    """Six times the volume inside, below 0 where the planes look inward."""
    total = 0
    for ways in boundary.values():
        base = next(iter(ways))[0]
        total += sum(dot(base, cross(u, v)) for u, v in ways)
    return total


def _halves(boundary: Boundary) -> list[Boundary]:
    """A body in two, cut along the plane of a side on which much lies and where it makes whole corners. Raises NotCarved."""
    corners = {point for ways in boundary.values() for way in ways for point in way}
    for plane in sorted(boundary, key=lambda it: -len(boundary[it])):
        heights = [dot(plane[:3], it) - plane[3] for it in corners]
        if min(heights) < 0 < max(heights):
            a, b, c, d = plane
            try:
                return [_behind(boundary, plane), _behind(boundary, (-a, -b, -c, -d))]
            except NotCarved:
                continue
    raise NotCarved


def _behind(boundary: Boundary, plane: Plane) -> Boundary:
    """What of a body is behind a plane. Raises NotCarved where a corner of it is none on the grid."""
    a, b, c, d = plane
    kept = {it: _behind_on_side(it, ways, plane) for it, ways in boundary.items() if it not in (plane, (-a, -b, -c, -d))}
    kept[plane] = list(boundary.get(plane, ()))
    points = sorted({point for ways in kept.values() for way in ways for point in way})
    found: Boundary = {}
    open_ways: set[Way] = set()
    for side, ways in kept.items():
        for way in _divided(ways, points):
            _add(found, side, [way])
            if way[::-1] in open_ways:
                open_ways.remove(way[::-1])
            elif way in open_ways:
                raise NotCarved
            else:
                open_ways.add(way)
    # (what isn't closed lies on the plane, and the cut closes it)
    _add(found, plane, [(v, u) for u, v in open_ways])
    return found


def _behind_on_side(side: Plane, ways: Iterable[Way], plane: Plane) -> list[Way]:
    """The ways round what of a side is behind a plane. Raises NotCarved."""
    kept = []
    for u, v in ways:
        ends = [dot(plane[:3], it) - plane[3] for it in (u, v)]
        if max(ends) == min(ends) == 0:
            kept += [(u, v)] if dot(plane[:3], cross(side[:3], less(v, u))) < 0 else []
        elif max(ends) <= 0:
            kept.append((u, v))
        elif min(ends) < 0:
            shares = [divmod((q - p) * ends[0], ends[0] - ends[1]) for p, q in zip(u, v)]
            if any(rest for _, rest in shares):
                raise NotCarved
            cut = (u[0] + shares[0][0], u[1] + shares[1][0], u[2] + shares[2][0])
            kept.append((u, cut) if ends[0] < 0 else (cut, v))
    # (along the line of the cut, from where more ways end to where more begin)
    balance: dict[Point, int] = {}
    for u, v in kept:
        balance[u] = balance.get(u, 0) - 1
        balance[v] = balance.get(v, 0) + 1
    along = cross(side[:3], plane[:3])
    stops = sorted((it for it in balance if balance[it]), key=lambda it: dot(along, it))
    more = 0
    for p, q in zip(stops, stops[1:]):
        more += balance[p]
        if abs(more) > 1:
            raise NotCarved
        kept += [(p, q)] if more > 0 else [(q, p)] if more < 0 else []
    return kept


def _bodies(boundary: Boundary) -> List[Boundary]:
    """The bodies that a boundary bounds, which touch at corners and edges alone; one where some of it is a cavity."""
    faces = [(plane, part) for plane, ways in boundary.items() for part in _loops(plane, ways)]
    owner = list(range(len(faces)))

    def root(number: int) -> int:
        while owner[number] != number:
            number = owner[number]
        return number

    at: dict[Way, list[int]] = {}
    for number, (_, part) in enumerate(faces):
        for way in part:
            at.setdefault((min(way), max(way)), []).append(number)
    for edge, numbers in at.items():
        for one, two in _neighbours(edge, [(it, faces[it][0], edge in faces[it][1]) for it in numbers]):
            owner[root(one)] = root(two)
    found: dict[int, Boundary] = {}
    for number, (plane, part) in enumerate(faces):
        found.setdefault(root(number), {}).setdefault(plane, set()).update(part)
    bodies = list(found.values())
    return bodies if all(_volume6(it) > 0 for it in bodies) or len(bodies) < 2 else [boundary]


def _loops(plane: Plane, ways: Iterable[Way]) -> list[set[Way]]:
    """The closed lines on a plane, which may touch at corners."""
    starting: dict[Point, list[Way]] = {}
    ending: dict[Point, list[Way]] = {}
    for way in ways:
        starting.setdefault(way[0], []).append(way)
        ending.setdefault(way[1], []).append(way)
    next_of: dict[Way, Way] = {}
    for point, some in starting.items():
        before = ending.get(point, [])
        if len(some) == len(before) == 1:
            next_of[before[0]] = some[0]
            continue
        sides = [(less(it[1], point), it, True) for it in some] + [(less(it[0], point), it, False) for it in before]
        next_of.update((last, first) for first, last in _sectors(plane[:3], sides))
    found, left = [], set(ways)
    while left:
        way = left.pop()
        loop = {way}
        while next_of.get(way) in left:
            way = next_of[way]
            left.remove(way)
            loop.add(way)
        found.append(loop)
    return found


def _neighbours(edge: Way, faces: list[tuple[int, Plane, bool]]) -> list[tuple[int, int]]:
    """Pairs of faces at an edge, by number, plane and whether they go along it: those with the inside between them."""
    if len(faces) == 2 and faces[0][2] != faces[1][2]:
        return [(faces[0][0], faces[1][0])]
    along = less(edge[1], edge[0])
    # (the way from the edge into a face; the inside is clockwise of it where the face goes along the edge)
    inward = []
    for number, plane, is_along in faces:
        x, y, z = cross(plane[:3], along)
        inward.append(((x, y, z) if is_along else (-x, -y, -z), number, not is_along))
    return _sectors(along, inward)


def _sectors(axis: Point, sides: list[tuple[Point, T, bool]]) -> list[tuple[T, T]]:
    """Of ways across an axis, each with whose it is and whether a sector begins there, those that are next to each other
    counterclockwise: the one with which a sector begins, and the one with which it ends. Raises NotCarved."""
    first = sides[0][0]

    def half(way: Point) -> int:
        side = dot(axis, cross(first, way))
        return 0 if side > 0 or (side == 0 and dot(first, way) > 0) else 1

    def order(one: tuple[Point, T, bool], two: tuple[Point, T, bool]) -> int:
        if half(one[0]) != half(two[0]):
            return half(one[0]) - half(two[0])
        side = dot(axis, cross(one[0], two[0]))
        return -1 if side > 0 else int(side < 0)

    ordered = sorted(sides, key=cmp_to_key(order))
    pairs = [(one, two) for one, two in zip(ordered, [*ordered[1:], *ordered[:1]]) if one[2]]
    if 2 * len(pairs) != len(sides) or any(two[2] for _, two in pairs):
        raise NotCarved
    return [(one[1], two[1]) for one, two in pairs]
