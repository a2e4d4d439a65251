"""Hulls of points: the crate `scad_hull`."""

from __future__ import annotations

from itertools import combinations
from typing import Sequence

from .plane_predicate import Coefficients, Coordinates, is_directed, plane_of_points, point_at, value
from .primitives import Faces, Points, are_on_one_plane, is_point_in_range


def points_in_order(given: Points) -> list[list[int]]:
    """The different points, in ascending order by x, then y, then z."""
    return [list(p) for p in sorted({tuple(p) for p in given})]


def supporting_plane(points: Sequence[Coordinates], triple: Sequence[int]) -> Coefficients | None:
    """The plane of three points that are not on one line, on whose one side no point lies strictly."""
    m = plane_of_points(*[points[i] for i in triple])
    if not is_directed(m):
        return None
    a, b, c, d = m
    ahead = behind = False
    for x, y, z, _ in points:
        side = a * x + b * y + c * z - d
        ahead, behind = ahead or side > 0, behind or side < 0
        if ahead and behind:
            return None
    return m


def is_surrounded(points: Sequence[Coordinates], i: int, j: int) -> bool:
    """Whether points are seen on all sides of the line through two of them, so that no plane through it has all of them on one
    side: beyond both ends of the angle that the points before make, which is at most a half turn."""
    x, y, z, _ = points[i]
    u, v, w = points[j].x - x, points[j].y - y, points[j].z - z
    low = high = None
    for p in points:
        a, b, c = p.x - x, p.y - y, p.z - z
        if low is None or high is None:
            first = (v * c - w * b, w * a - u * c, u * b - v * a)
            low = high = first if any(first) else None
            continue
        is_low = low[0] * a + low[1] * b + low[2] * c < 0
        is_high = high[0] * a + high[1] * b + high[2] * c > 0
        if is_low and is_high:
            return True
        if is_low:
            low = (v * c - w * b, w * a - u * c, u * b - v * a)
        elif is_high:
            high = (v * c - w * b, w * a - u * c, u * b - v * a)
    return False


def faces_of_hull(points: Points) -> Faces:
    """The supporting triples in ascending order, of equal planes the first alone."""
    places = [point_at(list(p)) for p in points]
    faces: list[tuple[int, ...]] = []
    known: set[tuple[int, ...]] = set()  # the triples on the planes of these faces
    for i, j in combinations(range(len(places)), 2):
        if is_surrounded(places, i, j):
            continue
        for triple in ((i, j, k) for k in range(j + 1, len(places))):
            m = None if triple in known else supporting_plane(places, triple)
            if m is not None:
                faces.append(triple)
                known.update(combinations([i for i, p in enumerate(places) if value(m, p) == 0], 3))
    return faces


class Hull:
    """The mesh of a hull, whose faces are worked out where they are wanted."""

    def __init__(self, points: Points) -> None:
        self.points = points

    @property
    def faces(self) -> Faces:
        return faces_of_hull(self.points)


def hull_of(given: Points) -> Hull:
    """The hull of the given points."""
    return Hull(points_in_order(given))


def hull_stop(given: Points) -> str | None:
    """Why points have no hull: the first of these conditions that fails."""
    if not all(map(is_point_in_range, given)):
        return "OutOfRange"
    points = points_in_order(given)
    if len(points) > 128:
        return "LongList"
    return "FewPoints" if are_on_one_plane([point_at(p) for p in points]) else None
