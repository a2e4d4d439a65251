"""Points and planes of space in whole numbers, without a bound: the crate `plane_predicate`."""

from __future__ import annotations

from math import gcd
from typing import NamedTuple


class Coordinates(NamedTuple):
    """Homogeneous coordinates: with w above 0, the point (x/w, y/w, z/w)."""

    x: int
    y: int
    z: int
    w: int


class Coefficients(NamedTuple):
    """A plane's numbers: the points with a x + b y + c z = d. Its direction is (a, b, c)."""

    a: int
    b: int
    c: int
    d: int


def value(m: Coefficients, p: Coordinates) -> int:
    """Below 0 behind the plane, 0 on it, above 0 ahead of it."""
    a, b, c, d = m
    x, y, z, w = p
    return a * x + b * y + c * z - d * w


def opposite_of(m: Coefficients) -> Coefficients:
    """The same points, seen from the other side."""
    a, b, c, d = m
    return Coefficients(-a, -b, -c, -d)


def inner_product(m: Coefficients, n: Coefficients) -> int:
    return m.a * n.a + m.b * n.b + m.c * n.c


def minor(a: int, b: int, c: int, d: int) -> int:
    return a * d - b * c


def determinant(a: int, b: int, c: int, d: int, e: int, f: int, g: int, h: int, i: int) -> int:
    """That with the rows (a, b, c), (d, e, f) and (g, h, i)."""
    return a * minor(e, f, h, i) + b * minor(f, d, i, g) + c * minor(d, e, g, h)


def point_at(p: list[int]) -> Coordinates:
    return Coordinates(p[0], p[1], p[2], 1)


def plane_of_points(p: Coordinates, q: Coordinates, r: Coordinates) -> Coefficients:
    """The plane through three points whose w is 1, with the direction (q - p) x (r - p)."""
    (x, y, z, _), (qx, qy, qz, _), (rx, ry, rz, _) = p, q, r
    a = minor(qy - y, qz - z, ry - y, rz - z)
    b = minor(qz - z, qx - x, rz - z, rx - x)
    c = minor(qx - x, qy - y, rx - x, ry - y)
    return Coefficients(a, b, c, a * x + b * y + c * z)


def is_directed(m: Coefficients) -> bool:
    """The plane's direction is not 0."""
    return (m.a, m.b, m.c) != (0, 0, 0)


def are_collinear(p: Coordinates, q: Coordinates, r: Coordinates) -> bool:
    return not is_directed(plane_of_points(p, q, r))


def is_in_reach(p: Coordinates) -> bool:
    """The coordinates of shapes: at most 4095 w in size."""
    return max(abs(p.x), abs(p.y), abs(p.z)) <= 4095 * p.w


def is_in_world(p: Coordinates) -> bool:
    """A point strictly inside the world box."""
    return max(abs(p.x), abs(p.y), abs(p.z)) < 4096 * p.w


def reduced(m: Coefficients) -> Coefficients:
    """The same plane, whose numbers have no common factor above 1."""
    k = gcd(gcd(m.a, m.b), gcd(m.c, m.d))
    return Coefficients(m.a // k, m.b // k, m.c // k, m.d // k)


def grid_steps_per_unit(half: bool) -> int:
    """The grid steps of one unit: two where lengths may lie on half units."""
    return 2 if half else 1


def in_steps(half: bool, p: Coordinates) -> Coordinates:
    """A point that is given in units, in grid steps: its coordinates are multiplied."""
    steps = grid_steps_per_unit(half)
    return Coordinates(steps * p.x, steps * p.y, steps * p.z, p.w)
