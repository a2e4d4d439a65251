"""Affine maps of space in whole numbers, without a bound: the crate `int_transform`."""

from __future__ import annotations

from typing import NamedTuple, Sequence

from .plane_predicate import Coordinates, determinant


class Row(NamedTuple):
    """One coordinate of the image of a point (x, y, z): a x + b y + c z + d."""

    a: int
    b: int
    c: int
    d: int


class Affine(NamedTuple):
    """An affine map of space, by the rows of its three coordinates."""

    x: Row
    y: Row
    z: Row


def row_at(r: Row, p: Coordinates) -> int:
    a, b, c, d = r
    x, y, z, w = p
    return a * x + b * y + c * z + d * w


def image(m: Affine, p: Coordinates) -> Coordinates:
    return Coordinates(row_at(m.x, p), row_at(m.y, p), row_at(m.z, p), p.w)


def row_after(r: Row, m: Affine) -> Row:
    """A row of the map that goes on with row r where m ends."""
    return Row(
        r.a * m.x.a + r.b * m.y.a + r.c * m.z.a,
        r.a * m.x.b + r.b * m.y.b + r.c * m.z.b,
        r.a * m.x.c + r.b * m.y.c + r.c * m.z.c,
        r.a * m.x.d + r.b * m.y.d + r.c * m.z.d + r.d)


def composition(n: Affine, m: Affine) -> Affine:
    """The product of two maps: first m, then n."""
    return Affine(row_after(n.x, m), row_after(n.y, m), row_after(n.z, m))


def diagonal_map(a: int, b: int, c: int, x: int, y: int, z: int) -> Affine:
    """Each coordinate times a number, and another one added."""
    return Affine(Row(a, 0, 0, x), Row(0, b, 0, y), Row(0, 0, c, z))


identity = diagonal_map(1, 1, 1, 0, 0, 0)


def map_of(steps: Sequence[Affine]) -> Affine:
    """A list of steps as one map: the first of the list is done first."""
    whole = identity
    for step in steps:
        whole = composition(step, whole)
    return whole


def translation(by: Sequence[int]) -> Affine:
    return diagonal_map(1, 1, 1, by[0], by[1], by[2])


def scale_map(by: Sequence[int]) -> Affine:
    return diagonal_map(by[0], by[1], by[2], 0, 0, 0)


def reflection(axis: int) -> Affine:
    """The mirror image at the plane through the origin across an axis."""
    return diagonal_map(-1 if axis == 0 else 1, -1 if axis == 1 else 1, -1 if axis == 2 else 1, 0, 0, 0)


# A right-handed quarter turn about each axis: about z, x goes to y.
quarter_rotation = (
    Affine(Row(1, 0, 0, 0), Row(0, 0, -1, 0), Row(0, 1, 0, 0)),
    Affine(Row(0, 0, 1, 0), Row(0, 1, 0, 0), Row(-1, 0, 0, 0)),
    Affine(Row(0, -1, 0, 0), Row(1, 0, 0, 0), Row(0, 0, 1, 0)))


def power_of(m: Affine, n: int) -> Affine:
    """A map done this many times."""
    return map_of([m] * n)


def affine_of(rows: Sequence[Sequence[int]]) -> Affine:
    """The map with these rows."""
    return Affine(*(Row(*row) for row in rows[:3]))


def determinant_of(m: Affine) -> int:
    """The determinant of the linear part: 0 exactly where the map is singular."""
    return determinant(*m.x[:3], *m.y[:3], *m.z[:3])


def coordinate_list(p: Coordinates) -> list[int]:
    return [p.x, p.y, p.z]


def has_safe_coordinates(p: Coordinates) -> bool:
    """Coordinates that are at most 2^53 - 1 in size."""
    return max(abs(p.x), abs(p.y), abs(p.z)) <= 9007199254740991


def keeps_safe_coordinates(steps: Sequence[Affine], p: Coordinates) -> bool:
    """The point and its images after each of the steps are safe."""
    safe = has_safe_coordinates(p)
    for step in steps:
        p = image(step, p)
        safe = safe and has_safe_coordinates(p)
    return safe
