"""Reads the 4OFF texts that the server prints, exactly.

A text is Geomview's 4OFF in one spelling (docs/SPECIFICATION.md, "4OFF"): a corner `X Y Z W` stands for the point
(X/W, Y/W, Z/W) in units, and a face goes counterclockwise round its corners as seen from outside the solid. All numbers
stay whole here. A text with another spelling is refused with its line and the reason, and so is one whose vertices repeat
or are not numbered by first appearance, or one of whose faces is not flat or not convex. Which corner a face begins with is
not looked at, nor whether the faces are the boundary of anything: `closing` tells whether they are closed.
"""

from __future__ import annotations

import re
from math import gcd
from typing import NamedTuple, Sequence

#: A point (X/W, Y/W, Z/W) in units, as X, Y, Z and W without a common factor, W above 0.
Corner = tuple[int, int, int, int]
#: The plane ax + by + cz = d in units, as a, b, c and d without a common factor; (a, b, c) points out of the solid.
Plane = tuple[int, int, int, int]
#: A corner seen along an axis: the point (u/w, v/w), as u, v and w.
Flat = tuple[int, int, int]

#: Coordinates are at most this many units in size.
ROOM = 4096
# The numbers of corners have 30 digits at most, since those of planes are in bounds.
_WHOLE = r"(0|-?[1-9][0-9]{0,39})"
_CORNER = re.compile(rf"{_WHOLE} {_WHOLE} {_WHOLE} ([1-9][0-9]{{0,39}})")
_COUNTS = re.compile(r"(0|[1-9][0-9]{0,8}) (0|[1-9][0-9]{0,8}) 0")
_FACE = re.compile(r"(?:0|[1-9][0-9]{0,8})(?: (?:0|[1-9][0-9]{0,8}))*")


class Malformed(ValueError):
    """A text that is no 4OFF text as the server prints them: the number of its first faulty line, from 1, and why."""

    def __init__(self, line: int, reason: str) -> None:
        super().__init__(f"{line}: {reason}")
        self.line = line
        self.reason = reason


class Boundary(NamedTuple):
    """The boundary of a solid: its corners, its faces as numbers of corners from 0, and the plane of each face."""

    corners: list[Corner]
    faces: list[tuple[int, ...]]
    planes: list[Plane]


def read(data: bytes) -> Boundary:
    """The boundary that the bytes of a 4OFF text print.

    Raises `Malformed` where they are no text as the server prints them.
    """
    lines = _lines(data)
    if lines[0] != "4OFF":
        raise Malformed(1, "the first line is not '4OFF'")
    counts = _COUNTS.fullmatch(lines[1]) if len(lines) > 1 else None
    if counts is None:
        raise Malformed(2, "the second line is not 'VERTICES FACES 0'")
    vertices, faces = int(counts[1]), int(counts[2])
    if len(lines) != 2 + vertices + faces:
        raise Malformed(2, f"{vertices} vertices and {faces} faces are {2 + vertices + faces} lines, not {len(lines)}")
    corners = _corners(lines[2 : 2 + vertices])
    rings = _rings(lines[2 + vertices :], vertices)
    planes = [_plane([corners[c] for c in ring], 3 + vertices + at) for at, ring in enumerate(rings)]
    return Boundary(corners, rings, planes)


def numbers_of(data: bytes) -> tuple[list[Corner], list[tuple[int, ...]]]:
    """The corners and the faces of a text that the server has just printed, of which nothing is tested again."""
    lines = data.decode("ascii").split("\n")
    vertices = int(lines[1].partition(" ")[0])
    corners = []
    for line in lines[2 : 2 + vertices]:
        x, y, z, w = map(int, line.split(" "))
        corners.append((x, y, z, w))
    return corners, [tuple(map(int, line.split(" ")[1:])) for line in lines[2 + vertices : -1]]


def plane_of(p: Corner, q: Corner, r: Corner) -> Plane | None:
    """The plane through three corners, from ahead of which they go counterclockwise; None where they are on one line."""
    x, y, z, w = p
    ux, uy, uz = q[0] * w - x * q[3], q[1] * w - y * q[3], q[2] * w - z * q[3]
    vx, vy, vz = r[0] * w - x * r[3], r[1] * w - y * r[3], r[2] * w - z * r[3]
    a, b, c = uy * vz - uz * vy, uz * vx - ux * vz, ux * vy - uy * vx
    if not (a or b or c):
        return None
    d = a * x + b * y + c * z
    divisor = gcd(a * w, b * w, c * w, d)
    return a * w // divisor, b * w // divisor, c * w // divisor, d // divisor


def _lines(data: bytes) -> list[str]:
    """The lines of a text that ends with a newline, without their newlines."""
    try:
        text = data.decode("ascii")
    except UnicodeDecodeError as error:
        raise Malformed(data.count(b"\n", 0, error.start) + 1, "a byte that is not ASCII") from None
    lines = text.split("\n")
    if not text:
        raise Malformed(1, "the text is empty")
    if "\r" in text:
        raise Malformed(text.count("\n", 0, text.index("\r")) + 1, "a carriage return: lines end with a newline alone")
    if lines.pop() != "":
        raise Malformed(len(lines) + 1, "the text breaks off: no newline at its end")
    return lines


def _corners(lines: list[str]) -> list[Corner]:
    """The corners that the lines print; the first of them is line 3 of the text."""
    seen: dict[Corner, int] = {}
    for number, line in enumerate(lines, 3):
        parts = _CORNER.fullmatch(line)
        if parts is None:
            raise Malformed(number, "a vertex is not 'X Y Z W' in whole numbers with W above 0")
        corner = (int(parts[1]), int(parts[2]), int(parts[3]), int(parts[4]))
        if gcd(*corner) != 1:
            raise Malformed(number, "the numbers of a vertex have a common factor")
        if max(abs(part) for part in corner[:3]) > ROOM * corner[3]:
            raise Malformed(number, f"the vertex is further than {ROOM} units from the origin along an axis")
        if corner in seen:
            raise Malformed(number, f"the vertex stands on line {seen[corner]} too")
        seen[corner] = number
    return list(seen)


def _rings(lines: list[str], vertices: int) -> list[tuple[int, ...]]:
    """The faces that the lines print, behind this many vertices, which are numbered by first appearance."""
    rings = []
    appeared = 0
    for number, line in enumerate(lines, 3 + vertices):
        if _FACE.fullmatch(line) is None:
            raise Malformed(number, "a face is not its number of corners and then their vertices")
        count, *ring = map(int, line.split(" "))
        if count < 3 or count != len(ring):
            raise Malformed(number, f"the face says {count} corners and has {len(ring)}, of at least 3")
        if len(set(ring)) != count:
            raise Malformed(number, "the face has a vertex twice")
        for vertex in ring:
            if vertex > appeared or vertex >= vertices:
                raise Malformed(number, f"vertex {vertex} is not there, or not numbered by first appearance")
            appeared = max(appeared, vertex + 1)
        rings.append(tuple(ring))
    if appeared != vertices:
        raise Malformed(3 + appeared, "no face has this vertex")
    return rings


def _plane(ring: Sequence[Corner], line: int) -> Plane:
    """The plane of a face, from ahead of which its corners go counterclockwise, once round, each turning left."""
    plane = plane_of(*ring[:3])
    if plane is None:
        raise Malformed(line, "three corners of the face in a row lie on one line")
    if any(plane[0] * p[0] + plane[1] * p[1] + plane[2] * p[2] != plane[3] * p[3] for p in ring[3:]):
        raise Malformed(line, "the face is not flat")
    if not _is_convex(flatten(ring, plane)):
        raise Malformed(line, "the face is not convex")
    return plane


def flatten(ring: Sequence[Corner], plane: Plane) -> list[Flat]:
    """The corners, all on the plane, seen along one axis from ahead of the plane, so that left turns stay left turns."""
    axis = next(i for i in (2, 1, 0) if plane[i])
    right, up = (axis + 1) % 3, (axis + 2) % 3
    if plane[axis] < 0:
        right, up = up, right
    return [(p[right], p[up], p[3]) for p in ring]


def determinant(p: Sequence[int], q: Sequence[int], r: Sequence[int]) -> int:
    """The determinant of the first three numbers of each."""
    return (
        p[0] * (q[1] * r[2] - q[2] * r[1])
        - p[1] * (q[0] * r[2] - q[2] * r[0])
        + p[2] * (q[0] * r[1] - q[1] * r[0])
    )


#: Of corners seen along an axis: above 0 where the way from p over q to r turns left, below 0 where it turns right, and else 0.
turn = determinant


def _is_convex(ring: list[Flat]) -> bool:
    """Whether each corner turns left and all of them go round once.

    Seen from the first corner the others are within a half turn to the left of the second, one behind the other.
    """
    first, second = ring[:2]
    size = len(ring)
    return all(
        turn(ring[i - 1], ring[i], ring[(i + 1) % size]) > 0
        and (i < 2 or turn(first, second, ring[i]) > 0)
        and (i in (0, size - 1) or turn(first, ring[i], ring[i + 1]) > 0)
        for i in range(size)
    )
