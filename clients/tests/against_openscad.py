"""What is compared of a part that `--by-openscad` gives and of what OpenSCAD itself makes of it: box, volume, points."""

from __future__ import annotations

import random
from typing import NamedTuple, Sequence

from scadserve.solid import closing
from scadserve.solid import fouroff

Point = tuple[float, float, float]


class Mesh(NamedTuple):
    """Triangles by their corners."""

    triangles: list[tuple[Point, Point, Point]]

    def box(self) -> list[tuple[float, float]]:
        """The least and the greatest x, y and z."""
        return [(min(axis), max(axis)) for axis in zip(*(corner for it in self.triangles for corner in it))]

    def volume(self) -> float:
        """The volume inside."""
        return sum(_determinant(*it) for it in self.triangles) / 6

    def surface(self) -> float:
        """The area of all triangles."""
        return sum(_length(_cross(_less(b, a), _less(c, a))) / 2 for a, b, c in self.triangles)

    def holds(self, point: Point) -> bool:
        """Whether a point is inside: a way up from it goes through the surface an odd number of times."""
        x, y, z = point
        inside = False
        for a, b, c in self.triangles:
            if min(a[0], b[0], c[0]) <= x < max(a[0], b[0], c[0]) and min(a[1], b[1], c[1]) <= y <= max(a[1], b[1], c[1]):
                height = _height_at(a, b, c, x, y)
                if height is not None and height > z:
                    inside = not inside
        return inside

    def is_near(self, point: Point, distance: float) -> bool:
        """Whether some triangle's box is so near to a point."""
        return any(
            all(min(a[i], b[i], c[i]) - distance <= point[i] <= max(a[i], b[i], c[i]) + distance for i in range(3))
            and _distance(point, a, b, c) <= distance
            for a, b, c in self.triangles
        )


def of_4off(data: bytes, unit: float) -> Mesh:
    """The surface of a 4OFF text, in lengths."""
    boundary = fouroff.read(data)
    corners = [(x / w * unit, y / w * unit, z / w * unit) for x, y, z, w in boundary.corners]
    cuts = closing.triangles(boundary, closing.close(boundary))
    return Mesh([(corners[a], corners[b], corners[c]) for face in cuts for a, b, c in face])


def of_off(text: str) -> Mesh:
    """The surface of an OFF text as OpenSCAD writes it."""
    words = [line.split() for line in text.splitlines() if line.strip()]
    counts, rest = (words[0][1:], words[1:]) if words[0][1:] else (words[1], words[2:])
    vertices = int(counts[0])
    corners = [(float(x), float(y), float(z)) for x, y, z in (it[:3] for it in rest[:vertices])]
    faces = [[int(it) for it in line[1 : 1 + int(line[0])]] for line in rest[vertices : vertices + int(counts[1])]]
    return Mesh([(corners[f[0]], corners[b], corners[c]) for f in faces for b, c in zip(f[1:], f[2:])])


def differences(ours: Mesh, theirs: Mesh, off: float, count: int = 200) -> list[str]:
    """What differs by more than points that are off by so much at most can make differ, a line each."""
    found = []
    for axis, (low, high), (their_low, their_high) in zip("xyz", ours.box(), theirs.box()):
        if max(abs(low - their_low), abs(high - their_high)) > off:
            found.append(f"box {axis}: {low:.4f} to {high:.4f}, and {their_low:.4f} to {their_high:.4f} there")
    volume, their_volume = ours.volume(), theirs.volume()
    if abs(volume - their_volume) > max(ours.surface(), theirs.surface()) * off:
        found.append(f"volume: {volume:.4f}, and {their_volume:.4f} there")
    wrong = [it for it in _points(theirs, count) if ours.holds(it) != theirs.holds(it) and not theirs.is_near(it, off)]
    if wrong:
        found.append(f"points: {len(wrong)} of {count}, as {', '.join(f'{it:.3f}' for it in wrong[0])}")
    return found


def _points(mesh: Mesh, count: int) -> list[Point]:
    """Points in the box and a little round it, the same each time."""
    numbers = random.Random(7)
    ends = [(low - (high - low) / 20, high + (high - low) / 20) for low, high in mesh.box()]
    return [tuple(numbers.uniform(low, high) for low, high in ends) for _ in range(count)]  # type: ignore[misc]


def _less(p: Point, q: Point) -> Point:
    return p[0] - q[0], p[1] - q[1], p[2] - q[2]


def _cross(u: Point, v: Point) -> Point:
    return u[1] * v[2] - u[2] * v[1], u[2] * v[0] - u[0] * v[2], u[0] * v[1] - u[1] * v[0]


def _dot(u: Sequence[float], v: Sequence[float]) -> float:
    return u[0] * v[0] + u[1] * v[1] + u[2] * v[2]


def _length(u: Point) -> float:
    return float(_dot(u, u) ** 0.5)


def _determinant(p: Point, q: Point, r: Point) -> float:
    return _dot(p, _cross(q, r))


def _height_at(a: Point, b: Point, c: Point, x: float, y: float) -> float | None:
    """The z of a triangle above a place; None where it isn't there."""
    signs = [(q[0] - p[0]) * (y - p[1]) - (q[1] - p[1]) * (x - p[0]) for p, q in ((a, b), (b, c), (c, a))]
    total = sum(signs)
    if total == 0 or min(signs) < 0 < max(signs):
        return None
    return (a[2] * signs[1] + b[2] * signs[2] + c[2] * signs[0]) / total


def _distance(p: Point, a: Point, b: Point, c: Point) -> float:
    """How far a point is from a triangle."""
    normal = _cross(_less(b, a), _less(c, a))
    length = _length(normal)
    if length and all(_dot(_cross(_less(r, q), _less(p, q)), normal) >= 0 for q, r in ((a, b), (b, c), (c, a))):
        return abs(_dot(_less(p, a), normal)) / length
    return min(_to_way(p, q, r) for q, r in ((a, b), (b, c), (c, a)))


def _to_way(p: Point, q: Point, r: Point) -> float:
    along, away = _less(r, q), _less(p, q)
    square = _dot(along, along)
    part = min(1.0, max(0.0, _dot(along, away) / square)) if square else 0.0
    return _length(_less(away, (along[0] * part, along[1] * part, along[2] * part)))
