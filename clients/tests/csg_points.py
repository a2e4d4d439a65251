"""Which points are inside what OpenSCAD's evaluated form means, exactly, and where its corners are: for nodes of boxes, of
polyhedra and cylinders with four sides, of extrusions, moves and joins. Another node is NotRead."""

from __future__ import annotations

from dataclasses import replace
from fractions import Fraction
from math import lcm
from typing import Callable, Iterable, Iterator, NamedTuple, Sequence

from scadserve.openscad import exact_hull
from scadserve.openscad.reader import Node

#: A point (x/w, y/w, z/w), w above 0. Its numbers are whole, but where the form has decimals.
Point = tuple["int | Fraction", "int | Fraction", "int | Fraction", "int | Fraction"]
Inside = Callable[[Point], bool]
Row = Sequence["int | Fraction"]
UNIONS = ("group", "union", "color", "render")


class NotRead(Exception):
    """A node, or an argument of it, that has no exact meaning here."""


class Map(NamedTuple):
    """An affine map by its three rows."""

    rows: tuple[Row, Row, Row]

    def image(self, p: Point) -> Point:
        x, y, z = (r[0] * p[0] + r[1] * p[1] + r[2] * p[2] + r[3] * p[3] for r in self.rows)
        return x, y, z, p[3]

    def origin_of(self, p: Point) -> Point | None:
        """The point whose image this is; None where the map flattens space."""
        (a, b, c, x), (d, e, f, y), (g, h, i, z) = self.rows
        below = a * (e * i - f * h) + b * (f * g - d * i) + c * (d * h - e * g)
        if below == 0:
            return None
        u, v, w = p[0] - x * p[3], p[1] - y * p[3], p[2] - z * p[3]
        found = (
            u * (e * i - f * h) + v * (c * h - b * i) + w * (b * f - c * e),
            u * (f * g - d * i) + v * (a * i - c * g) + w * (c * d - a * f),
            u * (d * h - e * g) + v * (b * g - a * h) + w * (a * e - b * d),
        )
        sign = 1 if below > 0 else -1
        return sign * found[0], sign * found[1], sign * found[2], sign * below * p[3]


def exact(number: float) -> int | Fraction:
    """A number as it is printed. One of more than six digits was rounded."""
    if abs(number) >= 1_000_000:
        raise NotRead("a number of more than six digits")
    return int(number) if number == int(number) else Fraction(repr(number))


def numbers(node: Node, name: str, count: int) -> list[int | Fraction]:
    return [exact(it) for it in node.numbers(name, count)]


def map_of(node: Node) -> Map:
    value = node.arguments.get("")
    if not isinstance(value, list) or len(value) != 4:
        raise NotRead("a matrix")
    x, y, z = ([exact(it) for it in node.numbers("", 4, row)] for row in value[:3])
    return Map((x, y, z))


def points_of(node: Node, count: int) -> list[list[int | Fraction]]:
    value = node.arguments.get("points")
    if not isinstance(value, list):
        raise NotRead("points")
    return [[exact(it) for it in node.numbers("points", count, point)] for point in value]


def four_sides(node: Node) -> None:
    if node.number("$fn") != 4:
        raise NotRead(f"{node.name} of another number of sides")


def ends(node: Node, length: int | Fraction) -> tuple[int | Fraction, int | Fraction]:
    """Where a length begins and ends."""
    return (-Fraction(length) / 2, Fraction(length) / 2) if node.truth("center") else (0, length)


def is_between(at: int | Fraction, w: int | Fraction, of: tuple[int | Fraction, int | Fraction]) -> bool:
    return of[0] * w < at < of[1] * w


def box(node: Node, count: int) -> Inside:
    spans = [ends(node, side) for side in numbers(node, "size", count)]
    return lambda p: all(is_between(at, p[3], span) for at, span in zip(p, spans))


def circle(node: Node) -> Inside:
    four_sides(node)
    r = exact(node.number("r"))
    return lambda p: abs(p[0]) + abs(p[1]) < r * p[3]


def cylinder(node: Node) -> Inside:
    four_sides(node)
    h, low, high = (exact(node.number(name)) for name in ("h", "r1", "r2"))
    span = ends(node, h)
    return lambda p: is_between(p[2], p[3], span) and (
        (abs(p[0]) + abs(p[1])) * h < low * h * p[3] + (high - low) * (p[2] - span[0] * p[3]))


def polygon(node: Node) -> Inside:
    """A way out to the right crosses the outline an odd number of times."""
    if node.arguments.get("paths") is not None:
        raise NotRead("a polygon of paths")
    corners = points_of(node, 2)
    sides = [it for it in zip(corners, [*corners[1:], corners[0]])]

    def told(p: Point) -> bool:
        x, y = Fraction(p[0]) / p[3], Fraction(p[1]) / p[3]
        crossed = [x < a + Fraction(c - a) * (y - b) / (d - b) for (a, b), (c, d) in sides if (b > y) != (d > y)]
        return crossed.count(True) % 2 == 1
    return told


def polyhedron(node: Node) -> Inside:
    """One that is convex: a point is on one side of all of its faces."""
    points, faces = points_of(node, 3), node.arguments.get("faces")
    listed = faces if isinstance(faces, list) else []
    corners = [[points[at] for at in node.indices("a face", it, len(points))] for it in listed]
    return behind([it for it in map(plane_of, corners) if it is not None])


def behind(planes: Sequence[tuple[int | Fraction, ...]]) -> Inside:
    """The points that are on one and the same side of all planes, of which there are some."""
    def told(p: Point) -> bool:
        values = [m[0] * p[0] + m[1] * p[1] + m[2] * p[2] - m[3] * p[3] for m in planes]
        return bool(values) and (max(values) < 0 or min(values) > 0)
    return told


def plane_of(corners: Sequence[Sequence[int | Fraction]]) -> tuple[int | Fraction, ...] | None:
    """The plane through corners; None where they are on one line."""
    (a, b, c), rest = corners[0], corners[1:]
    for u, v in ((u, v) for at, u in enumerate(rest) for v in rest[at + 1:]):
        d, e, f, g, h, i = u[0] - a, u[1] - b, u[2] - c, v[0] - a, v[1] - b, v[2] - c
        n = (e * i - f * h, f * g - d * i, d * h - e * g)
        if any(n):
            return (*n, n[0] * a + n[1] * b + n[2] * c)
    return None


def extrusion(node: Node) -> Inside:
    if node.number("twist", 0) != 0 or node.arguments.get("scale", [1, 1]) != [1, 1]:
        raise NotRead("an extrusion that turns")
    span, flat = ends(node, exact(node.number("height"))), union(node.shown())
    return lambda p: is_between(p[2], p[3], span) and flat(p)


def hull(node: Node) -> Inside:
    """The hull of the corners of all that is in it, which is joined by unions alone."""
    corners = [Fraction(at) / it[3] for it in corners_of(map(joined, node.shown())) for at in it[:3]]
    below = lcm(*(it.denominator for it in corners))
    whole = [int(it * below) for it in corners]
    body = exact_hull.hull(list(zip(whole[::3], whole[1::3], whole[2::3])))
    return behind([(a * below, b * below, c * below, d) for a, b, c, d in (body.facets if body is not None else [])])


def joined(node: Node) -> Node:
    """A node without differences and intersections, which are those of empty nodes."""
    children = [joined(it) for it in node.shown()]
    empty = [not any(True for _ in corners_of([it])) for it in children]
    if node.name == "difference":
        if not all(empty[1:]) and not empty[0]:
            raise NotRead("a hull of a difference")
        children = children[:1]
    elif node.name == "intersection":
        if len(children) > 1 and not any(empty):
            raise NotRead("a hull of an intersection")
        children = [] if any(empty) else children
    return replace(node, name="union" if node.name in ("difference", "intersection") else node.name, children=children)


def move(node: Node) -> Inside:
    moved, all_in_it = map_of(node), union(node.shown())

    def told(p: Point) -> bool:
        origin = moved.origin_of(p)
        return origin is not None and all_in_it(origin)
    return told


def union(nodes: Sequence[Node]) -> Inside:
    parts = [inside(it) for it in nodes]
    return lambda p: any(it(p) for it in parts)


def difference(node: Node) -> Inside:
    first, rest = union(node.shown()[:1]), union(node.shown()[1:])
    return lambda p: first(p) and not rest(p)


def intersection(node: Node) -> Inside:
    parts = [inside(it) for it in node.shown()]
    return lambda p: bool(parts) and all(it(p) for it in parts)


MEANING: dict[str, Callable[[Node], Inside]] = {
    **dict.fromkeys(UNIONS, lambda node: union(node.shown())),
    "difference": difference, "intersection": intersection, "hull": hull, "multmatrix": move, "linear_extrude": extrusion,
    "cube": lambda node: box(node, 3), "cylinder": cylinder, "polyhedron": polyhedron,
    "square": lambda node: box(node, 2), "circle": circle, "polygon": polygon,
}


def inside(node: Node) -> Inside:
    """What tells whether a point is strictly inside a node. Raises NotRead."""
    if node.name not in MEANING:
        raise NotRead(node.name)
    return MEANING[node.name](node)


def own_corners(node: Node) -> list[Sequence[int | Fraction]]:
    """The corners of a shape; those of a flat one at the height 0."""
    if node.name in ("cube", "square"):
        sides = [ends(node, it) for it in numbers(node, "size", 3 if node.name == "cube" else 2)]
        return [(x, y, z) for x in sides[0] for y in sides[1] for z in (sides[2] if len(sides) > 2 else (0,))]
    if node.name in ("circle", "cylinder"):
        four_sides(node)
        flat = node.name == "circle"
        radii = [exact(node.number(it)) for it in (("r",) if flat else ("r1", "r2"))]
        heights = (0,) if flat else ends(node, exact(node.number("h")))
        return [(x * r, y * r, z) for r, z in zip(radii, heights) for x, y in ((1, 0), (0, 1), (-1, 0), (0, -1))]
    if node.name == "polygon":
        return [(x, y, 0) for x, y in points_of(node, 2)]
    faces = node.arguments.get("faces")
    points = points_of(node, 3)
    used = {at for face in (faces if isinstance(faces, list) else []) for at in node.indices("a face", face, len(points))}
    return [points[at] for at in sorted(used)]


def corners_of(nodes: Iterable[Node]) -> Iterator[Point]:
    """The corners of all shapes in nodes, each where it is moved to."""
    for node in nodes:
        if node.name == "multmatrix":
            moved = map_of(node)
            yield from (moved.image(it) for it in corners_of(node.shown()))
        elif node.name == "linear_extrude":
            low, high = ends(node, exact(node.number("height")))
            yield from ((x, y, z * w, w) for x, y, _, w in corners_of(node.shown()) for z in (low, high))
        elif node.name in (*UNIONS, "difference", "intersection", "hull"):
            yield from corners_of(node.shown())
        elif node.name in MEANING:
            yield from ((x, y, z, 1) for x, y, z in own_corners(node))
        else:
            raise NotRead(node.name)
