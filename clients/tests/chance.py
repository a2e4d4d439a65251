"""Designs put together by chance on the grid, for tests of tiles: boxes, balls and cones with faces on common planes, with
edges that touch, and on walls of tiles and off them."""

from __future__ import annotations

import math
from fractions import Fraction
from random import Random
from typing import Mapping

from scadserve.openscad.exact_hull import hull
from scadserve.openscad.grid import Body, Grid, split, written_grid
from scadserve.openscad.reader import Node
from scadserve.openscad.tree import DIFFERENCE, INTERSECTION, UNION, Join, joined
from scadserve.solid.fouroff import Boundary, Plane, flatten

NODE = Node("made", {}, "", 1, 1)


def ball(center: tuple[int, int, int], radius: int, count: int) -> Body:
    """A ball as OpenSCAD makes one, with its corners rounded."""
    points = []
    rings = (count + 1) // 2
    for ring in range(rings):
        polar = math.pi * (ring + 0.5) / rings
        for at in range(count):
            turn = 2 * math.pi * at / count
            ways = (math.sin(polar) * math.cos(turn), math.sin(polar) * math.sin(turn), math.cos(polar))
            points.append(tuple(middle + round(radius * way) for middle, way in zip(center, ways)))
    return body(points)


def cone(center: tuple[int, int, int], low: int, high: int, height: int, count: int) -> Body:
    """A cone or a cylinder."""
    x, y, z = center
    points = []
    for radius, level in ((low, z), (high, z + height)):
        for at in range(count if radius else 1):
            turn = 2 * math.pi * at / count
            points.append((x + round(radius * math.cos(turn)), y + round(radius * math.sin(turn)), level))
    return body(points)


def box(center: tuple[int, int, int], sides: tuple[int, int, int]) -> Body:
    """A box by its least corner."""
    x, y, z = center
    a, b, c = sides
    return body([(i, j, k) for i in (x, x + a) for j in (y, y + b) for k in (z, z + c)])


def body(points: list[tuple[int, int, int]]) -> Body:
    """The hull of points as a leaf."""
    found = hull(points)
    assert found is not None
    return Body(found, NODE)


def design(chance: Random, planes: int, size: int = 400, step: int = 25) -> Grid:
    """A design of about this many planes. Places are multiples of a step, so that faces and edges come together."""

    def place() -> tuple[int, int, int]:
        return tuple(chance.randrange(-size, size + 1, step) for _ in range(3))  # type: ignore[return-value]

    parts: list[Grid] = []
    left = planes
    while left > 0:
        kind = chance.random()
        if kind < 0.4:
            parts.append(box(place(), tuple(chance.randrange(step, size, step) for _ in range(3))))  # type: ignore[arg-type]
            left -= 6
        elif kind < 0.7:
            count = chance.randrange(6, max(8, min(80, math.isqrt(2 * left) + 8)), 2)
            parts.append(ball(place(), chance.randrange(step * 2, size // 2, step), count))
            left -= count * count // 2
        else:
            count = chance.randrange(4, max(6, min(200, left)))
            radii = chance.choice([(1, 1), (2, 1), (1, 0), (2, 0)])
            count = count if radii[1] else min(count, 40)
            unit = chance.randrange(step, size // 3, step)
            parts.append(cone(place(), radii[0] * unit, radii[1] * unit, chance.randrange(step, size, step), count))
            left -= count + 2
    return _joined(chance, parts)


def _joined(chance: Random, parts: list[Grid]) -> Grid:
    """Parts joined by chance: mostly by unions and differences."""
    if len(parts) == 1:
        return parts[0]
    at = chance.randrange(1, len(parts))
    most = [UNION, UNION, DIFFERENCE]
    operation = chance.choice([*most, *most, INTERSECTION] if len(parts) < 12 else most)
    return Join(operation, [_joined(chance, parts[:at]), _joined(chance, parts[at:])])


def one_source(grid: Grid) -> str:
    """A design as one source, in which leaves with many corners are unions of hulls."""

    def parted(tree: Grid) -> Grid:
        if isinstance(tree, Join):
            return Join(tree.operation, [parted(it) for it in tree.parts])
        found = joined(UNION, [Body(it, tree.node) for it in split(tree.hull)])
        assert found is not None
        return found

    return "\n".join(written_grid(parted(grid)))


def areas(boundary: Boundary) -> Mapping[Plane, Fraction]:
    """By the plane of faces twice the area of all on it, as seen along an axis: what two texts of one solid have in common."""
    found: dict[Plane, Fraction] = {}
    for ring, plane in zip(boundary.faces, boundary.planes):
        flat = [(Fraction(x, w), Fraction(y, w)) for x, y, w in flatten([boundary.corners[it] for it in ring], plane)]
        twice = sum((p[0] * q[1] - q[0] * p[1] for p, q in zip(flat, [*flat[1:], flat[0]])), Fraction(0))
        found[plane] = found.get(plane, Fraction(0)) + twice
    return found
