"""Shapes in space of OpenSCAD's evaluated form, as joins of convex leaves with OpenSCAD's own corners."""

from __future__ import annotations

import math
from typing import Callable, Dict, List, Sequence, Tuple

from . import exact_hull
from .arguments import SIZES
from .extrude import Extrusion, turns
from .flat import FINE, Plan, Plane, Render
from .polyhedron import Surface, columns, cut, faces_of, looks_inward
from .reader import Node
from .steps import OF_OUTLINES
from .tree import circle, frame_of, fragments, is_mirrored, is_union, joined, leaves, matrix_of, moved, stretch, times
from .tree import DIFFERENCE, IDENTITY, INTERSECTION, UNION, Detail, Faced, Join, Leaf, Matrix, Solid, Vector
from .turned import Turned

#: What renders a node of space: the points and the faces of its boundary.
RenderSolid = Callable[[Node], Tuple[List[Vector], List[List[int]]]]
# More sums than these are no corners of a `minkowski` that is converted.
_MOST_SUMS = 200_000


class Space:
    """Evaluates nodes in space."""

    def __init__(self, detail: Detail, render: Render, render_solid: RenderSolid) -> None:
        self._detail = detail
        self._plane = Plane(detail, render)
        self._render_solid = render_solid
        self._of: Dict[str, Callable[[Node, Matrix], Solid | None]] = {
            "cube": self._cube, "cylinder": self._cylinder, "sphere": self._sphere, "polyhedron": self._polyhedron,
            "linear_extrude": self._extruded, "rotate_extrude": self._turned, "hull": self._hull,
            "minkowski": self._minkowski, "resize": self._resized, "import": self._rendered, "surface": self._terrain,
        }  # fmt: skip

    def solid(self, nodes: Sequence[Node], matrix: Matrix) -> Solid | None:
        """The union of nodes, moved by a matrix. Raises CsgFault."""
        return joined(UNION, [self._solid(it, matrix) for it in nodes])

    def _solid(self, node: Node, matrix: Matrix) -> Solid | None:
        if self._detail.is_endless(node):
            return None
        if node.name == "multmatrix":
            return self.solid(node.shown(), times(matrix, matrix_of(node)))
        if node.name in ("group", "union", "color", "render"):
            return self.solid(node.shown(), matrix)
        if node.name in (DIFFERENCE, INTERSECTION):
            return joined(node.name, [self._solid(it, matrix) for it in node.shown()])
        if node.name not in self._of:
            raise node.fault("WrongDimension", "a shape in the plane stands where one in space is wanted")
        return self._of[node.name](node, matrix)

    def _cube(self, node: Node, matrix: Matrix) -> Solid | None:
        sides = node.numbers("size", 3)
        low = [-it / 2 if node.truth("center") else 0.0 for it in sides]
        ends = [(it, it + side) for it, side in zip(low, sides)]
        corners = [(x, y, z) for x in ends[0] for y in ends[1] for z in ends[2]]
        return Leaf(moved(matrix, corners), frame_of(matrix), node) if min(sides) > 0 else None

    def _cylinder(self, node: Node, matrix: Matrix) -> Solid | None:
        height, low, high = node.number("h"), node.number("r1"), node.number("r2")
        if height <= 0 or min(low, high) < 0 or max(low, high) <= 0:
            return None
        count = fragments(node, max(low, high))
        self._detail.take(node, 2 * count)
        kept, off = self._detail.ring(count, max(low, high) * stretch(matrix))
        self._detail.is_off(off)
        self._detail.note(node, len(kept), count)
        z = -height / 2 if node.truth("center") else 0.0
        corners: list[Vector] = []
        for radius, at in ((low, z), (high, z + height)):
            corners += [(x, y, at) for x, y in circle(radius, count, kept)] if radius > 0 else [(0.0, 0.0, at)]
        return Leaf(moved(matrix, corners), frame_of(matrix), node)

    def _sphere(self, node: Node, matrix: Matrix) -> Solid | None:
        radius = node.number("r")
        if radius <= 0:
            return None
        count = fragments(node, radius)
        rings = (count + 1) // 2
        self._detail.take(node, count * rings)
        kept, off = self._detail.ring(count, radius * stretch(matrix), 0.5)
        # (the first ring and the middle one, of which there may be two, stay, and the lower half is as the upper one)
        half, besides = list(range(rings // 2 + 1)), 0.0
        if rings > 4:
            half, besides = self._detail.row(rings // 2, math.pi / rings, radius * stretch(matrix), 0.5)
        self._detail.is_off(off + besides)
        both = sorted({*half, *(rings - 1 - it for it in half)} & set(range(rings)))
        self._detail.note(node, len(kept) * len(both), count * rings)
        corners: list[Vector] = []
        for it in both:
            angle = math.pi * (it + 0.5) / rings
            corners += [(x, y, radius * math.cos(angle)) for x, y in circle(radius * math.sin(angle), count, kept)]
        return Leaf(moved(matrix, corners), frame_of(matrix), node)

    def _polyhedron(self, node: Node, matrix: Matrix) -> Solid | None:
        points = node.arguments.get("points")
        if points is None:
            return None
        if not isinstance(points, list):
            raise node.fault("BadArgument", "points is not a list")
        places = [(x, y, z) for x, y, z in (node.numbers("points", 3, it) for it in points)]
        return self._cut(node, matrix, places, faces_of(node, len(places)))

    def _cut(self, node: Node, matrix: Matrix, places: list[Vector], faces: list[list[int]]) -> Solid | None:
        if looks_inward(places, faces):
            self._detail.note_inward(node)
            faces = [face[::-1] for face in faces]
        found = cut(node, places, faces)
        if isinstance(found, Surface):
            rings = [ring[::-1] for ring in found.rings] if is_mirrored(matrix) else found.rings
            return Faced(Leaf(moved(matrix, found.places), None, node), rings)
        return joined(UNION, [Leaf(moved(matrix, it), None, node) for it in found])

    def _rendered(self, node: Node, matrix: Matrix) -> Solid | None:
        return self._cut(node, matrix, *self._render_solid(node))

    def _terrain(self, node: Node, matrix: Matrix) -> Solid | None:
        places, faces = self._render_solid(node)
        way = frame_of(matrix)
        return joined(UNION, [Leaf(moved(matrix, it), way, node) for it in columns(node, places, faces)]) if faces else None

    def _extruded(self, node: Node, matrix: Matrix) -> Solid | None:
        share = OF_OUTLINES if self._detail.may_step and node.number("twist", 0.0) else 1.0
        with self._detail.moving(stretch(matrix), share):
            plan = self._extruded_plan(node, matrix)
            return None if plan is None else Extrusion(node, matrix, self._plane, self._detail, plan).solid()

    def _extruded_plan(self, node: Node, matrix: Matrix) -> Plan | None:
        """What is extruded, as the outlines that OpenSCAD makes of it where these turn on the way, or have fewer planes."""
        children = node.shown()
        if not self._detail.most and children and turns(node):
            plan = self._plane.plan(children, IDENTITY)
            return (self._plane.as_one(children) or plan) if isinstance(plan, Join) else plan
        aside = self._plane.aside()
        plan = aside.plan(children, IDENTITY) if self._detail.may_step else None
        outline = aside.as_one(children) if isinstance(plan, Join) else None
        if plan is not None and outline is not None:
            own, as_one = (Extrusion(node, matrix, aside, self._detail, it).planes() for it in (plan, outline))
            if as_one < own:
                return outline
        return self._plane.plan(children, IDENTITY)

    def _turned(self, node: Node, matrix: Matrix) -> Solid | None:
        with self._detail.moving(stretch(matrix)):
            plan = self._plane.plan(node.shown(), IDENTITY)
            return None if plan is None else Turned(node, matrix, self._plane, self._detail, plan).solid()

    def _hull(self, node: Node, matrix: Matrix) -> Solid | None:
        clouds = [_cloud(it, matrix) for it in node.shown()]
        within = [None if cloud else self._solid(it, matrix) for cloud, it in zip(clouds, node.shown())]
        if all(it is None or is_union(it) for it in within):
            corners = [corner for it in within for leaf in leaves(it) for corner in leaf.corners]
            corners += [corner for cloud in clouds for corner in cloud or []]
        else:
            corners = moved(matrix, self._render_solid(node)[0])
        return Leaf(_corners(corners), frame_of(matrix), node) if corners else None

    def _minkowski(self, node: Node, matrix: Matrix) -> Solid | None:
        """The sums of leaves of one child and of the next, which unions are pairs by pairs; of other joins what OpenSCAD
        renders."""
        before = self._detail.off
        sums: list[list[Vector]] = []
        off = 0.0
        for it in node.shown():
            self._detail.off = 0.0
            within = self._solid(it, matrix if not sums else _without_move(matrix))
            off += self._detail.off
            if within is None:
                continue
            if not is_union(within):
                self._detail.off = max(before, off)
                return self._rendered(node, matrix)
            parts = [list(leaf.corners) for leaf in leaves(within)]
            if sum(map(len, sums)) * sum(map(len, parts)) > _MOST_SUMS:
                raise node.fault("LongList", f"more than {_MOST_SUMS} sums of corners")
            sums = [_sums(one, two) for one in sums for two in parts] if sums else parts
        self._detail.off = max(before, off)
        return joined(UNION, [Leaf(_corners(it), frame_of(matrix), node) for it in sums])

    def _resized(self, node: Node, matrix: Matrix) -> Solid | None:
        """Scaled from the origin, so that the box has the new sides."""
        within = self.solid(node.shown(), IDENTITY)
        if within is None:
            return None
        corners = [corner for leaf in leaves(within) for corner in leaf.corners] if is_union(within) else self._boundary(node)
        sides = [max(axis) - min(axis) for axis in zip(*corners)]
        if not corners or min(sides) == 0:
            return None
        new = node.numbers("newsize", 3)
        auto = node.arguments.get("auto")
        factors = [size / side if size > 0 else 1.0 for size, side in zip(new, sides)]
        greatest = new.index(max(new))
        for axis, is_auto in enumerate(auto[:3] if isinstance(auto, list) else []):
            if is_auto and new[axis] == 0:
                factors[axis] = factors[greatest]
        scale = tuple(tuple(factors[i] if i == k else 0.0 for k in range(4)) for i in range(3))
        return self.solid(node.shown(), times(matrix, scale))

    def _boundary(self, node: Node) -> list[Vector]:
        """The corners of what is in a node, as OpenSCAD has them."""
        return self._render_solid(node.with_children("union", node.shown()))[0]


def _cloud(node: Node, matrix: Matrix) -> list[Vector] | None:
    """The corners of the faces of a polyhedron alone, moved: of these OpenSCAD makes a hull, whether or not the faces close a
    body. None where a node is something else. Raises CsgFault."""
    while node.name in ("multmatrix", "group", "union", "color") and len(node.shown()) == 1:
        if node.is_endless(SIZES.get(node.name, [])):
            return None
        matrix = times(matrix, matrix_of(node)) if node.name == "multmatrix" else matrix
        node = node.shown()[0]
    points = node.arguments.get("points")
    if node.name != "polyhedron" or not isinstance(points, list):
        return None
    used = {at for face in faces_of(node, len(points)) for at in face}
    places = [(x, y, z) for x, y, z in (node.numbers("points", 3, points[it]) for it in sorted(used))]
    return moved(matrix, places)


def _without_move(matrix: Matrix) -> Matrix:
    return tuple((*row[:3], 0.0) for row in matrix)


def _corners(points: Sequence[Vector]) -> Sequence[Vector]:
    """The corners of the hull of points, in millionths exactly, before any is rounded; all points where they are flat."""
    if len(points) <= 8:
        return points
    places = {(round(x * FINE), round(y * FINE), round(z * FINE)): (x, y, z) for x, y, z in points}
    body = exact_hull.hull(places)
    return points if body is None else [places[it] for it in body.corners]


def _sums(one: Sequence[Vector], two: Sequence[Vector]) -> list[Vector]:
    return [(a + x, b + y, c + z) for a, b, c in one for x, y, z in two]

