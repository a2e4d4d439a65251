"""Shapes in the plane of OpenSCAD's evaluated form: outlines, and joins of these.

What the form can't hold (`text`, `offset`, `projection`, `import`, `resize`, `minkowski`, and hulls of differences) is rendered
by OpenSCAD, and its outlines are read.
"""

from __future__ import annotations

from dataclasses import dataclass
from typing import Callable, List, Sequence, Tuple, Union

from . import convex_pieces
from .convex_pieces import Flat, Loop, NotSimple
from .reader import CsgFault, Node
from .tree import leaves, matrix_of, stretch, times
from .tree import DIFFERENCE, INTERSECTION, UNION, Detail, Join, Matrix, Solid, circle, fragments, is_union, joined

#: Points are taken in millionths, since OpenSCAD writes six digits.
FINE = 1_000_000
#: By which part of its height, or of a side, what cuts a slanted shape goes on past both ends, since these may not stay flat.
PAST = 1 / 16
Place = Tuple[float, float]
#: What renders a node of the plane: its outlines.
Render = Callable[[Node], List[List[Place]]]


@dataclass(frozen=True)
class Outline:
    """Closed lines that don't cross, in order; what an odd number of them encloses is inside."""

    loops: list[list[Place]]
    node: Node
    #: Whether corners may still be left out of it.
    has_more: bool = True


Plan = Union[Outline, "Join[Outline]"]


class Plane:
    """Evaluates nodes in the plane."""

    def __init__(self, detail: Detail, render: Render) -> None:
        self._detail, self._render = detail, render

    def plan(self, nodes: Sequence[Node], matrix: Matrix) -> Plan | None:
        """The union of nodes, moved by a matrix of which x and y count. Raises CsgFault."""
        return joined(UNION, [self._plan(it, matrix) for it in nodes])

    def as_one(self, nodes: Sequence[Node]) -> Outline | None:
        """The union of nodes as the outlines that OpenSCAD makes of it; None where it makes none."""
        union = nodes[0].with_children("union", list(nodes))
        try:
            loops = self._render(union)
        except CsgFault:
            return None
        return Outline(loops, union) if loops else None

    def aside(self) -> Plane:
        """One of the same detail that notes nothing."""
        return Plane(Detail(self._detail.most), self._render)

    def _plan(self, node: Node, matrix: Matrix) -> Plan | None:
        if self._detail.is_endless(node):
            return None
        if node.name == "multmatrix":
            return self.plan(node.shown(), times(matrix, matrix_of(node)))
        if node.name in ("group", "union", "color", "render"):
            return self.plan(node.shown(), matrix)
        if node.name in (DIFFERENCE, INTERSECTION):
            return joined(node.name, [self._plan(it, matrix) for it in node.shown()])
        if node.name == "square":
            return self._square(node, matrix)
        if node.name == "circle":
            return self._circle(node, matrix)
        if node.name == "polygon":
            loops = _paths(node)
            try:
                convex_pieces.check_simple([it for it in (convex_pieces.cleaned(fine(loop)) for loop in loops) if it])
            except NotSimple:
                loops = self._render(node)
            return Outline([_moved(matrix, it) for it in loops], node) if loops else None
        if node.name == "hull":
            within = self.plan(node.shown(), matrix)
            if is_union(within):
                return _hull(node, within)
        loops = [_moved(matrix, it) for it in self._render(node)]
        return Outline(loops, node) if loops else None

    def _square(self, node: Node, matrix: Matrix) -> Outline | None:
        x, y = node.numbers("size", 2)
        left, low = (-x / 2, -y / 2) if node.truth("center") else (0.0, 0.0)
        loop = [(left, low), (left + x, low), (left + x, low + y), (left, low + y)]
        return Outline([_moved(matrix, loop)], node, False) if x > 0 and y > 0 else None

    def _circle(self, node: Node, matrix: Matrix) -> Outline | None:
        radius = node.number("r")
        if radius <= 0:
            return None
        count = fragments(node, radius)
        self._detail.take(node, count)
        kept, off = self._detail.ring(count, radius * stretch(matrix))
        self._detail.is_off(off)
        self._detail.note(node, len(kept), count)
        return Outline([_moved(matrix, circle(radius, count, kept))], node, False)

    def sound(self, outline: Outline) -> list[tuple[Loop, list[Loop]]]:
        """The loops of an outline with their holes, in millionths, with as few corners as the detail allows."""
        loops = [it for it in (convex_pieces.cleaned(fine(loop)) for loop in outline.loops) if it]
        return convex_pieces.nested(self._simplified(outline, loops) if outline.has_more else loops)

    def _simplified(self, outline: Outline, loops: list[Loop]) -> list[Loop]:
        most = self._detail.most
        while most > self._detail.most / 16:
            fewer = [convex_pieces.simplified(it, most * FINE) for it in loops]
            try:
                convex_pieces.check_simple([loop for loop, _ in fewer])
            except NotSimple:
                most /= 2
                continue
            self._detail.is_off(max((off for _, off in fewer), default=0.0) / FINE)
            self._detail.note(outline.node, sum(len(loop) for loop, _ in fewer), sum(map(len, loops)))
            return [loop for loop, _ in fewer]
        return loops


def _hull(node: Node, within: Plan | None) -> Outline | None:
    corners = convex_pieces.hull(it for outline in leaves(within) for loop in outline.loops for it in fine(loop))
    loop = [(x / FINE, y / FINE) for x, y in corners]
    return Outline([loop], node, False) if len(loop) > 2 else None


def _paths(node: Node) -> list[list[Place]]:
    """The closed lines of a polygon. Raises CsgFault."""
    points, paths = node.arguments.get("points"), node.arguments.get("paths")
    if points is None:
        return []
    if not isinstance(points, list):
        raise node.fault("BadArgument", "points is not a list")
    places = [(x, y) for x, y in (node.numbers("points", 2, it) for it in points)]
    if not paths:
        return [places]
    if not isinstance(paths, list):
        raise node.fault("BadArgument", "paths is not a list")
    return [[places[it] for it in node.indices("a path", path, len(places))] for path in paths]


def _moved(matrix: Matrix, loop: Sequence[Place]) -> list[Place]:
    (a, b, _, c), (d, e, _, f), _ = matrix
    return [(a * x + b * y + c, d * x + e * y + f) for x, y in loop]


def fine(loop: Sequence[Place]) -> Loop:
    """The points in millionths."""
    return [(round(x * FINE), round(y * FINE)) for x, y in loop]


def built(plan: Plan | None, solid_of: Callable[[Outline, bool], Solid | None], is_cut: bool = False) -> Solid | None:
    """The solid of a plan by those of its outlines; the second word says whether one cuts or is cut with another."""
    if not isinstance(plan, Join):
        return None if plan is None else solid_of(plan, is_cut)
    cuts = plan.operation != UNION
    return joined(plan.operation, [built(it, solid_of, is_cut or (cuts and at > 0)) for at, it in enumerate(plan.parts)])


def pieces_of(outline: Outline, loop: Loop, accepts: Callable[[Sequence[Flat]], bool] | None = None) -> list[Loop]:
    """The convex pieces of a closed line of an outline, or wide ones such as `accepts` tells. Raises CsgFault."""
    try:
        return convex_pieces.pieces(loop, accepts, accepts is not None)
    except NotSimple:
        raise outline.node.fault("NotConvex", "its outline can't be cut into convex pieces") from None


def greatest(plan: Plan | None, of: Callable[[float, float], float]) -> float:
    """The greatest of a function over the corners of a plan, without those that are cut off."""
    if plan is None:
        return 0.0
    if not isinstance(plan, Join):
        return max((of(x, y) for loop in plan.loops for x, y in loop), default=0.0)
    found = [greatest(it, of) for it in (plan.parts[:1] if plan.operation == DIFFERENCE else plan.parts)]
    return min(found) if plan.operation == INTERSECTION else max(found)
