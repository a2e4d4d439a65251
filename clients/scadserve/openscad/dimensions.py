"""What of a design counts where shapes in the plane and in space are joined: those of the dimension of the first one.

OpenSCAD warns of each join of both, and goes on as if the others were nothing. What it has of a node is a shape in the plane,
one in space, or nothing at all, which a shape with no area or volume isn't: that decides, too. """

from __future__ import annotations

from dataclasses import dataclass, field, replace
from typing import NamedTuple

from .reader import Node

_FLAT = {"square", "circle", "polygon", "text", "projection"}
_GROUPS = {"group", "union", "color", "render", "multmatrix", "difference", "intersection", "resize"}
_OF_FLAT = {"linear_extrude", "rotate_extrude"}
_FLAT_FILES = (".dxf", ".svg")


class Found(NamedTuple):
    """A node without what is left out in it, and its dimension: None where OpenSCAD has nothing at all of it."""

    node: Node
    dimension: int | None
    #: Whether it is a shape in the plane without an area: a join of it alone is nothing at all.
    is_empty: bool = False


@dataclass
class Sorting:
    """Takes out of nodes what OpenSCAD leaves out, and notes it: the nodes, and those that they were joined with."""

    left_out: list[Node] = field(default_factory=list)

    def sorted(self, node: Node) -> Found:
        """A node without what is left out in it."""
        if node.name == "import":
            return Found(node, 2 if str(node.arguments.get("file", "")).lower().endswith(_FLAT_FILES) else 3)
        if node.name in _FLAT:
            return Found(node, 2, _has_no_area(node))
        if node.name in _OF_FLAT or node.name == "offset":
            return self._of_flat(node)
        if node.name in _GROUPS or node.name in ("hull", "minkowski"):
            return self._joined(node)
        return Found(node, 3)

    def _joined(self, node: Node) -> Found:
        found = [self.sorted(it) for it in node.shown()]
        dimension = next((it.dimension for it in found if it.dimension), None)
        kept = self._kept(found, dimension)
        if node.name in _GROUPS and len(found) == 1 and found[0].is_empty:
            dimension = None
        return Found(_with(node, kept), dimension)

    def _of_flat(self, node: Node) -> Found:
        """An extrusion, or an offset, whose children in space are left out; OpenSCAD renders an offset, and warns itself."""
        before = len(self.left_out)
        found = [self.sorted(it) for it in node.shown()]
        kept = self._kept(found, 2)
        is_nothing = not found or (len(found) == 1 and (found[0].is_empty or found[0].dimension != 2))
        dimension = None if is_nothing else 3 if node.name in _OF_FLAT else 2
        if node.name == "offset":
            del self.left_out[before:]
            return Found(node, dimension)
        return Found(_with(node, kept), dimension)

    def _kept(self, found: list[Found], dimension: int | None) -> list[Node]:
        """The nodes, with nothing in place of those that are nothing, and of those of the other dimension, which are noted."""
        kept: list[Node] = []
        for it in found:
            if it.dimension not in (None, dimension):
                self.left_out.append(it.node)
            kept.append(it.node if it.dimension == dimension else it.node.with_children("group", []))
        return kept


def _with(node: Node, children: list[Node]) -> Node:
    """A node with these children; itself where these are its own."""
    own = node.shown()
    return node if all(one is other for one, other in zip(own, children)) else replace(node, children=children)


def _has_no_area(node: Node) -> bool:
    """Whether a shape in the plane has no area by its numbers alone."""
    size, points, radius = (node.arguments.get(it) for it in ("size", "points", "r"))
    if node.name == "square":
        return isinstance(size, list) and any(isinstance(it, float) and it <= 0 for it in size)
    if node.name == "circle":
        return isinstance(radius, float) and radius <= 0
    return node.name == "polygon" and (points is None or (isinstance(points, list) and len(points) < 3))
