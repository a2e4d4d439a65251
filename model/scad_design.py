"""Designs, which are shapes with the steps that move them, and placing: the crate `scad_design`."""

from __future__ import annotations

from typing import NamedTuple, Sequence, Union

from .csg_tree import Leaf, Tree, join_of, nothing
from .int_transform import Affine, image, keeps_safe_coordinates, map_of
from .plane_predicate import Coefficients, is_in_reach, opposite_of, point_at
from .primitives import Mesh, moved_mesh, planes_of
from .scad_hull import Hull
from .text_place import Fault, Place


class Empty(NamedTuple):
    """The design without a shape."""


class ALeaf(NamedTuple):
    """A shape in grid steps, the steps that move it, the first done first, and the place of its module's name."""

    mesh: Mesh | Hull
    steps: list[Affine]
    at: Place


class JoinedDesigns(NamedTuple):
    op: str
    left: DesignTree
    right: DesignTree


DesignTree = Union[Empty, ALeaf, JoinedDesigns]
empty = Empty()


def join(op: str, left: DesignTree, right: DesignTree) -> DesignTree:
    """A join without empty designs, as trees are joined."""
    if left is empty:
        return right if op == "union" else empty
    if right is empty:
        return empty if op == "intersection" else left
    return JoinedDesigns(op, left, right)


def balanced_join(op: str, designs: Sequence[DesignTree]) -> DesignTree:
    """Designs joined by halves: none is empty, one itself, and more the join of the first half of them, rounded down, and the
    rest. Of many that are all empty, that is told at once."""
    if len(designs) == 1:
        return designs[0]
    if all(design is empty for design in designs):
        return empty
    half = len(designs) // 2
    return join(op, balanced_join(op, designs[:half]), balanced_join(op, designs[half:]))


def join_children(op: str, designs: Sequence[DesignTree]) -> DesignTree:
    """Children joined by an operation; a difference is the first without the others."""
    if op == "difference" and designs:
        return join(op, designs[0], balanced_join("union", designs[1:]))
    return balanced_join(op, designs)


def moved_design_tree(steps: Sequence[Affine], design: DesignTree) -> DesignTree:
    """Steps at the end of those of each leaf."""
    if isinstance(design, ALeaf):
        return ALeaf(design.mesh, [*design.steps, *steps], design.at)
    if isinstance(design, JoinedDesigns):
        return JoinedDesigns(design.op, moved_design_tree(steps, design.left), moved_design_tree(steps, design.right))
    return design


def stays_safe(shape: ALeaf) -> bool:
    """A leaf whose points all keep within 2^53 - 1 after each step."""
    return all(keeps_safe_coordinates(shape.steps, point_at(p)) for p in shape.mesh.points)


def ends_in_reach(shape: ALeaf) -> bool:
    """A leaf whose points are all within 4,095 at the end."""
    whole = map_of(shape.steps)
    return all(is_in_reach(image(whole, point_at(p))) for p in shape.mesh.points)


most_planes = 1024


def with_new_planes(known: set[Coefficients], planes: Sequence[Coefficients]) -> set[Coefficients]:
    """Known planes, and those of a leaf that are new, up to orientation."""
    return known | {max(m, opposite_of(m)) for m in planes}


class Placing:
    """Places the leaves of a design from left to right, and knows the distinct planes of those so far."""

    def __init__(self) -> None:
        self.known: set[Coefficients] = set()

    def leaf(self, shape: ALeaf) -> Tree:
        """The first fault of a leaf: a coordinate is past 2^53 - 1 after a step; else one is past 4,095 at the end; else the
        leaf brings the 1,025th distinct plane."""
        if not stays_safe(shape):
            raise Fault("TooLarge", shape.at)
        if not ends_in_reach(shape):
            raise Fault("OutOfRange", shape.at)
        planes = planes_of(moved_mesh(map_of(shape.steps), shape.mesh))
        self.known = with_new_planes(self.known, planes)
        if len(self.known) > most_planes:
            raise Fault("TooManyPlanes", shape.at)
        return Leaf(planes)

    def design(self, design: DesignTree) -> Tree:
        if isinstance(design, ALeaf):
            return self.leaf(design)
        if isinstance(design, JoinedDesigns):
            left = self.design(design.left)
            return join_of(design.op, left, self.design(design.right))
        return nothing
