"""Constructive solid geometry over half spaces: the crate `csg_tree`."""

from __future__ import annotations

from typing import Callable, NamedTuple, Union

from .plane_predicate import Coefficients, Coordinates, is_in_world, opposite_of, value


class Nothing(NamedTuple):
    """No point."""


class Leaf(NamedTuple):
    """The points behind all of its planes."""

    planes: list[Coefficients]


class TreeJoin(NamedTuple):
    """A join by `union`, `intersection` or `difference`."""

    op: str
    left: Tree
    right: Tree


Tree = Union[Nothing, Leaf, TreeJoin]
nothing = Nothing()
SideAssignment = Callable[[Coefficients], bool]


def truth_of_join(op: str, left: bool, right: bool) -> bool:
    return left or right if op == "union" else left and right if op == "intersection" else left and not right


def holds(tree: Tree, sides: SideAssignment) -> bool:
    """Whether the tree holds under an assignment of sides to its planes."""
    if isinstance(tree, Leaf):
        return all(map(sides, tree.planes))
    return isinstance(tree, TreeJoin) and truth_of_join(tree.op, holds(tree.left, sides), holds(tree.right, sides))


def sides_of(p: Coordinates) -> SideAssignment:
    """The sides of a point: whether it is strictly behind each plane."""
    return lambda m: value(m, p) < 0


def planes_of(tree: Tree) -> list[Coefficients]:
    """The planes of all leaves."""
    if isinstance(tree, TreeJoin):
        return planes_of(tree.left) + planes_of(tree.right)
    return tree.planes if isinstance(tree, Leaf) else []


def join_of(op: str, left: Tree, right: Tree) -> Tree:
    """A join without Nothing: in a union it gives the other side, in an intersection Nothing, Nothing minus anything is
    Nothing, and a tree minus Nothing is the tree."""
    if left is nothing:
        return right if op == "union" else nothing
    if right is nothing:
        return nothing if op == "intersection" else left
    return TreeJoin(op, left, right)


def is_on_one_face_plane(tree: Tree, n: Coefficients, p: Coordinates) -> bool:
    """The point is strictly inside the world box and on exactly one face plane, of which n is an orientation."""
    on = [m for m in planes_of(tree) if value(m, p) == 0]
    return is_in_world(p) and on != [] and value(n, p) == 0 and all(m in (n, opposite_of(n)) for m in on)


def sides_just_behind(n: Coefficients, p: Coordinates) -> SideAssignment:
    """The sides of a point on the plane n that is moved a little to behind n: every other plane keeps its side."""
    return lambda m: True if m == n else False if m == opposite_of(n) else value(m, p) < 0


def sides_just_ahead(n: Coefficients, p: Coordinates) -> SideAssignment:
    """The same for the point moved a little to ahead of n."""
    return lambda m: False if m == n else True if m == opposite_of(n) else value(m, p) < 0


def is_boundary_at(tree: Tree, n: Coefficients, p: Coordinates) -> bool:
    """Solid just behind the point, seen from n, and empty just ahead of it."""
    return holds(tree, sides_just_behind(n, p)) and not holds(tree, sides_just_ahead(n, p))
