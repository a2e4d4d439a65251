"""What a design comes to: joins of convex leaves, each with its corners in OpenSCAD's own lengths; matrices; and detail.

Curves have OpenSCAD's own corners. Where planes run out, corners of curves are left out, each shape by itself, so that no
point of it moves by more than `Detail.most`; those at the greatest and least x, y and z stay, and with them its box.
"""

from __future__ import annotations

import math
from collections import Counter
from contextlib import contextmanager
from dataclasses import dataclass, field
from functools import cached_property
from typing import AbstractSet, Any, Callable, Generic, Iterable, Iterator, List, Optional, Sequence, TypeVar, Union, overload

from .arguments import SIZES
from .reader import Node

Vector = tuple[float, float, float]
#: The first three rows of a matrix.
Matrix = tuple[tuple[float, ...], ...]
IDENTITY: Matrix = ((1.0, 0.0, 0.0, 0.0), (0.0, 1.0, 0.0, 0.0), (0.0, 0.0, 1.0, 0.0))
UNION, DIFFERENCE, INTERSECTION = "union", "difference", "intersection"
# More sides of slices than these have more planes than a part may have.
_MOST_SIDES = 512
#: More corners of a circle, and slices of an extrusion, than these are no part that can be built, nor more corners of all
#: curves.
MOST_OF_CIRCLE, MOST_SLICES, MOST_CORNERS = 10_000, 10_000, 400_000


@dataclass(frozen=True)
class Leaf:
    """The convex hull of corners. `frame` is the matrix with which it was made, where that turns axes otherwise than by
    quarters."""

    corners: Sequence[Vector]
    frame: Matrix | None
    node: Node


L = TypeVar("L")


@dataclass(frozen=True)
class Join(Generic[L]):
    """A union, a difference or an intersection of parts, of which none is nothing."""

    operation: str
    parts: List[Union[L, Join[L]]]


@dataclass(frozen=True)
class Carved:
    """A shape in two forms: as a hull without bays, which has fewer planes, and as a union of convex pieces.

    The first is meant on a grid on which each lid of a bay lies on one side of the hull that it belongs to. All but the grid
    knows the second alone.
    """

    hull: Solid
    #: By the leaf of a hull the corners of a lid.
    lids: List[tuple[Leaf, List[Vector]]]
    pieces: Solid


@dataclass(frozen=True)
class Dented:
    """A slice between two places of a convex outline, whose sides are two triangles each, in two forms: as the hull of its
    corners without a dent at each hollow side, which has fewer planes and shapes, and as a union of convex parts.

    The first is meant where there is no bound on planes, on a grid on which the hull has the other two triangles at each such
    side. All else knows the second alone.
    """

    #: Its corners: those below, counterclockwise as seen from what is above, and then those above them.
    leaf: Leaf
    #: Of each side whether it is cut along the diagonal that goes up, and the sides at which another slice fills the dent.
    ways: List[bool]
    filled: AbstractSet[int]
    make: Callable[[], Optional[Solid]]

    @cached_property
    def parts(self) -> Optional[Solid]:
        """The convex parts; None where they are nothing."""
        return self.make()


@dataclass(frozen=True)
class Sliced:
    """What turns as it is extruded, in two forms: in few convex pieces, and in such that slices of them have simple dents.

    The second is meant where there is no bound on planes. All else knows the first alone.
    """

    pieces: Solid
    make: Callable[[], Optional[Solid]]

    @cached_property
    def dented(self) -> Optional[Solid]:
        """The second form; None where it is nothing."""
        return self.make()


@dataclass(frozen=True)
class Faced:
    """A closed polyhedron that isn't convex: all its corners, and its faces by their numbers, counterclockwise from outside.

    It is cut into convex parts on the grid, where that is exact.
    """

    leaf: Leaf
    faces: List[List[int]]


Part = Union[Leaf, Carved, Dented, Sliced, Faced]
Solid = Union[Leaf, Carved, Dented, Sliced, Faced, "Join[Part]"]


def joined(operation: str, parts: Sequence[Optional[Union[L, Join[L]]]]) -> Optional[Union[L, Join[L]]]:
    """The join of parts, of which None is nothing; None where that is nothing."""
    some = [it for it in parts if it is not None]
    if not some or (operation == DIFFERENCE and parts[0] is None) or (operation == INTERSECTION and len(some) < len(parts)):
        return None
    if operation == DIFFERENCE and len(some) > 2:
        some = [some[0], Join(UNION, _flattened(some[1:]))]
    if operation == UNION:
        some = _flattened(some)
    return some[0] if len(some) == 1 else Join(operation, some)


def _flattened(parts: Sequence[Union[L, Join[L]]]) -> List[Union[L, Join[L]]]:
    found: List[Union[L, Join[L]]] = []
    for it in parts:
        found += it.parts if isinstance(it, Join) and it.operation == UNION else [it]
    return found


# (the first names the leaves of solids, which the second would call parts)
@overload
def leaves(tree: Optional[Solid]) -> Iterable[Leaf]: ...  # type: ignore[misc]


@overload
def leaves(tree: Optional[Union[L, Join[L]]]) -> Iterable[L]: ...


def leaves(tree: Any) -> Iterable[Any]:
    """The leaves, from left to right; of a polyhedron one with all its corners."""
    if isinstance(tree, (Carved, Sliced)):
        yield from leaves(tree.pieces)
    elif isinstance(tree, Dented):
        yield from leaves(tree.parts)
    elif isinstance(tree, Faced):
        yield tree.leaf
    elif isinstance(tree, Join):
        for it in tree.parts:
            yield from leaves(it)
    elif tree is not None:
        yield tree


def outer_leaves(tree: Optional[Solid]) -> Iterator[Leaf]:
    """The leaves among whose corners those of the design are that are farthest out: of a slice with dents its hull."""
    if isinstance(tree, Dented):
        yield tree.leaf
    elif isinstance(tree, (Carved, Sliced)):
        yield from outer_leaves(tree.pieces)
    elif isinstance(tree, Join):
        for it in tree.parts:
            yield from outer_leaves(it)
    else:
        yield from leaves(tree)


def is_union(tree: Optional[Union[L, Join[L]]]) -> bool:
    """Whether it is a leaf, a union of leaves, or nothing."""
    if isinstance(tree, (Carved, Sliced)):
        return is_union(tree.pieces)
    if isinstance(tree, Dented):
        return True
    if isinstance(tree, Faced):
        return False
    return not isinstance(tree, Join) or (tree.operation == UNION and all(map(is_union, tree.parts)))


def matrix_of(node: Node) -> Matrix:
    """The matrix of a `multmatrix`. Raises CsgFault."""
    rows = node.arguments.get("")
    if not isinstance(rows, list) or len(rows) != 4:
        raise node.fault("BadArgument", "its argument is not a matrix of four rows")
    found = [node.numbers("", 4, it) for it in rows]
    if found[3] != [0.0, 0.0, 0.0, 1.0]:
        raise node.fault("BadArgument", "its last row isn't 0, 0, 0, 1")
    return tuple(tuple(it) for it in found[:3])


def times(m: Matrix, n: Matrix) -> Matrix:
    """The matrix that does the second first."""
    columns = list(zip(*n, (0.0, 0.0, 0.0, 1.0)))
    return tuple(tuple(sum(a * b for a, b in zip(row, column)) for column in columns) for row in m)


def moved(m: Matrix, points: Iterable[Sequence[float]]) -> list[Vector]:
    """The images of points in space."""
    (a, b, c, d), (e, f, g, h), (i, j, k, l) = m
    return [(a * x + b * y + c * z + d, e * x + f * y + g * z + h, i * x + j * y + k * z + l) for x, y, z in points]


def stretch(m: Matrix) -> float:
    """By how much a matrix makes a way longer at most: the greatest singular value, by the power method."""
    way = [0.6, 0.64, 0.48]
    longest = 0.0
    for _ in range(24):
        image = [sum(m[i][k] * way[k] for k in range(3)) for i in range(3)]
        way = [sum(m[i][k] * image[i] for i in range(3)) for k in range(3)]
        length = math.sqrt(sum(it * it for it in way))
        if length == 0:
            break
        longest = max(longest, math.sqrt(length))
        way = [it / length for it in way]
    return longest


def is_mirrored(m: Matrix) -> bool:
    """Whether a matrix turns what goes counterclockwise round."""
    (a, b, c, *_), (d, e, f, *_), (g, h, i, *_) = m
    return a * (e * i - f * h) - b * (d * i - f * g) + c * (d * h - e * g) < 0


def frame_of(m: Matrix) -> Matrix | None:
    """A matrix without its move; None where it turns axes by quarters alone."""
    if all(sorted(abs(it) for it in row[:3])[1] < 1e-12 for row in m):
        return None
    return tuple((*row[:3], 0.0) for row in m)


def direction(m: Matrix) -> Vector | None:
    """The direction of the z axis; None where that is along an axis again."""
    x, y, z = (row[2] for row in m)
    length = math.sqrt(x * x + y * y + z * z)
    if length == 0 or max(abs(x), abs(y), abs(z)) > length * (1 - 1e-10):
        return None
    return x / length, y / length, z / length


def is_level(m: Matrix) -> bool:
    """Whether planes of one z stay planes of one x, y or z."""
    (a, b, *_), (c, d, *_), (e, f, *_) = m
    normal = (c * f - e * d, e * b - a * f, a * d - c * b)
    length = math.sqrt(sum(it * it for it in normal))
    return length == 0 or max(abs(it) for it in normal) > length * (1 - 1e-10)


@dataclass
class Detail:
    """How far a shape may be off where corners of its curves are left out, how far it is, and what was left out."""

    most: float = 0.0
    #: Whether extrusions that turn on the way may be straight steps, and plans the outlines that OpenSCAD makes of them.
    may_step: bool = False
    #: Whether slices with hollow sides are cut into convex parts, which have more planes than their hulls.
    cuts: bool = True
    off: float = 0.0
    #: By the name of a node: how often, and the fewest that were kept of how many.
    fewer: Counter[str] = field(default_factory=Counter)
    fewest: dict[str, tuple[int, int]] = field(default_factory=dict)
    steps: list[tuple[Node, int]] = field(default_factory=list)
    #: Extrusions of which slices are the hulls of their corners, though their sides are hollow.
    hulls: list[Node] = field(default_factory=list)
    #: Polyhedra whose faces looked inward, and were turned.
    inward: list[Node] = field(default_factory=list)
    #: Shapes of which nothing is made, since a size of theirs is infinite or undefined.
    endless: list[Node] = field(default_factory=list)
    #: How high a slice of what turns or is scaled on the way is at least; lower ones are joined, so that none vanishes.
    least_slice: float = 0.0
    #: How high the lowest slice is, and extrusions of which slices were joined: how many are left of how many.
    lowest_slice: float = math.inf
    thicker: list[tuple[Node, int, int]] = field(default_factory=list)
    #: This many sides of slices may be cut into convex parts; more have more planes than a part may have.
    most_sides: float = _MOST_SIDES
    _besides: float = 0.0
    _sides: int = 0
    _corners: int = 0

    def take(self, node: Node, corners: int) -> None:
        """Notes that a curve has this many corners, before they are made. Raises CsgFault where all have too many."""
        self._corners += corners
        if self._corners > MOST_CORNERS:
            said = f"with it the curves of the design have {self._corners} corners, and {MOST_CORNERS} is the most"
            raise node.fault("TooManyCorners", said)

    def is_off(self, distance: float) -> None:
        """Notes that some point is so far off."""
        self.off = max(self.off, distance)

    def is_off_besides(self, distance: float) -> None:
        """Notes that some point of what is being moved is so far off, besides what its own corners are."""
        self._besides = max(self._besides, distance)

    @contextmanager
    def moving(self, longer: float, share: float = 1.0) -> Iterator[None]:
        """Within this, shapes are made that are then moved so that ways get this many times as long, with a share of what may
        be off."""
        before, self.off, self._besides = (self.off, self._besides, self.most), 0.0, 0.0
        self.most = self.most * share / longer if longer > 0 else self.most
        yield
        self.off = max(before[0], (self.off + self._besides) * longer)
        self._besides, self.most = before[1], before[2]

    def note(self, node: Node, kept: int, count: int) -> None:
        """Notes that this many corners, or slices, of a curve are kept."""
        if kept < count:
            self.fewer[node.name] += 1
            self.fewest[node.name] = min(self.fewest.get(node.name, (kept, count)), (kept, count))

    def note_steps(self, node: Node, steps: int) -> None:
        """Notes that an extrusion that turns on the way is this many straight steps."""
        self.steps.append((node, steps))

    def note_hull(self, node: Node) -> None:
        """Notes that slices of an extrusion are the hulls of their corners, though their sides are hollow."""
        if node not in self.hulls:
            self.hulls.append(node)

    def note_inward(self, node: Node) -> None:
        """Notes that the faces of a polyhedron looked inward, and were turned."""
        if node not in self.inward:
            self.inward.append(node)

    def is_endless(self, node: Node) -> bool:
        """Whether a size of a shape is infinite or undefined, which is noted."""
        found = node.is_endless(SIZES.get(node.name, []))
        if found and node not in self.endless:
            self.endless.append(node)
        return found

    def slices(self, node: Node, height: float, count: int) -> int:
        """How many slices an extrusion of a height is made of at most, of which OpenSCAD makes this many."""
        self.lowest_slice = min(self.lowest_slice, height / count)
        most = count if height >= count * self.least_slice else max(1, int(height / self.least_slice))
        if most < count and not any(it[0] is node for it in self.thicker):
            self.thicker.append((node, most, count))
        return most

    def may_cut(self, sides: int) -> bool:
        """Whether slices with this many sides may be cut into convex parts: where so few are that two planes each suffice."""
        self._sides += sides
        return self.cuts and self._sides <= self.most_sides

    def ring(self, count: int, radius: float, share: float = 1.0) -> tuple[list[int], float]:
        """Which of this many corners of a circle are kept, and how far that is off, up to a share of what it may be.

        A quarter has as many as the next, so that the box stays. Of eight or fewer all are: they are no curve's.
        """
        for kept in range(4, count, 4) if count > 8 else ():
            if radius * (1 - math.cos(math.pi / kept)) > self.most * share:
                continue
            found = sorted({(it * count * 2 + kept) // (2 * kept) % count for it in range(kept)})
            gap = max((after - before) % count for before, after in zip(found, [*found[1:], *found[:1]]))
            off = radius * (1 - math.cos(math.pi * gap / count))
            if off <= self.most * share:
                return found, off
        return list(range(count)), 0.0

    def row(self, count: int, step: float, radius: float, share: float = 1.0) -> tuple[list[int], float]:
        """Which of the corners 0 to `count` of a bow are kept, each the angle `step` from the next, and how far that is off.

        The first and the last stay.
        """
        for kept in range(1, count) if self.most else ():
            found = sorted({(it * count * 2 + kept) // (2 * kept) for it in range(kept + 1)})
            gap = max(after - before for before, after in zip(found, found[1:]))
            off = radius * (1 - math.cos(gap * step / 2))
            if gap * step < math.pi / 2 and off <= self.most * share:
                return found, off
        return list(range(count + 1)), 0.0


def fragments(node: Node, radius: float) -> int:
    """How many corners OpenSCAD gives a circle: its manual's rule of $fn, $fa and $fs. Raises CsgFault past a bound."""
    fn, fa, fs = curve(node)
    if radius < 2**-20 or not math.isfinite(fn):
        return 3
    count = max(fn, 3.0) if fn > 0 else math.ceil(max(min(quotient(360, fa), quotient(radius * 2 * math.pi, fs), 2.0**31), 5))
    return bounded(node, "corners of a circle", int(count), MOST_OF_CIRCLE)


def curve(node: Node) -> tuple[float, float, float]:
    """A node's $fn, $fa and $fs. Of what is not an extrusion OpenSCAD takes no $fa and no $fs below 0.01. Raises CsgFault."""
    least = -math.inf if node.name.endswith("_extrude") else 0.01
    fn = node.arguments.get("$fn", 0.0)
    is_endless = isinstance(fn, float) and not math.isfinite(fn)
    return math.nan if is_endless else node.number("$fn", 0.0), max(node.number("$fa", 12.0), least), max(
        node.number("$fs", 2.0), least
    )


def quotient(dividend: float, divisor: float) -> float:
    """The quotient of a number above 0; of 0 without end."""
    return dividend / divisor if divisor else math.inf


def bounded(node: Node, what: str, count: int, most: int) -> int:
    """The count, of which a node makes no more than this many. Raises CsgFault."""
    if count > most:
        raise node.fault("TooManyCorners", f"it has {count} {what}, and {most} is the most")
    return count


def circle(radius: float, count: int, kept: Iterable[int]) -> list[tuple[float, float]]:
    """The corners of a circle that are kept."""
    return [(radius * math.cos(2 * math.pi * it / count), radius * math.sin(2 * math.pi * it / count)) for it in kept]
