"""Cuts the triangles of a surface anew, so that a polygon with holes which faces form on one plane has as few as can be.

The faces of a 4OFF text are convex pieces, so they have corners that the solid doesn't need: those inside a polygon on one
plane, and those inside a straight edge between two planes. Each such node is taken out, and what its triangles covered is
cut into two triangles fewer. In the end a polygon of n corners with h holes has n + 2h - 2 triangles. No corner is moved
and none is new, and each triangle has an area above 0. The time grows like the number of triangles, but for the sorting.
"""

from __future__ import annotations

from collections import deque
from heapq import heapify, heappop, heappush
from typing import Iterable, Iterator, NamedTuple, Optional, Sequence

from .fouroff import Flat, Plane, flatten, turn
from .surface import NO_SIDE, NotClosed, Side, Surface, fan_of, next_side, previous_side


class _Hole(NamedTuple):
    """A polygon on a plane: its nodes, the sides that its first edges have outside, and triangles that can fill it."""

    ring: list[int]
    outer: list[Side]
    triangles: list[int]
    plane: Plane


def merged(surface: Surface, nodes: Optional[Iterable[int]] = None) -> Surface:
    """The same surface with fewer triangles, where some nodes are named by taking out these alone.

    Raises NotClosed where faces on one plane overlap at a corner.
    """
    merging = _Merging(surface)
    merging.take_out(range(len(surface.places)) if nodes is None else nodes)
    return merging.rest()


class _Merging:
    """A surface of which nodes are taken out."""

    def __init__(self, surface: Surface) -> None:
        self._corners, self._places = surface.corners, surface.places
        self._starts, self._twins = list(surface.starts), list(surface.twins)
        self._planes = list(surface.planes)
        # Triangles that are no part of it any more.
        self._gone: set[int] = set()
        # Of each node one of the sides that begin there.
        self._first = [NO_SIDE] * len(self._places)
        for side, node in enumerate(self._starts):
            self._first[node] = side

    def take_out(self, nodes: Iterable[int]) -> None:
        """Takes out each of these nodes that isn't needed, those with the fewest triangles first, so that no fan grows long."""
        waiting = []
        for node in nodes:
            fan = self._fan(node)
            if self._bends(fan) is not None:
                waiting.append((len(fan), node))
        heapify(waiting)
        while waiting:
            size, node = heappop(waiting)
            fan = self._fan(node)
            if len(fan) > size:
                heappush(waiting, (len(fan), node))
                continue
            bends = self._bends(fan)
            if bends is not None:
                self._take_out(node, fan, bends)

    def rest(self) -> Surface:
        """The surface of the triangles that are left, with its nodes numbered anew."""
        left = [at for at in range(len(self._planes)) if at not in self._gone]
        numbers = {old: new for new, old in enumerate(left)}
        sides = [3 * at + i for at in left for i in range(3)]
        nodes: dict[int, int] = {}
        starts = [nodes.setdefault(self._starts[side], len(nodes)) for side in sides]
        twins = [NO_SIDE if it == NO_SIDE else 3 * numbers[it // 3] + it % 3 for it in (self._twins[side] for side in sides)]
        places = [self._places[node] for node in nodes]
        return Surface(self._corners, places, starts, twins, [self._planes[at] for at in left])

    def _fan(self, node: int) -> list[Side]:
        """The sides that begin at a node, counterclockwise seen from outside, from the border on where the node is there."""
        return fan_of(self._first[node], self._twins)

    def _bends(self, fan: Sequence[Side]) -> Optional[list[int]]:
        """Where in a fan another plane begins: nowhere, or at the two ends of one straight edge. None where it is needed."""
        planes = [self._planes[side // 3] for side in fan]
        if self._twins[fan[0]] == NO_SIDE:
            # (the border is an edge of one plane, which is straight, or the node is needed)
            is_one = all(it == planes[0] for it in planes)
            return [0] if is_one and self._is_along(fan[0], next_side(fan[0]), previous_side(fan[-1])) else None
        bends = [at for at in range(len(fan)) if planes[at] != planes[at - 1]]
        if len(bends) == 2 and self._is_straight(fan, *bends):
            return bends
        return None if bends else []

    def _is_straight(self, fan: Sequence[Side], one: int, other: int) -> bool:
        """Whether a fan's node lies on the line between the ends of these two of its sides."""
        return self._is_along(fan[one], next_side(fan[one]), next_side(fan[other]))

    def _is_along(self, side: Side, one: Side, other: Side) -> bool:
        """Whether the node at which a side begins lies on the line between those of two others, all on one plane."""
        tip, p, q = self._flat([self._starts[it] for it in (side, one, other)], self._planes[side // 3])
        if turn(tip, p, q) != 0:
            return False
        (u, v), (x, y) = ([end[i] * tip[2] - tip[i] * end[2] for i in range(2)] for end in (p, q))
        return u * x + v * y < 0

    def _take_out(self, node: int, fan: list[Side], bends: list[int]) -> None:
        """Takes out a node, whose fan lies on one plane, or on another one from each of these two places on."""
        parts = [fan[bends[0] : bends[1]], fan[bends[1] :] + fan[: bends[0]]] if len(bends) == 2 else [fan]
        holes = [self._hole(part, bool(bends)) for part in parts]
        self._gone |= {side // 3 for side in fan}
        along = NO_SIDE
        for hole in holes:
            along = self._fill(node, hole, along)

    def _hole(self, part: list[Side], is_half: bool) -> _Hole:
        """What is there without the triangles of a part of a fan, whose ends are those of one edge where it is half of it."""
        rims = [next_side(side) for side in part]
        ring, outer = [self._starts[side] for side in rims], [self._twins[side] for side in rims]
        if is_half:
            ring.append(self._starts[next_side(rims[-1])])
        return _Hole(ring, outer, [side // 3 for side in part], self._planes[part[0] // 3])

    def _fill(self, node: int, hole: _Hole, along: Side) -> Side:
        """Fills a hole by triangles, and gives the side from its last node to its first, whose twin is `along`, where none
        is known. All of the hole is seen from the node's point, which lies inside it or inside that side."""
        ring, outer = hole.ring, [*hole.outer, along][: len(hole.ring)]
        point, *flat = self._flat([node, *ring], hole.plane)
        inner = {}
        for number, ear in zip(hole.triangles, ears_seen(point, flat)):
            self._planes[number] = hole.plane
            self._gone.remove(number)
            for side, corner in enumerate(ear, 3 * number):
                self._starts[side], self._first[ring[corner]] = ring[corner], side
                inner[corner] = side
            self._join(3 * number, outer[ear[0]])
            self._join(3 * number + 1, outer[ear[1]])
            # The rest of the hole has this side in place of those two.
            outer[ear[0]] = 3 * number + 2
        self._join(3 * number + 2, outer[ear[2]])
        return inner[len(ring) - 1]

    def _join(self, side: Side, other: Side) -> None:
        self._twins[side] = other
        if other != NO_SIDE:
            self._twins[other] = side

    def _flat(self, nodes: Sequence[int], plane: Plane) -> list[Flat]:
        """The points of nodes, all on the plane, seen along one axis."""
        return flatten([self._corners[self._places[node]] for node in nodes], plane)


def ears_seen(point: Flat, ring: Sequence[Flat]) -> Iterator[tuple[int, int, int]]:
    """Cuts a polygon of n corners into n - 2 triangles with an area above 0, as numbers of its corners.

    All of the polygon is seen from the point, which lies inside it or inside a side. A corner that turns left is cut off with
    its two neighbours unless the point is inside that triangle; then all of the rest is seen from it, too. There is such a
    corner as long as there are more than three: of any triangles that fill the polygon, two or more have two sides of it.
    Raises NotClosed where not all is seen, as where faces overlap.
    """
    size = len(ring)
    before = [(i - 1) % size for i in range(size)]
    behind = [(i + 1) % size for i in range(size)]
    # Every second corner goes first, which leaves triangles less thin than a fan.
    waiting = deque([*range(0, size, 2), *range(1, size, 2)])
    left = 0
    while size > 3:
        if not waiting:
            raise NotClosed("its faces overlap")
        tip = waiting.popleft()
        if behind[before[tip]] != tip:
            continue
        if turn(ring[before[tip]], ring[tip], ring[behind[tip]]) <= 0 or turn(point, ring[before[tip]], ring[behind[tip]]) < 0:
            continue
        left, right = before[tip], behind[tip]
        yield left, tip, right
        behind[left], before[right] = right, left
        waiting += [left, right]
        size -= 1
    yield before[left], left, behind[left]
