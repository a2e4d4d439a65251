"""The boundary of a solid as a surface of triangles that hang together: each has one neighbour at each of its sides.

Where more than two faces meet in an edge, as where two boxes touch there, they are paired round it so that each pair has
solid between them. A corner has a node for each fan of triangles that hang together there, so that sheets which only touch
in a corner have nodes of their own. Numbers stay whole, so what is paired is exact.
"""

from __future__ import annotations

from functools import cmp_to_key
from typing import Sequence

from .closing import Ring, edges, triangles
from .fouroff import Boundary, Corner, Plane, determinant

#: The sides of triangle t are 3t, 3t + 1 and 3t + 2, counterclockwise seen from outside.
Side = int
NO_SIDE = -1


class NotClosed(ValueError):
    """The faces of a boundary don't close it; says how."""


class Surface:
    """A surface of triangles, closed where nothing else is said."""

    def __init__(
        self, corners: list[Corner], places: list[int], starts: list[int], twins: list[Side], planes: list[Plane]
    ) -> None:
        self.corners = corners
        #: The number of the corner of each node.
        self.places = places
        #: The node at which each side begins.
        self.starts = starts
        #: The same edge as a side of the neighbour, which goes the other way; NO_SIDE at the border of what isn't closed.
        self.twins = twins
        #: The plane of each triangle, whose direction points outward.
        self.planes = planes

    def triangle(self, number: int) -> Ring:
        """The nodes of a triangle."""
        return (self.starts[3 * number], self.starts[3 * number + 1], self.starts[3 * number + 2])


def next_side(side: Side) -> Side:
    """The next side of its triangle."""
    return side - 2 if side % 3 == 2 else side + 1


def previous_side(side: Side) -> Side:
    """The side of its triangle before it."""
    return side + 2 if side % 3 == 0 else side - 1


def surface_of(boundary: Boundary, rings: Sequence[Ring], is_part: bool = False) -> Surface:
    """The surface of a boundary, whose faces go round these closed rings. Raises NotClosed.

    A part of a boundary has a border: edges that are not met as often one way as the other.
    """
    starts: list[int] = []
    twins: list[Side] = []
    planes: list[Plane] = []
    rims: dict[tuple[int, int], list[Side]] = {}
    for cut, plane in zip(triangles(boundary, rings), boundary.planes):
        own: dict[tuple[int, int], Side] = {}
        for triangle in cut:
            planes.append(plane)
            for p, q in edges(triangle):
                starts.append(p)
                twins.append(own.pop((q, p), NO_SIDE))
                if twins[-1] < 0:
                    own[p, q] = len(twins) - 1
                else:
                    twins[twins[-1]] = len(twins) - 1
        for (p, q), side in own.items():
            rims.setdefault((min(p, q), max(p, q)), []).append(side)
    unpaired = pair(boundary.corners, rims, starts, twins, planes)
    if unpaired and not is_part:
        raise NotClosed(f"not closed: {unpaired} edges do not occur equally often in both directions")
    nodes, places = nodes_of(starts, twins)
    return Surface(boundary.corners, places, nodes, twins, planes)


def nodes_of(starts: Sequence[int], twins: Sequence[Side]) -> tuple[list[int], list[int]]:
    """The node at which each side begins, and where each node is: that of the sides in `starts`.

    Sides begin at one node where their triangles hang together round it.
    """
    nodes = [-1] * len(starts)
    places: list[int] = []
    for first in range(len(starts)):
        if nodes[first] < 0:
            for side in fan_of(first, twins):
                nodes[side] = len(places)
            places.append(starts[first])
    return nodes, places


def fan_of(first: Side, twins: Sequence[Side]) -> list[Side]:
    """The sides that begin at the node of one, counterclockwise seen from outside; where the border goes there, from it on."""
    fan = [first]
    while (side := twins[previous_side(fan[-1])]) != first:
        if side == NO_SIDE:
            # (what is left is on the other side of the first)
            before: list[Side] = []
            side = first
            while twins[side] != NO_SIDE:
                side = next_side(twins[side])
                before.append(side)
            return before[::-1] + fan
        fan.append(side)
    return fan


def pair(
    corners: Sequence[Corner],
    rims: dict[tuple[int, int], list[Side]],
    starts: Sequence[int],
    twins: list[Side],
    planes: Sequence[Plane],
) -> int:
    """Makes twins of the sides at each edge between faces; tells at how many that can't be done, since they are not met as
    often one way as the other. Raises NotClosed."""
    unpaired = overlapping = 0
    for (p, q), sides in rims.items():
        forward = sum(starts[side] == p for side in sides)
        if 2 * forward != len(sides):
            unpaired += 1
            continue
        if forward > 1:
            onward = {side: starts[side] == p for side in sides}
            sides = _round(corners[p], corners[q], onward, planes)
            overlapping += any(onward[side] != bool(at % 2) for at, side in enumerate(sides))
        for side, other in zip(sides[::2], sides[1::2]):
            twins[side], twins[other] = other, side
    if overlapping:
        raise NotClosed(f"its faces overlap at {overlapping} edges")
    return unpaired


def _round(p: Corner, q: Corner, onward: dict[Side, bool], planes: Sequence[Plane]) -> list[Side]:
    """Sides that go from p to q, or else back, counterclockwise round that edge; the first begins a piece of solid.

    The triangle of a side that goes from q to p has solid counterclockwise of it, and that of one from p to q clockwise.
    """
    along = tuple(p[3] * q[i] - q[3] * p[i] for i in range(3))
    inward = {side: _inward(planes[side // 3], along, it) for side, it in onward.items()}
    first = next(iter(inward.values()))

    def is_behind(side: Side) -> bool:
        """Whether it is a half turn or more behind the first."""
        turned = determinant(along, first, inward[side])
        return turned < 0 or (turned == 0 and sum(a * b for a, b in zip(first, inward[side])) < 0)

    def order(left: Side, right: Side) -> int:
        halves = is_behind(left) - is_behind(right)
        # (Of two in one direction that comes first which ends a piece of solid.)
        return halves or -determinant(along, inward[left], inward[right]) or onward[right] - onward[left]

    ordered = sorted(onward, key=cmp_to_key(order))
    start = next(at for at, side in enumerate(ordered) if not onward[side])
    return ordered[start:] + ordered[:start]


def _inward(plane: Plane, along: Sequence[int], is_onward: bool) -> tuple[int, int, int]:
    """The direction into a face on this plane from its edge in that direction, to the left of it seen from outside."""
    (a, b, c), (x, y, z) = plane[:3], along
    inward = (b * z - c * y, c * x - a * z, a * y - b * x)
    return inward if is_onward else (-inward[0], -inward[1], -inward[2])
