"""Whether hulls have room on a grid so fine that their design has none on it, where each tile has an origin of its own.

A tile is as small as it has to be. What of a leaf is near it is written with the corners of the facets that go through it. A
facet across an axis needs its edges that are near alone; one that is slanted needs all of its corners. Along an axis along
which a leaf is a prism it is cut off beside the tile.
"""

from __future__ import annotations

from collections import Counter
from typing import Sequence

from .exact_hull import Hull, Point

#: How many times finer a grid is on which tiles have origins of their own, and the greatest length of an edge there.
FINER, LONGEST = 10, 2700
#: Where more facets than these meet in a corner, a leaf falls into hulls that have an inner point in common.
MOST_AT_CORNER = 96


def prism_axes(body: Hull) -> list[int]:
    """The axes along which a hull is a prism: each corner is at one end, and there is one beside it at the other end."""
    found = []
    for axis in range(3):
        ends = {it[axis] for it in body.corners}
        if len(ends) == 2:
            low, high = ({(*it[:axis], *it[axis + 1 :]) for it in body.corners if it[axis] == end} for end in ends)
            found += [axis] if low == high else []
    return found


def fits(body: Hull) -> bool:
    """Whether all that a tile needs of a hull has room in it, however the tile lies."""
    axes = [it for it in range(3) if it not in prism_axes(body)]
    if all(_is_short(body.corners, axis) for axis in axes):
        return True
    if max(Counter(it for ring in body.facets.values() for it in ring).values()) > MOST_AT_CORNER:
        return False
    for plane, ring in body.facets.items():
        corners = [body.corners[it] for it in ring]
        edges: list[Sequence[Point]] = list(zip(corners, [*corners[1:], corners[0]]))
        parts = edges if across(plane) is not None else [corners]
        if not all(_is_short(part, axis) for part in parts for axis in axes):
            return False
    return True


def _is_short(corners: Sequence[Point], axis: int) -> bool:
    places = [it[axis] for it in corners]
    return max(places) - min(places) <= LONGEST


def across(plane: Sequence[int]) -> int | None:
    """The axis that a plane is across; None where it is slanted."""
    found = [axis for axis in range(3) if plane[axis]]
    return found[0] if len(found) == 1 else None
