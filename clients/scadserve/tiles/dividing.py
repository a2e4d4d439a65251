"""Divides a design into tiles that are within limits, each with its source.

    for piece in pieces(grid, limits):
        for it in sources([piece], limits):
            it.tile, it.lines

A piece is a tile with some tiles in it, which one process makes.
"""

from __future__ import annotations

from fractions import Fraction
from typing import Iterator, Sequence

from ..openscad.grid import Grid
from ..server.scripts import passed_limit
from .cutting import Box, Fill, Limits, Tile, count_of, halved, near_leaves, planes_of, whole_box, whole_tree, within
from .shapes import TileSource, TooMuch, source

# A piece has about this many facets.
_FACETS_AT_ONCE = 2400
# Where a tile is so small, as at the tip of a cone with many sides, smaller ones have no fewer facets, and the server's own
# limits hold.
_SMALL, _OWN_LIMITS = 8, Limits(planes=4000, facets=4000, shapes=1000)


def pieces(grid: Grid, limits: Limits, steps: int = 1) -> list[Tile]:
    """The pieces of a design whose grid has this many steps to a unit, in an order that is always the same. Raises CsgFault
    where it can't be divided."""
    tree = whole_tree(grid)
    box = whole_box(tree)
    inner = within(tree, box)
    found = []
    waiting = [] if isinstance(inner, Fill) else [Tile(box, inner, steps)]
    while waiting:
        tile = waiting.pop()
        if facets_of(tile, _FACETS_AT_ONCE) <= max(_FACETS_AT_ONCE, limits.facets):
            found.append(tile)
        else:
            waiting += halves(tile)[::-1]
    return found


def facets_of(tile: Tile, most: int) -> int:
    """How many facets go through a tile, counted until there are more than this many."""
    return count_of(tile, most)[0]


def halves(tile: Tile) -> list[Tile]:
    """The parts of a tile, at a half of the grid where no whole place is free. Raises CsgFault where it can't be halved."""
    found = halved(tile)
    if found is None and not tile.is_halved:
        found = halved(tile.with_half_steps())
    if found is None:
        node = next(near_leaves(tile.tree)).leaf.node
        said = f"it has more planes or shapes than a part may have {_place_of(tile)}, where it can't be halved"
        raise node.fault("TooManyPlanes", said)
    return found


def _place_of(tile: Tile) -> str:
    places = [str(Fraction(it, tile.steps)) for it in tile.box]
    return f"between {', '.join(places[:3])} and {', '.join(places[3:])} of the grid"


def sources(tiles: Sequence[Tile], limits: Limits) -> Iterator[TileSource]:
    """Tiles within the limits that these tiles are divided into, but for those in which nothing is. Raises CsgFault."""
    waiting = list(tiles[::-1])
    while waiting:
        tile = waiting.pop()
        try:
            found = _within_limits(tile, _OWN_LIMITS if _is_small(tile.box) else limits)
        except TooMuch:
            waiting += halves(tile)[::-1]
            continue
        if found is not None:
            yield found


def _is_small(box: Box) -> bool:
    return max(high - low for low, high in zip(box, box[3:])) <= _SMALL


def _within_limits(tile: Tile, limits: Limits) -> TileSource | None:
    """The source of a tile; None where nothing is in it. Raises TooMuch."""
    facets, leaves = count_of(tile, limits.facets)
    if facets > limits.facets or leaves > limits.shapes or planes_of(tile) > limits.planes:
        raise TooMuch
    found = source(tile, limits)
    if found is not None and passed_limit(found.lines):
        raise TooMuch
    return found
