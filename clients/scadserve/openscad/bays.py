"""Outlines as hulls without their bays: a letter has far fewer planes so than as convex pieces, since a curve that turns in
is a side of one bay, where each of its corners would begin a piece.

A bay is what lies between a side of the hull, its lid, and the outline. It may have bays itself.
"""

from __future__ import annotations

from dataclasses import dataclass
from typing import Sequence

from . import convex_pieces
from .convex_pieces import Flat, Loop


@dataclass(frozen=True)
class Carving:
    """A convex outline without bays: each of these, and the two ends of its lid."""

    hull: Loop
    bays: list[tuple[Carving, tuple[Flat, Flat]]]

    def rings(self) -> list[Loop]:
        """The convex outlines that it is made of."""
        return [self.hull, *(ring for bay, _ in self.bays for ring in bay.rings())]

    def lines(self) -> set[frozenset[Flat]]:
        """Its different sides, by their ends; a lid is one with the side of the hull that it lies on."""
        return {side for ring in self.rings() for side in sides(ring)}


def sides(ring: Sequence[Flat]) -> set[frozenset[Flat]]:
    """The sides of a closed line, by their ends."""
    return {frozenset(it) for it in zip(ring, [*ring[1:], *ring[:1]])}


def carved(loop: Sequence[Flat]) -> Carving:
    """A simple closed line without straight corners as a hull without bays."""
    outer = convex_pieces.hull(loop)
    corners = set(outer)
    first = next(at for at, it in enumerate(loop) if it in corners)
    bays, chain = [], [loop[first]]
    for it in [*loop[first + 1 :], *loop[: first + 1]]:
        chain.append(it)
        if it in corners:
            bay = convex_pieces.cleaned(chain) if len(chain) > 2 else []
            if bay:
                lid = [corner for corner in bay if convex_pieces.turn(chain[0], it, corner) == 0]
                bays.append((carved(bay), (min(lid), max(lid))))
            chain = [it]
    return Carving(outer, bays)
