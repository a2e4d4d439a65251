"""Plans that are turned round the z axis, as joins of convex leaves.

A piece of a plan without a hollow side gives what its outer side bounds less what its inner side does: cones between circles,
which share the planes of their ends. """

from __future__ import annotations

import math
from typing import Sequence

from . import convex_pieces
from .convex_pieces import Flat, Loop, NotSimple
from .flat import FINE, PAST, Outline, Plan, Plane, built, greatest
from .reader import Node
from .tree import is_level, joined, leaves, moved
from .tree import DIFFERENCE, INTERSECTION, UNION, Detail, Leaf, Matrix, Solid, frame_of, fragments


class Turned:
    """A `rotate_extrude` of a plan."""

    def __init__(self, node: Node, matrix: Matrix, plane: Plane, detail: Detail, plan: Plan) -> None:
        self._node, self._matrix, self._plane, self._detail, self._plan = node, matrix, plane, detail, plan
        angle = node.number("angle", 360.0)
        self._turn = math.radians(max(-360.0, min(360.0, angle)))
        self._is_round = angle >= 360
        self._past = 0.0 if is_level(matrix) else PAST
        self._angles: list[float] = []

    def solid(self) -> Solid | None:
        """The solid; None where it is turned by nothing."""
        xs = [x for outline in leaves(self._plan) for loop in outline.loops for x, _ in loop]
        low, high = min(xs, default=0.0), max(xs, default=0.0)
        if self._turn == 0 or low == high == 0:
            return None
        if low < -1e-9 and high > 1e-9:
            raise self._node.fault("BadArgument", "its shape lies on both sides of the axis, of which OpenSCAD makes nothing")
        side = 1 if high > 1e-9 else -1
        radius = greatest(self._plan, lambda x, _: abs(x))
        count = max(int(fragments(self._node, radius) * abs(self._turn) / (2 * math.pi) + 1e-9), 1)
        self._detail.take(self._node, count * len(xs))
        step = self._turn / count
        if self._is_round:
            kept, off = self._detail.ring(count, radius)
            self._angles = [math.pi - step * it for it in kept]
        else:
            kept, off = self._detail.row(count, abs(step), radius)
            self._angles = [step * it for it in kept]
        self._detail.note(self._node, len(kept), count + (not self._is_round))
        if side < 0:
            self._angles = [it + math.pi for it in self._angles]
        self._detail.is_off_besides(off)
        whole = built(self._plan, lambda outline, is_cut: self._outline(outline, side))
        return whole if self._is_round or whole is None else self._sector(whole, radius)

    def _outline(self, outline: Outline, side: int) -> Solid | None:
        parts: list[Solid | None] = []
        for loop, holes in self._plane.sound(outline):
            cut = [self._loop(outline, hole, side) for hole in holes]
            parts.append(joined(DIFFERENCE, [self._loop(outline, loop, side), *cut]))
        return joined(UNION, parts)

    def _loop(self, outline: Outline, loop: Loop, side: int) -> Solid | None:
        """What a closed line bounds, turned: in pieces that go up once and down once."""
        ring = [(abs(x), y) for x, y in loop]
        try:
            parts = convex_pieces.pieces(ring, convex_pieces.goes_up_once)
        except NotSimple:
            raise outline.node.fault("NotConvex", "its outline can't be cut into pieces") from None
        return joined(UNION, [self._piece(it) for it in parts])

    def _piece(self, ring: Loop) -> Solid | None:
        """What a piece bounds: its right side, less its left side."""
        right, left = convex_pieces.sides(ring)
        if self._past and left[0][0] + left[-1][0]:
            left = _longer(left)
        return joined(DIFFERENCE, [self._stack(right), self._stack(left)])

    def _stack(self, side: Sequence[Flat]) -> Solid | None:
        """The leaves between a side and the axis: each a stretch of it that bulges outward."""
        stretches: list[list[Flat]] = []
        for below, above in zip(side, side[1:]):
            if below[1] == above[1] or below[0] == above[0] == 0:
                continue
            last = stretches[-1] if stretches else []
            bulges = len(last) > 1 and last[-1] == below and convex_pieces.turn(last[-2], below, above) > 0
            if bulges and (len(last) + 1) * len(self._angles) <= 128:
                last.append(above)
            else:
                stretches.append([below, above])
        return joined(UNION, [part for it in stretches for part in self._cones(it)])

    def _cones(self, profile: Sequence[Flat]) -> list[Solid | None]:
        """The leaves of a stretch: one, or those of sectors of at most a half turn, which go on past the ends where they cut.
        """
        way = frame_of(self._matrix)

        def leaf(angles: Sequence[float], axis: bool) -> Leaf:
            corners = [(0.0, 0.0, z / FINE) for x, z in profile if axis or not x]
            corners += [(x * math.cos(a) / FINE, x * math.sin(a) / FINE, z / FINE) for x, z in profile if x for a in angles]
            return Leaf(moved(self._matrix, corners), way, self._node)

        if self._is_round:
            return [leaf(self._angles, False)]
        first, last = self._angles[0], self._angles[-1]
        # (both go on past the ends, as far as the other end allows; the planes of the ends are those of a wedge)
        more = min(abs(self._angles[1] - first), (2 * math.pi - abs(last - first)) / 2) * math.copysign(1, self._turn)
        angles = [first - more, *self._angles, last + more]
        sectors, start = [], 0
        for at in range(1, len(angles)):
            if at == len(angles) - 1 or abs(angles[at + 1] - angles[start]) > math.pi:
                sectors.append(leaf(angles[start : at + 1], True))
                start = at
        return list(sectors)

    def _sector(self, whole: Solid, radius: float) -> Solid | None:
        """What of a solid lies between the first angle and the last."""
        first, last = self._angles[0], self._angles[-1]
        ys = [y for outline in leaves(self._plan) for loop in outline.loops for _, y in loop]
        low, high = min(ys), max(ys)
        ends = low - (high - low) / 8, high + (high - low) / 8
        if abs(last - first) > math.pi + 1e-9:
            rest = math.copysign(2 * math.pi, last - first)
            return joined(DIFFERENCE, [whole, self._wedge(last, first + rest, radius, ends)])
        return joined(INTERSECTION, [whole, self._wedge(first, last, radius, ends)])

    def _wedge(self, first: float, last: float, radius: float, ends: tuple[float, float]) -> Leaf:
        """A wedge between two angles, of at most a half turn, that goes past the solid."""
        far = radius * 1.25
        middle = (first + last) / 2
        angles = [(first, far), (last, far)]
        # (corners out of the circle, so that no side cuts it)
        angles += [
            ((it + middle) / 2, far / math.cos((last - first) / 4) / math.cos((last - first) / 8)) for it in (first, last)
        ]
        corners = [(r * math.cos(a), r * math.sin(a), z) for a, r in [*angles, (0.0, 0.0)] for z in ends]
        return Leaf(moved(self._matrix, corners), frame_of(self._matrix), self._node)


def _longer(side: list[Flat]) -> list[Flat]:
    """A side that goes on past both ends, along its first and its last way, down to the axis at most."""

    def past(end: Flat, before: Flat) -> Flat:
        share = PAST
        if before[0] > end[0]:
            share = min(share, end[0] / (before[0] - end[0]))
        return round(end[0] + (end[0] - before[0]) * share), round(end[1] + (end[1] - before[1]) * share)

    return [past(side[0], side[1]), *side, past(side[-1], side[-2])]
