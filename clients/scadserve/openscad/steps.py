"""Extrusions that turn on the way as straight steps, one above the other, each turned as the extrusion is at one height.

Slices that are turned otherwise have planes of their own each. Steps that are turned by whole parts of a full turn have the
same upright planes again, turn after turn. A step reaches half way to the next one, so what is between a step and the extrusion
is there half a step higher or lower. """

from __future__ import annotations

import math
from typing import Iterable, NamedTuple, Sequence

from .convex_pieces import Loop

#: Of what a point may be off, so much is for outlines, and the rest for steps.
OF_OUTLINES = 0.25
# A full turn has at least this many steps.
_LEAST = 8
# How exactly two lines must agree to be one, in radians and millionths.
_SAME_ANGLE, _SAME_WAY = 1e-5, 50
# A last step that is turned by less than this part of the whole is none.
_REST = 1e-5
# Corners of a ring round the axis are equally far from it but for this part.
_ROUND = 1e-4


class Step(NamedTuple):
    """A straight step: by which part of the whole turn it is turned, and between which parts of the height it is."""

    turned: float
    low: float
    high: float


class Line(NamedTuple):
    """A line in the plane: the angle of the way across it, and how far it is from the origin."""

    angle: float
    away: float


class Turning(NamedTuple):
    """An extrusion that turns on the way: its height, its turn above 0, and OpenSCAD's slices of it; its greatest radius, and
    its longest side."""

    height: float
    turn: float
    slices: int
    radius: float
    side: float

    def off(self, per_turn: int) -> float:
        """How far steps are off at most, of this many to a full turn.

        What is between a step and the extrusion is there half a step higher or lower. A corner that is farthest out between two
        steps isn't reached. A slice of OpenSCAD's lies within the arcs of its corners, and its sides are cut into triangles,
        which is off by a quarter of the way between the sides, or by the slice's height. """
        slanted = self.turn / self.slices
        half = self.height * math.pi / per_turn / self.turn
        out = _inside(self.radius, 2 * math.pi / per_turn)
        by_side = max(half, out) + self.side * math.sin(slanted / 2) / 2
        return min(by_side, max(half + self.height / self.slices, out)) + _inside(self.radius, slanted)

    def per_turn(self, most: float, lines: Sequence[Line]) -> int | None:
        """How many steps to a full turn are off by so much at most, and have the fewest planes; None where none are."""
        least = next((it for it in range(_LEAST, 2 * self.slices + _LEAST) if self.off(it) <= most), None)
        if least is None:
            return None
        return min(range(least, 2 * least), key=lambda it: self.planes(it, lines))

    def planes(self, per_turn: int, lines: Sequence[Line]) -> int:
        """About how many planes steps have, this many to a full turn, of an outline with these lines."""
        part = 2 * math.pi / per_turn
        steps = self.turn / part
        turned = min(per_turn, math.floor(steps * (1 + _REST)) + 1) * different(lines, part)
        return turned + math.ceil(steps) + (len(lines) if abs(steps - round(steps)) > _REST * steps else 0)

    def steps(self, per_turn: int) -> list[Step]:
        """The steps; the first is turned by nothing, and the last as far as the extrusion."""
        part = 2 * math.pi / per_turn / self.turn
        turned = [part * it for it in range(math.floor((1 + _REST) / part) + 1)]
        turned = [*turned, 1.0] if 1 - turned[-1] > _REST else [*turned[:-1], 1.0]
        ends = [0.0, *((below + above) / 2 for below, above in zip(turned, turned[1:])), 1.0]
        return [Step(*it) for it in zip(turned, ends, ends[1:])]


def lines_of(loops: Iterable[Loop]) -> list[Line]:
    """The lines through the sides of closed lines, each once."""
    found: dict[tuple[int, int], Line] = {}
    for loop in loops:
        for (a, b), (c, d) in zip(loop, [*loop[1:], *loop[:1]]):
            length = math.hypot(c - a, d - b)
            angle, away = math.atan2(a - c, d - b), (a * (d - b) - b * (c - a)) / length
            if away < 0:
                angle, away = angle + math.pi, -away
            # (two ways are across a line through the origin, and are one here)
            angle %= math.pi if away < _SAME_WAY else 2 * math.pi
            found[round(angle / _SAME_ANGLE), round(away / _SAME_WAY)] = Line(angle, away)
    return list(found.values())


def different(lines: Sequence[Line], part: float) -> int:
    """How many of lines aren't others of them, turned by such parts of a turn."""
    whole = round(part / _SAME_ANGLE)
    return len({(round((it.angle % part) / _SAME_ANGLE) % whole, round(it.away / _SAME_WAY)) for it in lines})


def round_off(loops: Sequence[Loop]) -> float | None:
    """How far a ring round the axis is off where it isn't turned, in millionths; None where the loops are no such ring."""
    if len(loops) != 1:
        return None
    distances = [math.hypot(x, y) for x, y in loops[0]]
    angles = sorted(math.atan2(y, x) for x, y in loops[0])
    gap = max(after - before for before, after in zip(angles, [*angles[1:], angles[0] + 2 * math.pi]))
    if max(distances) - min(distances) > _ROUND * max(distances) or gap > math.pi / 2 + _ROUND:
        return None
    return _inside(max(distances), gap)


def _inside(radius: float, angle: float) -> float:
    """How far the middle of a chord is inside its arc."""
    return radius * (1 - math.cos(min(angle, math.pi) / 2))
