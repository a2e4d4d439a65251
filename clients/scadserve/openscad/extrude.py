"""Plans that are extruded: straight up, or turned and scaled on the way in slices or in straight steps.

Each convex piece of a plan gives convex leaves. A slice is what OpenSCAD makes of a piece's lower and upper place: the hull of
these where its sides bulge, and else parts of it, or the hull, which is told.
"""

from __future__ import annotations

import math
from functools import partial
from typing import AbstractSet, NamedTuple, Sequence, Tuple

from .bays import Carving, carved, sides
from .convex_pieces import Flat, Loop, area2, is_convex
from .flat import FINE, PAST, Outline, Plan, Plane, built, fine, greatest, pieces_of
from .polyhedron import Parts
from .reader import Node
from .slices import rising
from .slices import Slice as SlicedPiece
from .steps import OF_OUTLINES, Line, Step, Turning, lines_of, round_off
from .tree import bounded, curve, frame_of, is_level, is_mirrored, joined, leaves, moved, quotient
from .tree import DIFFERENCE, INTERSECTION, MOST_SLICES, UNION
from .tree import Carved, Dented, Detail, Join, Leaf, Matrix, Sliced, Solid, Vector

# More steps than these have no boxes round them.
_MOST_LAYERS = 256
# By so much more than a slice a corner turns, so that rounding doesn't matter.
_MARGIN = 1.02


def turns(node: Node) -> bool:
    """Whether sides of a `linear_extrude` aren't flat: it turns on the way, or is scaled by two factors."""
    scale = node.arguments.get("scale", 1.0)
    return node.number("twist", 0.0) != 0 or (isinstance(scale, list) and len(set(map(str, scale))) > 1)


class End(NamedTuple):
    """An end of a slice: by which part of the whole turn it is turned, and at which part of the height it is."""

    turned: float
    level: float


Slice = Tuple[End, End]
Side = Tuple[Flat, Flat]


class Extrusion:
    """A `linear_extrude` of a plan."""

    def __init__(self, node: Node, matrix: Matrix, plane: Plane, detail: Detail, plan: Plan) -> None:
        self._node, self._matrix, self._plane, self._detail, self._plan = node, matrix, plane, detail, plan
        self._height = node.number("height")
        self._low = -self._height / 2 if node.truth("center") else 0.0
        scale = node.arguments.get("scale", 1.0)
        self._scale = [
            max(0.0, it) for it in (node.numbers("scale", 2) if isinstance(scale, list) else [node.number("scale", 1.0)] * 2)
        ]
        self._twist = math.radians(node.number("twist", 0.0))
        self._past = 0.0 if is_level(matrix) else PAST
        self._radius = greatest(plan, math.hypot)
        self._count = self._slices(self._radius)
        self._most = self._count
        self._is_fewer = self._may_cut = False
        self._around: list[tuple[float, float]] = []
        self._known: dict[tuple[Flat, ...], tuple[list[Loop], Carving | None]] = {}
        self._have_parts: dict[tuple[tuple[Flat, ...], float, float, tuple[bool, ...]], bool] = {}

    def solid(self) -> Solid | None:
        """The solid; None where it has no height."""
        if self._height <= 0:
            return None
        self._detail.take(self._node, self._count * sum(len(loop) for it in leaves(self._plan) for loop in it.loops))
        steps = self._steps()
        if steps:
            self._detail.note_steps(self._node, len(steps))
            return built(self._plan, lambda outline, _: self._in_steps(outline, steps))
        if turns(self._node):
            height = self._height * math.sqrt(sum(row[2] * row[2] for row in self._matrix))
            self._most = self._detail.slices(self._node, height, self._count)
        kept = self._kept()
        self._is_fewer = len(kept) <= self._count
        self._may_cut = turns(self._node) and self._detail.may_cut((len(kept) - 1) * self._sides())
        self._detail.note(self._node, len(kept) - 1, self._most)
        return built(self._plan, lambda outline, is_cut: self._extruded(outline, [it / self._count for it in kept], is_cut))

    def _kept(self) -> list[int]:
        """The levels that are kept: with as few between the ends as may be left out."""
        most = self._detail.most
        # (between too few and enough; each more than the last by which a way between two is less off)
        few, enough = 0, self._most
        while most and enough - few > 1:
            middle = (few + enough) // 2
            few, enough = (few, middle) if self._off_of(self._spread(middle)) <= most else (middle, enough)
        kept = self._spread(enough)
        self._detail.is_off_besides(self._off_of(kept))
        return kept

    def _spread(self, count: int) -> list[int]:
        return sorted({(it * self._count * 2 + count) // (2 * count) for it in range(count + 1)})

    def _off_of(self, kept: Sequence[int]) -> float:
        """How far a corner is at levels that are left out from the straight way between two others."""
        gaps = list(zip(kept, kept[1:]))
        widest = max(after - before for before, after in gaps)
        turned = widest * abs(self._twist) / self._count
        if widest == 1 or not turned:
            return 0.0
        if turned >= math.pi / 2:
            return math.inf
        if self._scale[0] == self._scale[1] == 1:
            return self._radius * (1 - math.cos(turned / 2))
        return self._radius * max(self._off_between(*it) for it in gaps)

    def _off_between(self, before: int, after: int) -> float:
        """How far a corner, 1 from the axis, is at levels between two others from the straight way between these."""

        def placed(at: int) -> list[float]:
            level = at / self._count
            wide, deep = (max(0.0, 1 + (it - 1) * level) for it in self._scale)
            cos, sin = math.cos(self._twist * level), math.sin(self._twist * level)
            return [wide * cos, wide * sin, -deep * sin, deep * cos]

        most = 0.0
        first, last = placed(before), placed(after)
        for at in range(before + 1, after):
            share = (at - before) / (after - before)
            a, b, c, d = (own - low - (high - low) * share for own, low, high in zip(placed(at), first, last))
            # (the greatest singular value of a matrix of two rows)
            most = max(most, math.hypot(a + d, c - b) / 2 + math.hypot(a - d, b + c) / 2)
        return most

    def planes(self) -> int:
        """About how many planes it has, without its ends."""
        lines = self._lines(self._plane.aside())
        per_turn = self._per_turn(lines)
        if per_turn is not None:
            return self._turning().planes(per_turn, lines)
        return len(lines) * (1 if not self._twist and self._scale == [1, 1] else 2 * self._count)

    def _turning(self) -> Turning:
        outline = self._plane.as_one(self._node.shown()) if isinstance(self._plan, Join) else None
        loops = [loop for it in leaves(outline or self._plan) for loop in it.loops]
        side = max((math.dist(*ends) for loop in loops for ends in zip(loop, [*loop[1:], *loop[:1]])), default=0.0)
        return Turning(self._height, abs(self._twist), self._count, self._radius, side)

    def _per_turn(self, lines: Sequence[Line]) -> int | None:
        """How many straight steps to a full turn it is made of; None where it is in slices."""
        may = self._detail.may_step and self._twist and self._scale == [1, 1] and not self._past
        return self._turning().per_turn(self._detail.most * (1 / OF_OUTLINES - 1), lines) if may else None

    def _steps(self) -> list[Step]:
        """The straight steps that it is made of; none where it is in slices."""
        per_turn = self._per_turn(self._lines(self._plane.aside())) if self._detail.may_step else None
        if per_turn is None:
            return []
        self._detail.is_off_besides(self._turning().off(per_turn))
        return self._turning().steps(per_turn)

    def _lines(self, plane: Plane) -> list[Line]:
        """The different lines through sides of its parts, but those of rings that needn't be turned."""
        rings: list[Loop] = []
        for outline in leaves(self._plan):
            loops = [loop for it in plane.sound(outline) for loop in (it[0], *it[1])]
            if not self._twist or self._round_off(loops) is None:
                rings += [ring for loop in loops for ring in self._rings(outline, loop)]
        return lines_of(rings)

    def _sides(self) -> int:
        """How many sides its convex pieces have."""
        aside = self._plane.aside()
        loops = [(it, loop) for it in leaves(self._plan) for part in aside.sound(it) for loop in (part[0], *part[1])]
        return sum(len(piece) for it, loop in loops for piece in self._forms(it, loop)[0])

    def _round_off(self, loops: Sequence[Loop]) -> float | None:
        """How far a ring round the axis is off where it isn't turned, where that is little; else None."""
        off = round_off(loops)
        return off / FINE if off is not None and off <= self._detail.most * FINE else None

    def _rings(self, outline: Outline, loop: Loop) -> list[Loop]:
        pieces, carving = self._forms(outline, loop)
        return pieces if carving is None else carving.rings()

    def _in_steps(self, outline: Outline, steps: Sequence[Step]) -> Solid | None:
        """The solid of an outline in straight steps; of a ring round the axis as one."""
        sound = self._plane.sound(outline)
        off = self._round_off([loop for it in sound for loop in (it[0], *it[1])])
        if off is not None:
            self._detail.is_off(off)
            whole = [(End(0.0, 0.0), End(0.0, 1.0))]
            return self._joined(outline, sound, whole, whole, True)
        parts: list[Solid | None] = []
        for it in steps:
            ends = End(it.turned, it.low), End(it.turned, it.high)
            part = self._joined(outline, sound, [ends], [ends], True)
            layer = self._layer(ends, steps)
            both: list[Solid | None] = [layer, part]
            within: Solid | None = None if part is None or layer is None else joined(INTERSECTION, both)
            parts.append(part if part is None or within is None else Carved(within, [], part))
        return joined(UNION, parts)

    def _layer(self, ends: Slice, steps: Sequence[Step]) -> Leaf | None:
        """A box round a step, no wider than all steps: the server divides by its planes first, so that no side of the step cuts
        what is above it; None where the extrusion is turned as a whole, or shapes would run out."""
        if frame_of(self._matrix) or len(steps) * len(list(leaves(self._plan))) > _MOST_LAYERS:
            return None
        if not self._around:
            loops = [fine(loop) for it in leaves(self._plan) for loop in it.loops]
            rings = [self._placed(loop, End(it.turned, 0.0)) for loop in loops for it in steps]
            self._around = [(min(axis), max(axis)) for axis in list(zip(*(corner for ring in rings for corner in ring)))[:2]]
        heights = [self._low + self._height * it.level for it in ends]
        return Leaf(
            moved(self._matrix, [(x, y, z) for x in self._around[0] for y in self._around[1] for z in heights]),
            None,
            self._node,
        )

    def _extruded(self, outline: Outline, levels: Sequence[float], is_cut: bool) -> Solid | None:
        """The solid of an outline in slices between levels."""
        longer = _slices([levels[0] - self._past, *levels[1:-1], levels[-1] + self._past])
        # (what is turned, scaled or slanted on the way has no lids that stay on one plane)
        is_straight = not self._twist and self._scale == [1, 1] and not self._past
        return self._joined(outline, self._plane.sound(outline), longer if is_cut else _slices(levels), longer, is_straight)

    def _joined(
        self,
        outline: Outline,
        sound: Sequence[tuple[Loop, list[Loop]]],
        slices: list[Slice],
        longer: list[Slice],
        is_straight: bool,
    ) -> Solid | None:
        """The solid of closed lines without their holes."""
        parts: list[Solid | None] = []
        for loop, holes in sound:
            filled = self._filled(outline, loop, slices, is_straight)
            parts.append(joined(DIFFERENCE, [filled, *(self._filled(outline, hole, longer, is_straight) for hole in holes)]))
        return joined(UNION, parts)

    def _forms(self, outline: Outline, loop: Loop) -> tuple[list[Loop], Carving | None]:
        """A closed line in convex pieces, and without its bays where that has fewer sides."""
        key = tuple(loop)
        if key not in self._known:
            cut = pieces_of(outline, loop)
            carving = carved(loop) if len(cut) > 2 else None
            is_less = carving is not None and len(carving.lines()) < len({side for it in cut for side in sides(it)})
            self._known[key] = cut, carving if is_less else None
        return self._known[key]

    def _filled(self, outline: Outline, loop: Loop, slices: Sequence[Slice], is_straight: bool) -> Solid | None:
        """The solid of what a closed line bounds, in the form with fewer planes."""
        cut, carving = self._forms(outline, loop) if is_straight else (pieces_of(outline, loop), None)
        ring = loop if area2(loop) > 0 else loop[::-1]
        outer = set(_sides(ring))
        pieces: Solid | None = joined(UNION, [self._piece(it, slices, outer) for it in cut])
        if pieces is not None and self._may_cut:
            return Sliced(pieces, partial(self._in_dented_slices, outline, loop, slices, pieces))
        if pieces is None or carving is None:
            return pieces
        lids: list[tuple[Leaf, list[Vector]]] = []
        hull = self._carved(carving, slices, lids)
        return pieces if hull is None else Carved(hull, lids, pieces)

    def _carved(self, carving: Carving, slices: Sequence[Slice], lids: list[tuple[Leaf, list[Vector]]]) -> Solid | None:
        """The solid of a hull without its bays, whose lids are noted."""
        hull = self._piece(carving.hull, slices)
        assert isinstance(hull, Leaf)
        bays = []
        for bay, lid in carving.bays:
            lids.append((hull, moved(self._matrix, [it for end in slices[0] for it in self._placed(list(lid), end)])))
            bays.append(self._carved(bay, slices, lids))
        return joined(DIFFERENCE, [hull, *bays])

    def _piece(self, piece: Loop, slices: Sequence[Slice], outer: AbstractSet[Side] = frozenset()) -> Solid | None:
        """The solid of a convex piece of a closed line, slice by slice."""
        return joined(UNION, [self._slice(piece, below, above, outer) for below, above in slices])

    def _slice(self, piece: Loop, low: End, high: End, outer: AbstractSet[Side]) -> Solid:
        """A slice, or one that it is near enough to."""
        found = self._sliced(piece, low, high, outer)
        whole = self._leaf([*found.below, *found.above])
        if (not self._twist or low.turned == high.turned) and self._scale[0] == self._scale[1]:
            return whole
        is_hull = found.is_hull()
        off = found.sides_off() if isinstance(self._plan, Join) or self._is_fewer else 0.0
        off = off if is_hull else found.hull_off()
        parts = self._parts(found, piece, low, high) if self._may_cut and not is_hull and off > self._detail.most else None
        if parts is not None:
            return self._dented(found, set(), parts)
        self._detail.is_off_besides(off)
        if not is_hull or (off and not self._is_fewer):
            self._detail.note_hull(self._node)
        return whole

    def _leaf(self, corners: Sequence[Vector]) -> Leaf:
        return Leaf(moved(self._matrix, corners), frame_of(self._matrix), self._node)

    def _ways(
        self, piece: Loop, below: Sequence[Vector], above: Sequence[Vector], high: End, outer: AbstractSet[Side]
    ) -> list[bool]:
        """Whether each side of a slice is cut along the diagonal that goes up; one between two pieces in one way for both."""
        ways = rising(below, above, self._twist > 0, high.level >= 1 and min(self._scale) == 0)
        return [way if it in outer else it[0] < it[1] for way, it in zip(ways, _sides(piece))]

    def _dented(self, found: SlicedPiece, filled: AbstractSet[int], parts: Parts) -> Dented:
        """A slice with dents on some sides, of which others fill some."""
        # (what is mirrored goes counterclockwise as seen from below)
        turned = is_mirrored(self._matrix)
        leaf = self._leaf([*found.above, *found.below] if turned else [*found.below, *found.above])
        ways = [it != turned for it in found.rising]
        return Dented(leaf, ways, filled, lambda: joined(UNION, [self._leaf(it) for it in parts()]))

    def _in_dented_slices(self, outline: Outline, loop: Loop, slices: Sequence[Slice], pieces: Solid) -> Solid | None:
        """The solid of a closed line in slices of such pieces that the hull of a slice has both triangles at each side, where
        each of its corners turns by more than the slice does; or else what is made of other pieces."""
        turned = max(abs(self._twist) * (high.turned - low.turned) for low, high in slices)
        cut = pieces_of(outline, loop, partial(_turns_by_more, turned))
        outer = set(_sides(loop if area2(loop) > 0 else loop[::-1]))
        parts: list[Solid | None] = []
        for low, high in slices:
            found = [self._sliced(it, low, high, outer) for it in cut]
            inner = [{at for at, it in enumerate(_sides(piece)) if it not in outer} for piece in cut]
            # (where each would also be seen from a point with a dent at each side that another piece is at, these have no other
            # dents in common, so that each of them fills those of the others)
            are_filled = all(
                self._parts(it.hollow(sorted(some)), piece, low, high) is not None for piece, it, some in zip(cut, found, inner)
            )
            for piece, it, some in zip(cut, found, inner):
                make = self._parts(it, piece, low, high)
                if make is None:
                    return pieces
                whole = self._leaf([*it.below, *it.above])
                parts.append(whole if it.is_hull() else self._dented(it, some if are_filled else set(), make))
        return joined(UNION, parts)

    def _parts(self, found: SlicedPiece, piece: Loop, low: End, high: End) -> Parts | None:
        """What makes the corners of convex parts of a slice of a piece; None where there are none.

        Where all slices of a piece are equal but for a turn and their height, these are looked for in the first one alone.
        """
        if self._scale != [1, 1]:
            return found.parts(self._node)
        turned, higher = round(high.turned - low.turned, 9), round(high.level - low.level, 9)
        key = tuple(piece), turned, higher, tuple(found.rising)
        if key not in self._have_parts:
            self._have_parts[key] = found.parts(self._node) is not None
        return partial(found.placed_parts, self._node) if self._have_parts[key] else None

    def _sliced(self, piece: Loop, low: End, high: End, outer: AbstractSet[Side]) -> SlicedPiece:
        below, above = self._placed(piece, low), self._placed(piece, high)
        return SlicedPiece(below, above, self._ways(piece, below, above, high, outer))

    def _placed(self, piece: Loop, end: End) -> list[Vector]:
        """The corners of a piece at an end of a slice."""
        wide, deep = (max(0.0, 1 + (it - 1) * end.level) for it in self._scale)
        cos, sin = math.cos(self._twist * end.turned), math.sin(self._twist * end.turned)
        z = self._low + self._height * end.level
        return [(wide * (x * cos + y * sin) / FINE, deep * (y * cos - x * sin) / FINE, z) for x, y in piece]

    def _slices(self, radius: float) -> int:
        """How many slices OpenSCAD makes, as its version 2021.01 does. Raises CsgFault past a bound."""
        return bounded(self._node, "slices", self._unbounded_slices(radius), MOST_SLICES)

    def _unbounded_slices(self, radius: float) -> int:
        turn = abs(self._twist)
        fn, fa, fs = curve(self._node)
        if not turn and self._scale[0] == self._scale[1]:
            return 1
        if "slices" in self._node.arguments:
            return max(1, int(self._node.number("slices")))
        least = max(math.ceil(math.degrees(turn) / 120 - 1e-9), 1)
        if math.isnan(fn):
            return least
        if not turn:
            across = greatest(self._plan, lambda x, y: math.hypot(x * (1 - self._scale[0]), y * (1 - self._scale[1])))
            return max(1, int(fn) if fn > 0 else _ceiling(quotient(math.hypot(across, self._height), fs)))
        if fn > 0:
            return max(_ceiling(math.degrees(turn) * fn / 360), least)
        length = math.hypot(self._way(radius, turn), self._height)
        return max(min(_ceiling(quotient(math.degrees(turn), fa)), _ceiling(quotient(length, fs))), least)

    def _way(self, radius: float, turn: float) -> float:
        """How long the way of a corner is, seen from above: an arc of a circle, or of a spiral of Archimedes."""
        scale = self._scale[0]
        if scale == 1 or scale != self._scale[1]:
            return radius * turn

        def length(angle: float) -> float:
            return 0.5 * radius / end * (angle * math.sqrt(1 + angle * angle) + math.asinh(angle))

        end = turn * scale / (scale - 1) if scale > 1 else turn / (1 - scale)
        return length(end) - length(end - turn)


def _turns_by_more(turned: float, ring: Sequence[Flat]) -> bool:
    """Whether a ring is a triangle, or convex and turns at each corner by more than an angle."""
    if len(ring) == 3:
        return True
    for (a, b), (c, d), (e, f) in zip([ring[-1], *ring], ring, [*ring[1:], ring[0]]):
        u, v, x, y = c - a, d - b, e - c, f - d
        if math.atan2(u * y - v * x, u * x + v * y) <= turned * _MARGIN:
            return False
    return is_convex(ring)


def _sides(piece: Loop) -> list[Side]:
    """The sides of a closed line, each by its two ends."""
    return list(zip(piece, [*piece[1:], *piece[:1]]))


def _ceiling(number: float) -> int:
    """The least whole number above one, but for its last digits; of one that OpenSCAD's numbers don't hold the least that they
    do."""
    return math.ceil(number - 1e-9) if abs(number) < 2**31 else -(2**31)


def _slices(levels: Sequence[float]) -> list[Slice]:
    """The slices between levels, in which a part of the turn is at the same part of the height."""
    return [(End(low, low), End(high, high)) for low, high in zip(levels, levels[1:])]
