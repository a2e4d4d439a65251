"""A design of OpenSCAD's evaluated form as a source of ours: the unit that is chosen, the detail that planes allow, what is
told.

    conversion = converted(csg_reader.read(text), Wanted(), openscad_front.Front(folder))
    conversion.text, conversion.unit, conversion.told

The grid is the finest of a list on which all corners have room, or a coarser one of it on which no corner moves. Steps below
1/1000 are for small parts of which corners move on that. Where more planes or shapes come of it than a source may have, a
design is one of any size (`of_any_size`), or corners of curves are left out, by as little as suffices (`converted`).
"""

from __future__ import annotations

import contextlib
import math
import sys
from dataclasses import dataclass
from fractions import Fraction
from typing import Callable, Iterable, Sequence, TypeVar

from .dimensions import Sorting
from .extrude import turns
from .fineness import FINER
from .frames import frames
from .front import Front
from .grid import PLANES, ROOM, Grid, Rounded, Rounder, TooLong, TooMany, placed, written_grid
from .reader import DEEPEST, CsgFault, Node
from .space import Space
from .tree import IDENTITY, Detail, Leaf, Solid, leaves, outer_leaves

#: The grid steps that are tried, the finest first, in OpenSCAD's lengths.
UNITS = [Fraction(1, it) for it in (1000, 500, 400, 200, 100, 80, 50, 40, 20, 10, 8, 5, 4, 2)]
UNITS += [Fraction(it * 10**power) for power in range(7) for it in (1, 2, 5)]
#: Those for small parts of which corners move on all others, and the finest of tiles: plans are read in millionths.
SMALL_UNITS = [Fraction(1, it) for it in (20000, 10000, 5000, 4000, 2000)]
_FINEST = Fraction(1, 100_000)
# Below this, in grid steps, a corner hasn't moved: that much its six digits leave open.
_STILL = 0.02
# What is left out is tried from little to much, as the size of the design halved this often, and then between two of these.
_LEAST_BELOW, _STEPS_BELOW = 18, (14, 12, 10, 8, 6, 5, 4, 3)
_HALVINGS, _FINE_BELOW = 3, 10
# A design may be off by so much of its size, where nothing else is asked for.
_TOLERANCE = 1 / 100
#: What is said about a design that is empty.
NO_SOLID = "this design makes no solid at all"
_MIXED = "shapes in the plane and in space are joined, of which the first one's count"
# This many nodes are named in a line at most.
_NAMED = 8
# As many calls of Python's stand in one another for each node at most.
_FRAMES = 20


@dataclass(frozen=True)
class Wanted:
    """What is asked for: a grid step, all corners of curves, at most this many planes, how high a plan is made, how far a point
    may be off, whether corners may be left out past that, and whether what OpenSCAD warns of is a fault."""

    unit: Fraction | None = None
    is_exact: bool = False
    planes: int = PLANES
    height: Fraction | None = None
    tolerance: Fraction | None = None
    may_be_fewer: bool = False
    is_strict: bool = False


@dataclass(frozen=True)
class Conversion:
    """A source of ours, the length of a unit of it in OpenSCAD's, how far a point is off at most, what is said about it, and of
    how much OpenSCAD warned."""

    text: bytes
    unit: Fraction
    off: float
    told: list[str]
    warnings: int = 0


@dataclass(frozen=True)
class Design:
    """A design on the grid with all its corners, of any size: it may have more planes and shapes than a source. The rest is as
    of a conversion. Its grid has the given number of steps to a unit."""

    grid: Grid
    unit: Fraction
    off: float
    told: list[str]
    warnings: int
    steps: int = 1


T = TypeVar("T")


def converted(nodes: Sequence[Node], wanted: Wanted, front: Front) -> Conversion:
    """The source of a design, without corners of curves where planes or shapes run out. Raises CsgFault where there is none."""
    return _of(nodes, wanted, front, _Converter.conversion)


def of_any_size(nodes: Sequence[Node], wanted: Wanted, front: Front) -> Conversion | Design:
    """The source of a design, or the design itself where that has more planes or shapes than a source. Raises CsgFault."""
    return _of(nodes, wanted, front, _Converter.of_any_size)


def whole(nodes: Sequence[Node], wanted: Wanted, front: Front) -> Design:
    """A design with all its corners. Raises CsgFault where it has no solid."""
    return _of(nodes, wanted, front, _Converter.design)


def _of(nodes: Sequence[Node], wanted: Wanted, front: Front, make: Callable[[_Converter], T]) -> T:
    """What is made of a design. Raises CsgFault."""
    sys.setrecursionlimit(max(sys.getrecursionlimit(), _FRAMES * DEEPEST))
    try:
        solid_nodes, left_out = _solid_nodes(nodes, wanted)
        return make(_Converter(solid_nodes, left_out, wanted, front))
    except ArithmeticError:
        raise CsgFault(1, 1, "OutOfRange", "a corner or a factor of it is too large to be worked with") from None


def _solid_nodes(nodes: Sequence[Node], wanted: Wanted) -> tuple[list[Node], list[Node]]:
    """The nodes that count, as shapes in space, and those that OpenSCAD leaves out. Raises CsgFault where there are none, or
    shapes in the plane alone."""
    top = [it for it in nodes if it.is_shown()]
    first = top[0] if top else Node("group", {}, "", 1, 1)
    sorting = Sorting()
    found = sorting.sorted(first.with_children("group", top))
    left_out = sorting.left_out
    if wanted.is_strict and left_out:
        raise left_out[0].fault("WrongDimension", f"OpenSCAD leaves it out: {_MIXED}")
    if found.dimension is None:
        raise CsgFault(first.line, first.column, "Empty", NO_SOLID)
    if found.dimension == 3:
        return found.node.children, left_out
    if wanted.height is None:
        said = "the design is flat, which OpenSCAD makes no solid of either: --flat 1 makes it 1 high"
        raise first.fault("WrongDimension", said + "".join(f". {it}" for it in _left_out_told(left_out)))
    return [
        Node("linear_extrude", {"height": float(wanted.height)}, "", first.line, first.column, found.node.children)
    ], left_out


class _Converter:
    def __init__(self, nodes: list[Node], left_out: list[Node], wanted: Wanted, front: Front) -> None:
        self._nodes, self._left_out, self._wanted, self._front = nodes, left_out, wanted, front
        self._rounder = Rounder(wanted.planes)

    def conversion(self) -> Conversion:
        """The source, and what is said about it."""
        detail, solid, unit = self._unbroken(Detail().most_sides)
        try:
            rounded = self._rounder.rounded(solid, unit)
        except TooMany as many:
            unit, detail, rounded = self._within(solid, unit, detail, many)
        return self._source(solid, unit, detail, rounded)

    def of_any_size(self) -> Conversion | Design:
        """The source, or the design where that has more planes or shapes than a source."""
        detail, solid, unit = self._unbroken(math.inf)
        try:
            return self._source(solid, unit, detail, self._rounder.rounded(solid, unit))
        except TooMany:
            return self._design(solid, unit, detail)

    def design(self) -> Design:
        """The design with all its corners, and what is said about it."""
        detail, solid, unit = self._unbroken(math.inf)
        return self._design(solid, unit, detail)

    def _unbroken(self, most_sides: float) -> tuple[Detail, Solid, Fraction]:
        """The design with all its corners and the step of its grid; where slices of extrusions are thinner than that, and would
        vanish, with fewer slices."""
        detail = Detail(most_sides=most_sides)
        solid = self._solid(detail)
        unit = self._unit(solid)
        if detail.lowest_slice < unit:
            detail = Detail(most_sides=most_sides, least_slice=float(unit))
            solid = self._solid(detail)
        return detail, solid, unit

    def _source(self, solid: Solid, unit: Fraction, detail: Detail, rounded: Rounded) -> Conversion:
        tree = self._sound(solid, detail, rounded)
        told = self._told(unit, detail, rounded)
        comments = "".join(f"// {it}\n" for it in told[1:] if it not in self._front.said)
        text = f"// unit: {unit}\n" + comments + "".join(f"{it}\n" for it in written_grid(tree))
        return Conversion(text.encode("ascii", "replace"), unit, rounded.moved + detail.off, told, self._warnings())

    def _design(self, solid: Solid, unit: Fraction, detail: Detail) -> Design:
        steps, rounded = FINER, self._finer(solid, unit)
        if rounded is None:
            steps, rounded = 1, Rounder(None).rounded(solid, unit)
        tree = self._sound(solid, detail, rounded)
        return Design(tree, unit, rounded.moved + detail.off, self._told(unit, detail, rounded, steps), self._warnings(), steps)

    def _finer(self, solid: Solid, unit: Fraction) -> Rounded | None:
        """The design on a finer grid, where corners move and all of its leaves have room on it; None where that isn't so, where
        a polyhedron can't be cut there, or a unit was asked for."""
        if self._wanted.unit is not None or unit / FINER < _FINEST or _is_still(outer_leaves(solid), unit):
            return None
        with contextlib.suppress(TooLong, CsgFault):
            return Rounder(None, is_fine=True).rounded(solid, unit / FINER)
        return None

    def _sound(self, solid: Solid, detail: Detail, rounded: Rounded) -> Grid:
        """The tree of a design. Raises CsgFault where it is nothing, isn't exact and should be, or is off by more than it may
        be."""
        if self._wanted.is_exact and detail.hulls:
            raise detail.hulls[0].fault("NotConvex", "a slice of it has hollow sides, and isn't cut into convex parts")
        if rounded.tree is None:
            raise self._fault("Empty", NO_SOLID + "".join(f". {it}" for it in _vanished(rounded)))
        self._check_tolerance(solid, rounded.moved + detail.off)
        return rounded.tree

    def _check_tolerance(self, solid: Solid, off: float) -> None:
        """Raises CsgFault where some point is farther off than it may be."""
        wanted = self._wanted
        most = math.inf if wanted.may_be_fewer else _TOLERANCE * _size(solid)
        most = most if wanted.tolerance is None else float(wanted.tolerance)
        if off > most:
            said = f"a point is off by {off:.2g}, and {most:.2g} is allowed"
            # (more by what two digits may leave out)
            raise self._fault("TooCoarse", f"{said}: --tolerance {off * 1.06:.2g} allows that, or --fewer")

    def _told(self, unit: Fraction, detail: Detail, rounded: Rounded, steps: int = 1) -> list[str]:
        left = [*_left_out_told(self._left_out), *_thicker_told(detail), *_endless_told(detail), *_inward_told(detail)]
        return [_unit_told(unit, rounded, steps), *_fewer_told(detail), *_vanished(rounded), *left, *self._front.said]

    def _warnings(self) -> int:
        """Of how much OpenSCAD warned."""
        return len(self._left_out) + self._front.warnings()

    def _fault(self, word: str, said: str) -> CsgFault:
        return CsgFault(self._nodes[0].line, self._nodes[0].column, word, said)

    def _solid(self, detail: Detail) -> Solid:
        solid = Space(detail, self._front.flat, self._front.solid).solid(self._nodes, IDENTITY)
        if solid is None:
            raise self._fault("Empty", NO_SOLID)
        return solid

    def _unit(self, solid: Solid) -> Fraction:
        """The step of the grid."""
        all_leaves = list(outer_leaves(solid))
        greatest = max(abs(number) for leaf in all_leaves for corner in leaf.corners for number in corner)
        # (where sides run along no axis, a corner is rounded as the sum of two)
        room = ROOM + 0.49 if all(it.frame is None for it in all_leaves) else ROOM - 1
        units = UNITS if self._wanted.unit is None else [self._wanted.unit]
        fitting = [it for it in units if greatest <= room * float(it)]
        if not fitting:
            raise self._fault(
                "OutOfRange", f"a corner is {greatest:.6g} from the origin, and with units of {units[-1]} {ROOM} have room"
            )
        small = [it for it in SMALL_UNITS if greatest <= room * float(it)] if self._wanted.unit is None else []
        tried = [UNITS[0], *small[::-1]] if small else fitting[:6]
        still = (it for it in tried if _is_still(all_leaves, it) and _is_still(leaves(solid), it))
        return next(still, [*small, *fitting][0])

    def _within(self, solid: Solid, unit: Fraction, whole: Detail, many: TooMany) -> tuple[Fraction, Detail, Rounded]:
        """The design, which is of all detail, with no more planes and shapes than a part may have. Raises CsgFault."""
        framed = None
        turned = frames(leaves(solid), float(unit))
        with contextlib.suppress(TooMany):
            framed = self._rounder.rounded(solid, unit, turned) if turned else None
        try:
            found = self._coarser(solid, unit, whole) if self._wanted.is_exact else self._fewer(solid, unit, many)
        except CsgFault:
            if framed is None:
                raise
            return unit, whole, framed
        if framed is not None and framed.moved + whole.off < found[2].moved + found[1].off:
            return unit, whole, framed
        return found

    def _coarser(self, solid: Solid, unit: Fraction, whole: Detail) -> tuple[Fraction, Detail, Rounded]:
        """A coarser grid on which planes suffice, since they come to lie on one another. Raises CsgFault."""
        units = [] if self._wanted.unit is not None else [it for it in SMALL_UNITS + UNITS if it > unit][:6]
        for it in units:
            try:
                return it, whole, self._rounder.rounded(solid, it)
            except TooMany:
                pass
        raise self._fault("TooManyPlanes", "with all corners of its curves it has more planes or shapes than a part may have")

    def _fewer(self, solid: Solid, unit: Fraction, many: TooMany) -> tuple[Fraction, Detail, Rounded]:
        """The design with the least detail left out by which planes and shapes suffice. Raises CsgFault."""
        size = _size(solid)
        has_turns = any(it.name == "linear_extrude" and turns(it) for node in self._nodes for it in node.all())
        ways = [Detail(), *([Detail(cuts=False)] if has_turns else [])]
        tried = [it for it in (self._least(math.log2(size), unit, way) for way in ways) if it is not None]
        if not tried:
            tried = [it for it in [self._least(math.log2(size), unit, Detail(may_step=True, cuts=False))] if it is not None]
        if tried:
            return unit, *min(tried, key=lambda it: it[0].off)
        what = "planes" if many.args[0] == "TooManyPlanes" else "shapes"
        raise self._fault(many.args[0], f"it has more {what} than a part may have, also with few corners on its curves")

    def _least(self, size: float, unit: Fraction, way: Detail) -> tuple[Detail, Rounded] | None:
        """The design with the least detail left out in some way, by the size as a power of two; None where all of it is too
        much."""
        # (between what is known to be too little and what suffices; nothing at all is too little)
        low = high = size - _LEAST_BELOW
        best, below = None, _STEPS_BELOW[0]
        coarsest = Detail(2 ** (size - _STEPS_BELOW[-1]), way.may_step, way.cuts)
        self._solid(coarsest)
        for below in _STEPS_BELOW if coarsest.fewer or coarsest.steps or coarsest.off else ():
            low, high = high, size - below
            best = self._tried(high, unit, way)
            if best is not None:
                break
        for _ in range(0 if best is None else 1 if below >= _FINE_BELOW else _HALVINGS):
            middle = (low + high) / 2
            found = self._tried(middle, unit, way)
            if found is None:
                low = middle
            else:
                best, high = found, middle
        return best

    def _tried(self, power: float, unit: Fraction, way: Detail) -> tuple[Detail, Rounded] | None:
        detail = Detail(2**power, way.may_step, way.cuts)
        try:
            return detail, self._rounder.rounded(self._solid(detail), unit)
        except TooMany:
            return None


def _size(solid: Solid) -> float:
    """The way from the least corner of a solid's box to its greatest."""
    axes = list(zip(*(corner for leaf in outer_leaves(solid) for corner in leaf.corners)))
    return math.dist([min(it) for it in axes], [max(it) for it in axes])


def _is_still(all_leaves: Iterable[Leaf], unit: Fraction) -> bool:
    """Whether no corner moves on a grid of this step."""
    for leaf in all_leaves:
        found = Rounded()
        placed(leaf, float(unit), found)
        if found.moved > _STILL * unit:
            return False
    return True


def _unit_told(unit: Fraction, rounded: Rounded, steps: int) -> str:
    still = rounded.moved <= _STILL * unit / steps
    moved = "no corner moved" if still else f"corners moved by {rounded.moved:.2g} at most"
    return f"on a grid of {unit}: {moved}" + (f", since its tiles have steps of {unit / steps}" if steps > 1 else "")


def _fewer_told(detail: Detail) -> list[str]:
    """What is otherwise than OpenSCAD's, and how far that is off."""
    kinds = ", ".join(
        f"{count} {name} ({detail.fewest[name][0]} of {detail.fewest[name][1]} at "
        f"least)" for name, count in sorted(detail.fewer.items())
    )
    steps = ", ".join(f"{node.called()} ({count} steps)" for node, count in detail.steps)
    hulls = ", ".join(it.called() for it in detail.hulls)
    since = f", since a part has at most {PLANES} planes"
    told = [f"fewer corners on curves{since}: {kinds}"] if kinds else []
    told += [f"what turns on the way in straight steps{since}: {steps}"] if steps else []
    told += [f"slices with hollow sides as hulls: {hulls}"] if hulls else []
    return ["; ".join([*told, f"nothing is off by more than {detail.off:.2g}"])] if told else []


def _vanished(rounded: Rounded) -> list[str]:
    """What is said about nodes of which nothing is left on the grid, and of those that lost some of their pieces."""
    left = {id(it.node) for it in leaves(rounded.tree)}
    whole = [it for it in rounded.vanished if id(it) not in left]
    part = [it for it in rounded.vanished if id(it) in left]
    told = [f"vanished, since it is thinner than the grid: {_named(whole)}"] if whole else []
    return told + ([f"without pieces that are thinner than the grid: {_named(part)}"] if part else [])


def _left_out_told(left_out: Sequence[Node]) -> list[str]:
    return [f"left out, as OpenSCAD does, since {_MIXED}: {_named(left_out)}"] if left_out else []


def _thicker_told(detail: Detail) -> list[str]:
    named = [f"{node.called()} ({most} of {count})" for node, most, count in detail.thicker]
    more = f" and {len(named) - _NAMED} more" if len(named) > _NAMED else ""
    told = f"fewer slices, since they are thinner than the grid: {', '.join(named[:_NAMED])}{more}"
    return [f"{told}; nothing is off by more than {detail.off:.2g}"] if named else []


def _endless_told(detail: Detail) -> list[str]:
    told = "nothing, as in OpenSCAD, since a size is infinite or undefined"
    return [f"{told}: {_named(detail.endless)}"] if detail.endless else []


def _inward_told(detail: Detail) -> list[str]:
    return [f"turned, since all faces looked inward: {_named(detail.inward)}"] if detail.inward else []


def _named(nodes: Sequence[Node]) -> str:
    """Nodes of the evaluated form, each once."""
    places = list(dict.fromkeys(it.called() for it in nodes))
    return ", ".join(places[:_NAMED]) + (f" and {len(places) - _NAMED} more" if len(places) > _NAMED else "")
