"""A surface as it is written: its corners rounded, and its triangles in an order by which readers join them as they are meant.

Corners are exact fractions until they are printed. A text format prints the shortest decimal number of the nearest
double, and binary STL has the nearest single; a corner one of whose numbers that changes is rounded. Where both ends of
a side become one by rounding, its triangle is left out and the neighbours at its other sides become neighbours, which
leaves a closed surface closed.

Formats with numbers have a point for each node of the surface, so sheets that touch have points of their own. STL has no
numbers: there a reader looks for the two triangles of an edge by its points, in the order of the file. So where more than
two have an edge in common, those that belong together stand one behind the other. Where neither tells two such edges
apart, as where a bar is twice between the same points, a point is put inside the second one.
"""

from __future__ import annotations

import struct
from fractions import Fraction
from math import gcd
from typing import Iterable, NamedTuple, Sequence

from .closing import Ring
from .fouroff import Boundary, Corner, Plane
from .measures import volume
from .surface import Side, Surface, next_side, nodes_of, previous_side

#: A corner as it is printed: three numbers of a text, or three singles.
Printed = tuple[str, str, str]


class Mesh(NamedTuple):
    """Triangles as they are written."""

    #: Any text that can be shown; formats of ASCII have `_` for other letters.
    name: str
    #: How many millimetres a unit of the source is.
    unit: Fraction
    points: list[Printed]
    triangles: list[Ring]
    #: The plane of each triangle before rounding, whose direction points outward.
    planes: list[Plane]
    #: How many corners are not printed exactly.
    rounded: int
    #: How many triangles rounding has left none of.
    lost: int
    #: How many pieces it has, and how many hollows inside them.
    parts: int
    hollows: int


def mesh(name: str, surface: Surface, unit: Fraction, form: str, step: Fraction = Fraction(1)) -> Mesh:
    """The triangles of a surface with their corners times the unit, rounded for this format. A length of the surface is a
    step, in units."""
    printer = _Printer(unit * step, form)
    rounded = sum(not printer.is_exact(surface.corners[it]) for it in set(surface.places))
    whole = _contracted(surface, printer)
    lost = len(surface.planes) - len(whole.planes)
    touching = _touching(whole, printer)
    if touching:
        whole = _told_apart(whole, touching, printer)
        touching = _touching(whole, printer)
    shells = _shells(whole.twins)
    hollows = sum(_is_hollow(whole, shell) for shell in shells)
    order = _in_order(shells, whole, touching)
    numbers: dict[int, int] = {}
    triangles: list[Ring] = []
    for at in order:
        a, b, c = (numbers.setdefault(node, len(numbers)) for node in whole.triangle(at))
        triangles.append((a, b, c))
    points = [printer.point(whole.corners[whole.places[node]]) for node in numbers]
    planes = [whole.planes[at] for at in order]
    return Mesh(name, unit, points, triangles, planes, rounded, lost, len(shells) - hollows, hollows)


class _Printer:
    """Prints corners in a unit, for a format."""

    def __init__(self, unit: Fraction, form: str) -> None:
        self._unit = unit
        self._round_off = _single if form == "binstl" else _double
        self._numbers: dict[tuple[int, int], tuple[str, bool]] = {}
        self._points: dict[Corner, Printed] = {}

    def point(self, corner: Corner) -> Printed:
        """The three numbers of a corner as digits."""
        if corner not in self._points:
            x, y, z = (self._number(corner[axis], corner[3])[0] for axis in range(3))
            self._points[corner] = (x, y, z)
        return self._points[corner]

    def is_exact(self, corner: Corner) -> bool:
        """Whether these digits say just that corner."""
        return all(self._number(corner[axis], corner[3])[1] for axis in range(3))

    def _number(self, above: int, below: int) -> tuple[str, bool]:
        """The number above/below times the unit as digits, and whether it is what these say."""
        if (above, below) not in self._numbers:
            exact = Fraction(above, below) * self._unit
            text, value = self._round_off(exact)
            self._numbers[above, below] = (text, value == exact)
        return self._numbers[above, below]


def _double(number: Fraction) -> tuple[str, Fraction]:
    """The shortest digits of the nearest double, and the number that they say."""
    text = repr(float(number))
    if text.endswith(".0"):
        text = text[:-2]
    return text, Fraction(text)


def _single(number: Fraction) -> tuple[str, Fraction]:
    """The shortest digits of the nearest single as a double, and that single."""
    (single,) = struct.unpack("<f", struct.pack("<f", float(number)))
    return repr(single), Fraction(single)


def _contracted(surface: Surface, printer: _Printer) -> Surface:
    """The surface without the triangles two of whose corners are printed as one."""
    points = [printer.point(surface.corners[place]) for place in surface.places]
    ends = [points[node] for node in surface.starts]
    is_short = [ends[side] == ends[next_side(side)] for side in range(len(ends))]
    kept = [at for at in range(len(surface.planes)) if not any(is_short[3 * at : 3 * at + 3])]
    if len(kept) == len(surface.planes):
        return surface
    numbers = {old: new for new, old in enumerate(kept)}

    def neighbour(side: Side) -> Side:
        """The side of a triangle that is kept behind those that are not."""
        twin = surface.twins[side]
        while twin // 3 not in numbers:
            # One of its three sides is short, and the two others become one.
            across = previous_side(twin) if is_short[next_side(twin)] else next_side(twin)
            twin = surface.twins[across]
        return 3 * numbers[twin // 3] + twin % 3

    sides = [3 * at + i for at in kept for i in range(3)]
    twins = [neighbour(side) for side in sides]
    nodes, places = nodes_of([surface.places[surface.starts[side]] for side in sides], twins)
    return Surface(surface.corners, places, nodes, twins, [surface.planes[at] for at in kept])


class _Groups:
    """Triangles that are put together."""

    def __init__(self, size: int) -> None:
        self._above = list(range(size))

    def root(self, at: int) -> int:
        """The triangle that stands for all that are together with this one."""
        while self._above[at] != at:
            self._above[at] = at = self._above[self._above[at]]
        return at

    def join(self, one: int, other: int) -> None:
        """Puts two of them together."""
        self._above[self.root(other)] = self.root(one)


def _touching(surface: Surface, printer: _Printer) -> list[list[Side]]:
    """The edges between the same two points as another one: a side of each, for each two such points."""
    points = [printer.point(surface.corners[place]) for place in surface.places]
    found: dict[tuple[Printed, Printed], list[Side]] = {}
    for side, twin in enumerate(surface.twins):
        p, q = points[surface.starts[side]], points[surface.starts[twin]]
        if p < q:
            found.setdefault((p, q), []).append(side)
    return [sides for sides in found.values() if len(sides) > 1]


def _together(surface: Surface, touching: Iterable[Iterable[Side]]) -> _Groups:
    """The triangles, those together which have one of these edges in common."""
    groups = _Groups(len(surface.planes))
    for sides in touching:
        for side in sides:
            groups.join(side // 3, surface.twins[side] // 3)
    return groups


def _told_apart(surface: Surface, touching: Iterable[Sequence[Side]], printer: _Printer) -> Surface:
    """The surface with a point put inside each edge that neither its nodes nor any order tells from another one."""
    groups = _together(surface, touching)
    cutting = _Cutting(surface, printer)
    for sides in touching:
        nodes: set[frozenset[int]] = set()
        roots: set[int] = set()
        for number, side in enumerate(sides, 1):
            ends = frozenset((surface.starts[side], surface.starts[surface.twins[side]]))
            root = groups.root(side // 3)
            if ends in nodes or root in roots:
                cutting.cut(side, Fraction(1, number))
            nodes.add(ends)
            roots.add(root)
    return cutting.surface


def _between(p: Corner, q: Corner, share: Fraction) -> Corner:
    """The point at this share of the way from p to q."""
    near, far = (share.denominator - share.numerator) * q[3], share.numerator * p[3]
    numbers = [near * p[i] + far * q[i] for i in range(3)]
    below = share.denominator * p[3] * q[3]
    divisor = gcd(*numbers, below)
    return (numbers[0] // divisor, numbers[1] // divisor, numbers[2] // divisor, below // divisor)


class _Cutting:
    """Puts points inside edges of a surface, which it copies."""

    def __init__(self, surface: Surface, printer: _Printer) -> None:
        self.surface = Surface(
            list(surface.corners), list(surface.places), list(surface.starts), list(surface.twins), list(surface.planes)
        )
        self._printer = printer
        self._moved: dict[Side, Side] = {}

    def cut(self, side: Side, share: Fraction) -> None:
        """Puts a point inside the edge of this side, at this share of it, unless it is printed as a corner of its triangles.

        The edge's two triangles become four.
        """
        surface = self.surface
        while side in self._moved:
            side = self._moved[side]
        twin = surface.twins[side]
        beside = [side, twin, previous_side(side), previous_side(twin)]
        corners = [surface.corners[surface.places[surface.starts[it]]] for it in beside]
        corner = _between(corners[0], corners[1], share)
        if self._printer.point(corner) in map(self._printer.point, corners):
            return
        node = len(surface.places)
        surface.places.append(len(surface.corners))
        surface.corners.append(corner)
        there, back = self._halve(side, node), self._halve(twin, node)
        self._join(side, back)
        self._join(there, twin)


    def _halve(self, side: Side, node: int) -> Side:
        """Cuts the triangle of a side from the node inside it to the opposite corner; gives the second half of the side."""
        surface = self.surface
        behind = next_side(side)
        end, tip = surface.starts[behind], surface.starts[previous_side(side)]
        first = len(surface.starts)
        surface.planes.append(surface.planes[side // 3])
        surface.starts += [node, end, tip]
        surface.twins += [-1, -1, -1]
        self._join(first + 1, surface.twins[behind])
        self._moved[behind] = first + 1
        surface.starts[behind] = node
        self._join(first + 2, behind)
        return first

    def _join(self, side: Side, other: Side) -> None:
        self.surface.twins[side], self.surface.twins[other] = other, side


def _shells(twins: Sequence[Side]) -> list[list[int]]:
    """The triangles that hang together by their sides, in order."""
    shell = [-1] * (len(twins) // 3)
    shells: list[list[int]] = []
    for first in range(len(shell)):
        if shell[first] >= 0:
            continue
        shell[first] = len(shells)
        found = [first]
        for at in found:
            for side in range(3 * at, 3 * at + 3):
                other = twins[side] // 3
                if shell[other] < 0:
                    shell[other] = len(shells)
                    found.append(other)
        shells.append(sorted(found))
    return shells


def _is_hollow(surface: Surface, shell: Sequence[int]) -> bool:
    """Whether these triangles look inward, round a hollow."""
    faces = [tuple(surface.places[node] for node in surface.triangle(at)) for at in shell]
    return volume(Boundary(surface.corners, faces, [])).value < 0


def _in_order(shells: Iterable[Sequence[int]], surface: Surface, touching: Iterable[Iterable[Side]]) -> list[int]:
    """The triangles shell by shell, and those one behind the other which have an edge in common where others touch it."""
    groups = _together(surface, touching)
    members: dict[int, list[int]] = {}
    for at in range(len(surface.planes)):
        members.setdefault(groups.root(at), []).append(at)
    return [it for shell in shells for at in shell for it in members.pop(groups.root(at), ())]
