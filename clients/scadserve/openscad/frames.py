"""Frames of turned parts: grids of their own, whose axes are whole multiples of the grid's steps.

Where much is turned alike, and lies on few planes before, rounding corner by corner makes many planes of each. On a grid of the
part's own, with three whole ways as its axes, what was on one plane still is. The ways are rounded, so that the part is a
little longer or shorter, or a little slanted; how far corners are moved by that is told as it is for all. """

from __future__ import annotations

import math
from collections import Counter
from dataclasses import dataclass
from typing import Iterable, Sequence

from .tree import Leaf, Matrix, Vector

# A step of a frame has at least this many of the grid, and this many are tried.
_LEAST, _TRIED = 8, 8
# What is tried is tried with this many corners.
_PLACES = 300


@dataclass(frozen=True)
class Frame:
    """A grid whose axes are whole ways: its inverse in lengths, its step, and the three ways as columns, in grid steps."""

    inverse: Sequence[Sequence[float]]
    step: float
    ways: Sequence[Sequence[int]]

    def placed(self, place: Vector) -> tuple[int, int, int]:
        """The corner on the grid for a place."""
        x, y, z = (whole(sum(a * b for a, b in zip(row, place)) / self.step) for row in self.inverse)
        a, b, c = (row[0] * x + row[1] * y + row[2] * z for row in self.ways)
        return a, b, c


def whole(number: float) -> int:
    """The nearest whole number, of two the greater one; what digits leave open, as 2.4999999 for a half, decides nothing."""
    return math.floor(round(number, 6) + 0.5)


def basis(matrix: Matrix) -> Matrix:
    """The directions of the axes, as columns, to five digits: parts that are turned alike have one."""
    lengths = [math.sqrt(sum(row[k] ** 2 for row in matrix)) or 1.0 for k in range(3)]
    return tuple(tuple(round(row[k] / lengths[k], 5) + 0.0 for k in range(3)) for row in matrix)


def frames(all_leaves: Iterable[Leaf], unit: float) -> dict[Matrix, Frame]:
    """The frame of each way in which leaves are turned, by its directions, on a grid of this step."""
    of_basis: dict[Matrix, list[Leaf]] = {}
    for it in all_leaves:
        if it.frame is not None:
            of_basis.setdefault(basis(it.frame), []).append(it)
    found = {}
    for key, some in of_basis.items():
        frame = _frame(key, some, unit)
        if frame is not None:
            found[key] = frame
    return found


def _frame(directions: Matrix, some: Sequence[Leaf], unit: float) -> Frame | None:
    """The frame by which corners are moved least; None where there is none."""
    exact = some[0].frame
    assert exact is not None
    lengths = [math.sqrt(sum(row[k] ** 2 for row in exact)) for k in range(3)]
    if min(lengths) == 0:
        return None
    columns = [[row[k] / lengths[k] for k in range(3)] for row in exact]
    inverse = _inverse(columns)
    if inverse is None:
        return None
    places = list({place for it in some for place in it.corners})
    places = places[:: -(-len(places) // _PLACES)]
    best: tuple[float, Frame] | None = None
    for step in _steps(inverse, places, unit):
        ways = [[whole(it * step / unit) for it in row] for row in columns]
        frame = Frame(inverse, step, ways)
        if _determinant(ways) == 0:
            continue
        moved = max(math.dist([it * unit for it in frame.placed(place)], place) for place in places)
        if best is None or moved < best[0]:
            best = moved, frame
    return None if best is None else best[1]


def _steps(inverse: Sequence[Sequence[float]], places: Sequence[Vector], unit: float) -> list[float]:
    """Steps that may fit: the commonest distances between neighbouring coordinates, and halves and thirds of these."""
    distances: Counter[float] = Counter()
    for row in inverse:
        coordinates = sorted({round(sum(a * b for a, b in zip(row, place)), 3) for place in places})
        distances.update(round(q - p, 2) for p, q in zip(coordinates, coordinates[1:]) if q - p > _LEAST * unit)
        # (as exact as their digits allow: the distance from end to end, by how many steps that is)
        ends = coordinates[-1] - coordinates[0]
        for rough in [it for it, _ in distances.most_common(_TRIED)]:
            if ends > rough:
                distances[ends / round(ends / rough)] += 1
    found = [it for it, _ in distances.most_common(3 * _TRIED)]
    return [it / part for it in found for part in (1, 2, 3) if it / part >= _LEAST * unit]


def _determinant(m: Sequence[Sequence[float]]) -> float:
    (a, b, c), (d, e, f), (g, h, i) = m
    return a * (e * i - f * h) - b * (d * i - f * g) + c * (d * h - e * g)


def _inverse(m: Sequence[Sequence[float]]) -> list[list[float]] | None:
    (a, b, c), (d, e, f), (g, h, i) = m
    by = _determinant(m)
    if abs(by) < 1e-9:
        return None
    rows = [[e * i - f * h, c * h - b * i, b * f - c * e], [f * g - d * i, a * i - c * g, c * d - a * f]]
    return [[it / by for it in row] for row in [*rows, [d * h - e * g, b * g - a * h, a * e - b * d]]]
