"""The order in which the visible side of a solid is painted, by a binary space partition (Fuchs, Kedem and Naylor).

Seen from far away in one direction, a face is painted before those ahead of its plane and after those behind it. Where a
plane goes through another face, that one is cut in two. Points, planes and the direction of the view are whole numbers,
so the order is exact.
"""

from __future__ import annotations

from dataclasses import dataclass
from math import gcd
from typing import Iterator, NamedTuple, Sequence

from ..solid.closing import Ring, ways
from ..solid.fouroff import Boundary, Corner, Plane, flatten, turn

#: A corner, and whether the way from it to the next is not an edge of the solid, but has a neighbour on the same plane.
Step = tuple[Corner, bool]
#: The way round a convex polygon.
Piece = list[Step]
# The more of them are tried as the next plane, the fewer faces are cut.
_TRIED = 12
# This many patches, and four times as many pieces, tell well enough how good a plane is.
_LOOKED_AT = 256
# Above this many patches, planes that are seen as lines are tried too, through these parts of them.
_MANY = 64
_PARTS = (0.4, 0.5, 0.6)


@dataclass(frozen=True)
class Patch:
    """Faces on one plane, or what cuts left of them: convex pieces, which have no point of the plane twice."""

    plane: Plane
    pieces: list[Piece]


class Sides(NamedTuple):
    """How many patches and pieces a plane cuts, and how many patches are behind it and ahead of it."""

    cut: int
    cut_pieces: int
    behind: int
    ahead: int

    @property
    def cost(self) -> int:
        """How bad the plane is to divide them."""
        return 8 * self.cut + self.cut_pieces // 4 + abs(self.ahead - self.behind)

    @property
    def is_outermost(self) -> bool:
        """Whether nothing is ahead of the plane."""
        return self.cut == self.ahead == 0


class Halves(NamedTuple):
    """Patches behind a plane, on it and ahead of it."""

    behind: list[Patch]
    on_it: list[Patch]
    ahead: list[Patch]


def patches(boundary: Boundary, rings: Sequence[Ring]) -> list[Patch]:
    """The faces, which go round these closed rings, those of one plane together."""
    by_plane: dict[Plane, list[Ring]] = {}
    for plane, ring in zip(boundary.planes, rings):
        by_plane.setdefault(plane, []).append(ring)
    found = []
    for plane, near in by_plane.items():
        used = ways(near)
        pieces = [[(boundary.corners[p], (q, p) in used) for p, q in zip(ring, ring[1:] + ring[:1])] for ring in near]
        found.append(Patch(plane, pieces))
    return found


def visible(all_patches: Sequence[Patch], view: tuple[int, int, int]) -> list[Patch]:
    """The patches that look to where `view` points, to the viewer."""
    return [patch for patch in all_patches if sum(a * v for a, v in zip(patch.plane, view)) > 0]


def painted(patches: list[Patch], view: tuple[int, int, int]) -> Iterator[Patch]:
    """All patches, which look to where `view` points, to the viewer, from the back to the front."""
    todo: list[list[Patch] | Patch] = [patches]
    while todo:
        next_one = todo.pop()
        if isinstance(next_one, Patch):
            yield next_one
        elif next_one:
            behind, middle, ahead = _halves(next_one, view)
            todo += [ahead, *middle, behind]


def _halves(patches: list[Patch], view: tuple[int, int, int]) -> Halves:
    """What of the patches is behind a plane, on it and ahead of it, by a plane that cuts few of them and has as many on each
    side.

    That is one of theirs. Of many it may also be one that the viewer sees as a line: what is on one side of it hides nothing of
    what is on the other, so bodies of many planes are divided too where each of their planes has all others on one side.
    """
    looked_at = _sample(patches)
    tried = {it.plane: _sides(it.plane, looked_at) for it in patches[:: max(1, len(patches) // _TRIED)]}
    plane = min(tried, key=lambda it: tried[it].cost)
    if len(patches) > _MANY:
        lines = {line: _sides(line, looked_at) for line in _lines(looked_at, view)}
        line = min(lines, key=lambda it: lines[it].cost)
        if lines[line].cost < tried[plane].cost:
            halves = _split(patches, line)
            if max(len(halves.behind), len(halves.ahead)) < len(patches):
                return halves
    if sum(map(len, looked_at)) == sum(len(it.pieces) for it in patches) and tried[plane].is_outermost:
        # None of the outermost hides another one.
        outer = {it for it, sides in tried.items() if sides.is_outermost}
        return Halves([it for it in patches if it.plane not in outer], [it for it in patches if it.plane in outer], [])
    return _split(patches, plane)


def _sample(patches: list[Patch]) -> list[list[Piece]]:
    """Some pieces of some patches, all where there are few."""
    some = patches[:: max(1, len(patches) // _LOOKED_AT)]
    most = 4 * _LOOKED_AT // len(some)
    return [it.pieces[:: max(1, len(it.pieces) // most)] for it in some]


def _sides(plane: Plane, patches: list[list[Piece]]) -> Sides:
    """How many of the patches, given by their pieces, are on which side of a plane, and what it cuts."""
    a, b, c, d = plane
    cut = cut_pieces = behind = ahead = 0
    for pieces in patches:
        is_behind = is_ahead = False
        for piece in pieces:
            values = [a * x + b * y + c * z - d * w for (x, y, z, w), _ in piece]
            low, high = min(values), max(values)
            is_behind |= low < 0
            is_ahead |= high > 0
            cut_pieces += low < 0 < high
        cut += is_behind and is_ahead
        behind += is_behind and not is_ahead
        ahead += is_ahead and not is_behind
    return Sides(cut, cut_pieces, behind, ahead)


def _split(patches: list[Patch], plane: Plane) -> Halves:
    """What of the patches is behind a plane, on it and ahead of it."""
    parts = [divide(patch, plane) for patch in patches if patch.plane != plane]
    on_it = [patch for patch in patches if patch.plane == plane]
    return Halves([behind for behind, _ in parts if behind], on_it, [ahead for _, ahead in parts if ahead])


def _lines(patches: list[list[Piece]], view: tuple[int, int, int]) -> Iterator[Plane]:
    """Planes that the viewer sees as lines, in two directions, through corners in the middle of the patches."""
    x, y, z = view
    across = (-y, x, 0) if x or y else (1, 0, 0)
    for a, b, c in (across, (y * across[2] - z * across[1], z * across[0] - x * across[2], x * across[1] - y * across[0])):
        # (where a float is off, another corner is the middle one)
        corners = sorted((pieces[0][0][0] for pieces in patches), key=lambda p: (a * p[0] + b * p[1] + c * p[2]) / p[3])
        for part in _PARTS:
            p = corners[int(part * len(corners))]
            yield (a * p[3], b * p[3], c * p[3], a * p[0] + b * p[1] + c * p[2])


def side(plane: Plane, point: Corner) -> int:
    """1 where the point is ahead of the plane, -1 where it is behind, and 0 where it is on it."""
    value = _value(plane, point)
    return (value > 0) - (value < 0)


def _value(plane: Plane, point: Corner) -> int:
    return plane[0] * point[0] + plane[1] * point[1] + plane[2] * point[2] - plane[3] * point[3]


def divide(patch: Patch, plane: Plane) -> tuple[Patch | None, Patch | None]:
    """What of the patch is behind and what is ahead of another plane."""
    behind, ahead = [], []
    for piece in patch.pieces:
        sides = [side(plane, corner) for corner, _ in piece]
        if max(sides) <= 0:
            behind.append(piece)
        elif min(sides) >= 0:
            ahead.append(piece)
        else:
            behind.append(_part(piece, plane, -1))
            ahead.append(_part(piece, plane, 1))
    return (Patch(patch.plane, behind) if behind else None), (Patch(patch.plane, ahead) if ahead else None)


def _part(piece: Piece, plane: Plane, kept: int) -> Piece:
    """The part of a piece that goes across the plane on one side of it, 1 for ahead and -1 for behind."""
    part = []
    for (corner, is_cut), (following, _) in zip(piece, piece[1:] + piece[:1]):
        here, there = kept * side(plane, corner), kept * side(plane, following)
        if here >= 0:
            part.append((corner, is_cut if here > 0 or there >= 0 else True))
        if here * there < 0:
            part.append((crossing(plane, corner, following), is_cut if here < 0 else True))
    return part


def crossing(plane: Plane, p: Corner, q: Corner) -> Corner:
    """The point on the plane between two points, of which one is ahead of it and one behind."""
    to_p, to_q = abs(_value(plane, p)), abs(_value(plane, q))
    numbers = [to_q * a + to_p * b for a, b in zip(p, q)]
    divisor = gcd(*numbers)
    return (numbers[0] // divisor, numbers[1] // divisor, numbers[2] // divisor, numbers[3] // divisor)


def outline(patch: Patch) -> list[list[Step]]:
    """The loops round the patch, without ways between its pieces and without corners inside straight lines."""
    border: dict[tuple[Corner, Corner], bool] = {}
    for piece in patch.pieces:
        for (corner, is_cut), (following, _) in zip(piece, piece[1:] + piece[:1]):
            if (following, corner) in border:
                del border[following, corner]
            else:
                border[corner, following] = is_cut
    onward: dict[Corner, list[Step]] = {}
    for (corner, following), is_cut in border.items():
        onward.setdefault(corner, []).append((following, is_cut))
    loops = []
    while onward:
        loop: list[Step] = []
        corner = next(iter(onward))
        while corner in onward:
            following, is_cut = onward[corner].pop()
            if not onward[corner]:
                del onward[corner]
            loop.append((corner, is_cut))
            corner = following
        loops.append(_straightened(loop, patch.plane))
    return loops


def _straightened(loop: list[Step], plane: Plane) -> list[Step]:
    """The loop without the corners at which it goes straight on, unless a cut begins or ends there."""
    flat = flatten([corner for corner, _ in loop], plane)
    return [
        loop[i]
        for i in range(len(loop))
        if turn(flat[i - 1], flat[i], flat[(i + 1) % len(loop)]) != 0 or loop[i - 1][1] != loop[i][1]
    ]
