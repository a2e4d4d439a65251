"""Built-in modules: what their arguments mean, or the first fault that they have together: the crate `scad_modules`."""

from __future__ import annotations

from dataclasses import dataclass
from typing import Callable, NamedTuple, Sequence, TypeVar, Union

from .int_transform import Affine, affine_of, determinant_of, power_of, quarter_rotation, reflection, scale_map, translation
from .primitives import length_in_grid_steps
from .scad_value import RangeVal, Val, is_small, truth_of
from .text_place import Refusal

A = TypeVar("A")
Bound = Sequence[Union[Val, None]]


class CubeCall(NamedTuple):
    center: bool
    size: list[int]


class PolyhedronCall(NamedTuple):
    points: list[list[int]]
    faces: list[list[int]]


class CylinderCall(NamedTuple):
    center: bool
    height: int
    low: int
    high: int


class SquareCall(NamedTuple):
    center: bool
    size: list[int]


class PolygonCall(NamedTuple):
    points: list[list[int]]


class CircleCall(NamedTuple):
    radius: int


class ASolid(NamedTuple):
    solid: CubeCall | PolyhedronCall | CylinderCall


class AFlat(NamedTuple):
    flat: SquareCall | PolygonCall | CircleCall


class AMove(NamedTuple):
    """Its children moved by steps, the first done first."""

    steps: list[Affine]


class AJoin(NamedTuple):
    op: str


class AHull(NamedTuple):
    pass


class AnExtrusion(NamedTuple):
    center: bool
    height: int


class NoGeometry(NamedTuple):
    pass


class SomeChildren(NamedTuple):
    """Children of the enclosing call: all, those of some numbers in order, or those of a range."""

    chosen: list[int] | RangeVal | None


EffectCall = Union[ASolid, AFlat, AMove, AJoin, AHull, AnExtrusion, NoGeometry, SomeChildren]

is_left_out_module = frozenset((
    b"sphere", b"minkowski", b"offset", b"resize", b"projection", b"text", b"surface", b"import", b"rotate_extrude"))

# The names of a module's parameters in order; those of `echo` may be any, and it has none of its own.
parameters_of: dict[bytes, list[bytes]] = {name: parameters.split() for name, parameters in {
    b"cube": b"size center",
    b"polyhedron": b"points faces convexity",
    b"cylinder": b"h r1 r2 center r d d1 d2",
    b"square": b"size center",
    b"polygon": b"points paths convexity",
    b"circle": b"r d",
    b"linear_extrude": b"height center convexity twist scale slices",
    b"translate": b"v",
    b"rotate": b"a v",
    b"mirror": b"v",
    b"scale": b"v",
    b"multmatrix": b"m",
    b"union": b"",
    b"difference": b"",
    b"intersection": b"",
    b"hull": b"",
    b"color": b"c alpha",
    b"render": b"convexity",
    b"echo": b"",
    b"assert": b"condition message",
    b"children": b"index",
}.items()}


def number_in_value(v: Val) -> int | None:
    return v if type(v) is int else None


def truth_in(v: Val) -> bool | None:
    return v if type(v) is bool else None


def list_in(read: Callable[[Val], A | None], v: Val) -> list[A] | None:
    """A list by its items, where all can be read."""
    if type(v) is not tuple:
        return None
    found = [read(item) for item in v]
    return None if None in found else found


def numbers_in(v: Val) -> list[int] | None:
    return list_in(number_in_value, v)


def vector_in(n: int, v: Val) -> list[int] | None:
    """A list of this many numbers."""
    numbers = numbers_in(v)
    return numbers if numbers is not None and len(numbers) == n else None


def sides_in(n: int) -> Callable[[Val], list[int] | None]:
    """One number for each of this many sides, or a list of this many."""
    return lambda v: [v] * n if type(v) is int else vector_in(n, v)


def coordinates_in(third: int, v: Val) -> list[int] | None:
    """Three numbers, or two with one that stands for the missing third."""
    numbers = numbers_in(v)
    if numbers is None or len(numbers) not in (2, 3):
        return None
    return numbers if len(numbers) == 3 else [*numbers, third]


def angles_in(v: Val) -> list[int] | None:
    """One angle about z, or three about x, y and z."""
    return [0, 0, v] if type(v) is int else vector_in(3, v)


def factors_in(v: Val) -> list[int] | None:
    """One factor for all axes, or 2 or 3 of them."""
    return [v, v, v] if type(v) is int else coordinates_in(1, v)


def points_in(n: int, v: Val) -> list[list[int]] | None:
    """Points of this many numbers each."""
    return list_in(lambda item: vector_in(n, item), v)


no_corner = 4294967295


def corner_in(v: Val) -> int | None:
    """A value as the number of a corner; that which no corner can have stands for all that name none."""
    n = number_in_value(v)
    return n if n is None or 0 <= n < no_corner else no_corner


def faces_in(v: Val) -> list[list[int]] | None:
    """The faces of a polyhedron."""
    return list_in(lambda face: list_in(corner_in, face), v)


def required_argument(given: Val | None) -> Val:
    if given is None:
        raise Refusal("BadArgument")
    return given


def refused_where(so: bool, kind: str) -> None:
    if so:
        raise Refusal(kind)


def unless_left_out(given: Val | None) -> None:
    """An argument that the profile leaves out."""
    refused_where(given is not None, "NotInProfile")


def of_type(found: A | None) -> A:
    if found is None:
        raise Refusal("TypeMismatch")
    return found


def or_default(default: A, read: Callable[[Val], A | None], given: Val | None) -> A:
    """An argument of the wanted type; a missing one has its default."""
    return default if given is None else of_type(read(given))


@dataclass(eq=False)
class Call:
    """A call of a built-in module: whether lengths may lie on half units, whether it is inside an extrusion, `$fn`, and what is
    given to its parameters."""

    __slots__ = ("half", "inside", "fragments", "bound")
    half: bool
    inside: bool
    fragments: Val | None
    bound: Bound


def cube_effect(call: Call) -> EffectCall:
    size = or_default([1, 1, 1], sides_in(3), call.bound[0])
    center = or_default(False, truth_in, call.bound[1])
    refused_where(call.inside, "WrongDimension")
    return ASolid(CubeCall(center, size))


def polyhedron_effect(call: Call) -> EffectCall:
    v, w = required_argument(call.bound[0]), required_argument(call.bound[1])
    points, faces = of_type(points_in(3, v)), of_type(faces_in(w))
    refused_where(call.inside, "WrongDimension")
    return ASolid(PolyhedronCall(points, faces))


def square_effect(call: Call) -> EffectCall:
    size = or_default([1, 1], sides_in(2), call.bound[0])
    center = or_default(False, truth_in, call.bound[1])
    refused_where(not call.inside, "WrongDimension")
    return AFlat(SquareCall(center, size))


def polygon_effect(call: Call) -> EffectCall:
    v = required_argument(call.bound[0])
    unless_left_out(call.bound[1])
    points = of_type(points_in(2, v))
    refused_where(not call.inside, "WrongDimension")
    return AFlat(PolygonCall(points))


def with_four(fragments: Val | None) -> None:
    """Goes on where there are four fragments."""
    n = of_type(None if fragments is None else number_in_value(fragments))
    refused_where(n != 4, "NotInProfile")


def circle_effect(call: Call) -> EffectCall:
    unless_left_out(call.bound[1])
    radius = or_default(1, number_in_value, call.bound[0])
    refused_where(not call.inside, "WrongDimension")
    with_four(call.fragments)
    return AFlat(CircleCall(radius))


def cylinder_effect(call: Call) -> EffectCall:
    """A missing r1 or r2 is r, or 1 where r is missing too."""
    h, r1, r2, centered, r, d, d1, d2 = call.bound
    for left_out in (d, d1, d2):
        unless_left_out(left_out)
    refused_where(r is not None and (r1 is not None or r2 is not None), "BadArgument")
    height = or_default(1, number_in_value, h)
    radius = or_default(1, number_in_value, r)
    low = or_default(radius, number_in_value, r1)
    high = or_default(radius, number_in_value, r2)
    center = or_default(False, truth_in, centered)
    refused_where(call.inside, "WrongDimension")
    with_four(call.fragments)
    return ASolid(CylinderCall(center, height, low, high))


def extrude_effect(call: Call) -> EffectCall:
    v = required_argument(call.bound[0])
    for left_out in call.bound[3:6]:
        unless_left_out(left_out)
    height = of_type(number_in_value(v))
    center = or_default(False, truth_in, call.bound[1])
    refused_where(call.inside, "WrongDimension")
    return AnExtrusion(center, height)


def is_past_safe_size(half: bool, n: int) -> bool:
    """A length that is past 2^53 - 1 grid steps in size."""
    return not is_small(length_in_grid_steps(half, n))


def translate_effect(call: Call) -> EffectCall:
    by = of_type(coordinates_in(0, required_argument(call.bound[0])))
    refused_where(call.inside and by[2] != 0, "WrongDimension")
    refused_where(any(is_past_safe_size(call.half, n) for n in by), "TooLarge")
    return AMove([translation([length_in_grid_steps(call.half, n) for n in by])])


def quarters_of(angle: int) -> int:
    """How many quarter turns an angle is, from 0 to 3."""
    return (angle // 90) % 4


def rotate_effect(call: Call) -> EffectCall:
    v = required_argument(call.bound[0])
    unless_left_out(call.bound[1])
    angles = of_type(angles_in(v))
    refused_where(any(angle % 90 != 0 for angle in angles), "NotQuarter")
    refused_where(call.inside and angles[:2] != [0, 0], "WrongDimension")
    return AMove([power_of(about, quarters_of(angle)) for about, angle in zip(quarter_rotation, angles)])


def mirror_effect(call: Call) -> EffectCall:
    by = of_type(coordinates_in(0, required_argument(call.bound[0])))
    axes = [axis for axis in range(3) if by[axis] != 0]
    refused_where(len(axes) != 1, "NotInProfile")
    refused_where(call.inside and axes == [2], "WrongDimension")
    return AMove([reflection(axes[0])])


def scale_effect(call: Call) -> EffectCall:
    """Inside an extrusion a scaling has no effect along z."""
    by = of_type(factors_in(required_argument(call.bound[0])))
    refused_where(0 in by, "Singular")
    return AMove([scale_map([*by[:2], 1] if call.inside else by)])


def matrix_rows(v: Val) -> list[list[int]] | None:
    """Three rows of four numbers, or four of which the last is that of the identity."""
    rows = points_in(4, v)
    if rows is None or len(rows) not in (3, 4) or rows[3:] not in ([], [[0, 0, 0, 1]]):
        return None
    return rows[:3]


def keeps_plane(rows: Sequence[Sequence[int]]) -> bool:
    """A matrix that leaves z as it is: its third row and its third column are those of the identity."""
    x, y, z = rows
    return x[2] == 0 and y[2] == 0 and list(z) == [0, 0, 1, 0]


def multmatrix_effect(call: Call) -> EffectCall:
    rows = of_type(matrix_rows(required_argument(call.bound[0])))
    refused_where(any(abs(n) > 65535 for row in rows for n in row[:3]), "TooLarge")
    refused_where(determinant_of(affine_of(rows)) == 0, "Singular")
    refused_where(call.inside and not keeps_plane(rows), "WrongDimension")
    refused_where(any(is_past_safe_size(call.half, row[3]) for row in rows), "TooLarge")
    return AMove([affine_of([[*row[:3], length_in_grid_steps(call.half, row[3])] for row in rows])])


def hull_effect(call: Call) -> EffectCall:
    refused_where(call.inside, "WrongDimension")
    return AHull()


def assert_effect(call: Call) -> EffectCall:
    refused_where(not truth_of(required_argument(call.bound[0])), "AssertFailed")
    return NoGeometry()


def chosen_in(v: Val) -> list[int] | RangeVal | None:
    """Children by one number, by a range, or by a list of numbers."""
    return [v] if type(v) is int else v if type(v) is RangeVal else numbers_in(v)


def children_effect(call: Call) -> EffectCall:
    """All children of the enclosing call, where the index is missing."""
    return SomeChildren(or_default(None, chosen_in, call.bound[0]))


# The first fault counts: a missing argument, one left out, one of another type, the module's own, a wrong dimension, a move
# that is too large.
effect_of: dict[bytes, Callable[[Call], EffectCall]] = {
    b"cube": cube_effect,
    b"polyhedron": polyhedron_effect,
    b"cylinder": cylinder_effect,
    b"square": square_effect,
    b"polygon": polygon_effect,
    b"circle": circle_effect,
    b"linear_extrude": extrude_effect,
    b"translate": translate_effect,
    b"rotate": rotate_effect,
    b"mirror": mirror_effect,
    b"scale": scale_effect,
    b"multmatrix": multmatrix_effect,
    b"union": lambda call: AJoin("union"),
    b"difference": lambda call: AJoin("difference"),
    b"intersection": lambda call: AJoin("intersection"),
    b"hull": hull_effect,
    b"color": lambda call: AJoin("union"),
    b"render": lambda call: AJoin("union"),
    b"echo": lambda call: NoGeometry(),
    b"assert": assert_effect,
    b"children": children_effect,
}
