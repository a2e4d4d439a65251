"""The box and the volume of a solid from its boundary, exactly; numbers as digits; directions as floats."""

from __future__ import annotations

from collections import Counter
from fractions import Fraction
from math import lcm, sqrt
from typing import Mapping, NamedTuple, Sequence

from .fouroff import Boundary, determinant

# A common denominator of more bits belongs to a volume whose exact digits nobody reads.
_MOST_BITS = 4096
# The first and the last number of bits behind the point with which an approximate volume is tried.
_FEW_BITS, _MANY_BITS = 192, 1 << 16
# A fraction with more digits is printed as a decimal number, with the word 'about' before it.
_MOST_DIGITS = 100
_MOST_PLACES = 12


class Volume(NamedTuple):
    """A volume in cubic units; where it is not exact, it is off by less than a part in 10 to the power 13."""

    value: Fraction
    exact: bool


def box(boundary: Boundary) -> list[tuple[Fraction, Fraction]]:
    """The least and the greatest x, y and z of the corners, in units; of at least one corner."""
    ranges = []
    for axis in range(3):
        places = {Fraction(*it) for it in {(corner[axis], corner[3]) for corner in boundary.corners}}
        ranges.append((min(places), max(places)))
    return ranges


def volume(boundary: Boundary) -> Volume:
    """The volume that the boundary encloses, above 0 where its faces look outward.

    It is the sum of the volumes of tetrahedra from the origin over the triangles of each face (the divergence theorem).
    """
    parts: Counter[int] = Counter()
    for face in boundary.faces:
        p = boundary.corners[face[0]]
        for second, third in zip(face[1:], face[2:]):
            q, r = boundary.corners[second], boundary.corners[third]
            parts[6 * p[3] * q[3] * r[3]] += determinant(p, q, r)
    common = 1
    for denominator in parts:
        common = lcm(common, denominator)
        if common.bit_length() > _MOST_BITS:
            return Volume(_approximate(parts), False)
    return Volume(Fraction(sum(part * (common // below) for below, part in parts.items()), common), True)


def _approximate(parts: Mapping[int, int]) -> Fraction:
    """The sum of fractions, given as numerators by denominators, to a part in 10 to the power 13."""
    bits = _FEW_BITS
    while True:
        # Each fraction is rounded down by less than 1.
        total = sum((part << bits) // below for below, part in parts.items())
        if abs(total) > 10**14 * len(parts) or bits >= _MANY_BITS:
            return Fraction(total, 1 << bits)
        bits *= 2


def direction(plane: Sequence[int]) -> tuple[float, float, float]:
    """The direction of a plane's, or of any, first three numbers, with the length 1."""
    greatest = max(abs(number) for number in plane[:3])
    a, b, c = (number / greatest for number in plane[:3])
    length = sqrt(a * a + b * b + c * c)
    return a / length, b / length, c / length


def rounded(number: Fraction) -> str:
    """The number as a decimal number of six figures, or of all that stand before the point where these are more."""
    return f"{round(number)}" if abs(number) >= 10**6 - Fraction(1, 2) else f"{float(number):.6g}"


def shown(number: Fraction, exact: bool = True) -> str:
    """The number as digits: a decimal number where that is exact and short, else a fraction, else 'about' a decimal."""
    if exact:
        for places in range(_MOST_PLACES + 1):
            scaled = number * 10**places
            if scaled.denominator == 1:
                digits = f"{abs(scaled.numerator):0{places + 1}}"
                point = f".{digits[-places:]}" if places else ""
                return ("-" if number < 0 else "") + digits[: len(digits) - places] + point
        text = f"{number.numerator}/{number.denominator}"
        if len(text) <= _MOST_DIGITS:
            return text
    return f"about {float(number):.12g}"
