"""Values, and the table of operators: the crate `scad_value`.

A number is an `int`, a truth a `bool`, a text `bytes`, a list a `tuple`. What has no value is a `Refusal`."""

from __future__ import annotations

from typing import Any, Callable, NamedTuple

from .text_place import Refusal, least_too_large


class RangeVal(NamedTuple):
    """A range from one number by a step to another one."""

    start: int
    step: int
    to: int


class UndefVal:
    """The value `undef`."""


undef = UndefVal()
Val = Any  # an int, a bool, bytes, a tuple of values, a RangeVal or `undef`

most_elements = 4096
most_nesting = 64


def element_count(v: Val) -> int:
    """The value itself and all values in it, in lists within lists too: `[1, 2]` has 3."""
    return 1 + sum(map(element_count, v)) if type(v) is tuple else 1


def nesting_of(v: Val) -> int:
    """How many lists are in one another."""
    return 1 + max(map(nesting_of, v), default=0) if type(v) is tuple else 0


def is_too_long_or_deep(v: Val) -> bool:
    return element_count(v) > most_elements or nesting_of(v) > most_nesting


def is_small(n: int) -> bool:
    """A number of the profile: one that isn't too large."""
    return abs(n) < least_too_large


def truth_of(v: Val) -> bool:
    """What counts as true: all but false, 0, the empty text, the empty list and undef."""
    if type(v) is RangeVal:
        return True
    return v is not undef and bool(v)


def are_same(v: Val, w: Val) -> bool:
    """Equal kind and elements."""
    if type(v) is not type(w):
        return False
    if type(v) is tuple:
        return len(v) == len(w) and all(map(are_same, v, w))
    return bool(v == w)


def number_or_too_large(n: int) -> int:
    if not is_small(n):
        raise Refusal("TooLarge")
    return n


def value_or_long_list(v: Val) -> Val:
    """A list that is too long is a fault, after all others."""
    if is_too_long_or_deep(v):
        raise Refusal("LongList")
    return v


def by_elements(row: Callable[[int, int], int], v: Val, w: Val) -> Val:
    """Two numbers, or two lists of one length element by element, from the first on."""
    if type(v) is int and type(w) is int:
        return row(v, w)
    if type(v) is tuple and type(w) is tuple and len(v) == len(w):
        return tuple(by_elements(row, x, y) for x, y in zip(v, w))
    raise Refusal("TypeMismatch")


def each_element(row: Callable[[int], int], v: Val) -> Val:
    """A number, or each element of a list, from the first on."""
    if type(v) is int:
        return row(v)
    if type(v) is tuple:
        return tuple(each_element(row, x) for x in v)
    raise Refusal("TypeMismatch")


def sum_row(a: int, b: int) -> int:
    return number_or_too_large(a + b)


def difference_row(a: int, b: int) -> int:
    return number_or_too_large(a - b)


def product_row(a: int, b: int) -> int:
    return number_or_too_large(a * b)


def int_rem(a: int, b: int) -> int:
    """The remainder, with the sign of the dividend."""
    return abs(a) % abs(b) if a >= 0 else -(abs(a) % abs(b))


def unless_zero(b: int) -> int:
    if b == 0:
        raise Refusal("ZeroDivisor")
    return b


def quotient_row(a: int, b: int) -> int:
    """A whole quotient: a divisor of 0 is ZeroDivisor, a remainder NotWhole."""
    if int_rem(a, unless_zero(b)) != 0:
        raise Refusal("NotWhole")
    return number_or_too_large(a // b)


def remainder_row(a: int, b: int) -> int:
    return number_or_too_large(int_rem(a, unless_zero(b)))


def product_at(v: Val, w: Val) -> int:
    """The product of a pair of items, which must be numbers; only the sum of all must be within the profile."""
    if type(v) is int and type(w) is int:
        return v * w
    raise Refusal("TypeMismatch")


def dot_row(vs: tuple[Val, ...], ws: tuple[Val, ...]) -> Val:
    """Two lists of numbers of one length above 0."""
    if not vs or len(vs) != len(ws):
        raise Refusal("TypeMismatch")
    return number_or_too_large(sum(product_at(v, w) for v, w in zip(vs, ws)))


def product_of(v: Val, w: Val) -> Val:
    """Two numbers; a number and a list in either order, each element; two lists of numbers."""
    if type(v) is int and type(w) is int:
        return product_row(v, w)
    if type(v) is int and type(w) is tuple:
        return each_element(lambda b: product_row(b, v), w)
    if type(v) is tuple and type(w) is int:
        return each_element(lambda a: product_row(a, w), v)
    if type(v) is tuple and type(w) is tuple:
        return dot_row(v, w)
    raise Refusal("TypeMismatch")


def quotient_of(v: Val, w: Val) -> Val:
    """A number or each element of a list, by a number."""
    if type(w) is not int:
        raise Refusal("TypeMismatch")
    return each_element(lambda a: quotient_row(a, w), v)


def both_numbers(v: Val, w: Val) -> tuple[int, int]:
    if type(v) is int and type(w) is int:
        return v, w
    raise Refusal("TypeMismatch")


def remainder_of(v: Val, w: Val) -> Val:
    return remainder_row(*both_numbers(v, w))


def order_of(v: Val, w: Val) -> int:
    """The order of two numbers: below 0, 0 or above 0."""
    a, b = both_numbers(v, w)
    return (a > b) - (a < b)


binary_rows: dict[str, Callable[[Val, Val], Val]] = {
    "||": lambda v, w: truth_of(v) or truth_of(w),
    "&&": lambda v, w: truth_of(v) and truth_of(w),
    "==": are_same,
    "!=": lambda v, w: not are_same(v, w),
    "<": lambda v, w: order_of(v, w) < 0,
    "<=": lambda v, w: order_of(v, w) <= 0,
    ">": lambda v, w: order_of(v, w) > 0,
    ">=": lambda v, w: order_of(v, w) >= 0,
    "+": lambda v, w: value_or_long_list(by_elements(sum_row, v, w)),
    "-": lambda v, w: value_or_long_list(by_elements(difference_row, v, w)),
    "*": lambda v, w: value_or_long_list(product_of(v, w)),
    "/": lambda v, w: value_or_long_list(quotient_of(v, w)),
    "%": remainder_of,
}

unary_rows: dict[str, Callable[[Val], Val]] = {
    "-": lambda v: value_or_long_list(each_element(lambda n: number_or_too_large(-n), v)),
    "+": lambda v: value_or_long_list(each_element(number_or_too_large, v)),
    "!": lambda v: not truth_of(v),
}


def binary_of(op: str, v: Val, w: Val) -> Val:
    """The table."""
    return binary_rows[op](v, w)


def unary_of(op: str, v: Val) -> Val:
    """The operators before an operand."""
    return unary_rows[op](v)


def index_of(v: Val, w: Val) -> Val:
    """An item of a list, a byte of a text, or undef where there is none."""
    if type(w) is not int or type(v) not in (tuple, bytes):
        raise Refusal("TypeMismatch")
    if not 0 <= w < len(v):
        return undef
    return v[w] if type(v) is tuple else v[w:w + 1]


def range_of(v: Val, w: Val) -> Val:
    """The range of two values, by a step of 1."""
    start, to = both_numbers(v, w)
    if to < start:
        raise Refusal("RangeOrder")
    return RangeVal(start, 1, to)


def stepped_range_of(u: Val, v: Val, w: Val) -> Val:
    """The range of three values, of which the second is the step, which must not be 0."""
    if type(u) is not int or type(v) is not int or type(w) is not int:
        raise Refusal("TypeMismatch")
    if v == 0:
        raise Refusal("RangeOrder")
    return RangeVal(u, v, w)


member_of = {b"x": 0, b"y": 1, b"z": 2}


def wants_right(op: str, v: Val) -> bool:
    """Whether an operator with this left side wants its right side."""
    return not truth_of(v) if op == "||" else truth_of(v) if op == "&&" else True
