"""Built-in functions: the crate `scad_builtin`."""

from __future__ import annotations

from typing import Callable, Sequence

from .scad_value import Val, both_numbers, number_or_too_large, undef, value_or_long_list
from .text_place import Refusal

is_left_out_function = frozenset((
    b"str", b"chr", b"ord", b"sin", b"cos", b"tan", b"asin", b"acos", b"atan", b"atan2", b"sqrt", b"exp", b"ln", b"log",
    b"rands", b"norm", b"cross", b"search", b"lookup", b"is_string", b"is_function", b"version", b"version_num",
    b"parent_module"))


def takes_count(name: bytes, n: int) -> bool:
    """Whether a function takes this many arguments."""
    if name in (b"min", b"max"):
        return n > 0
    return True if name == b"concat" else n == 2 if name == b"pow" else n == 1


def of_number(v: Val) -> int:
    if type(v) is not int:
        raise Refusal("TypeMismatch")
    return v


def sign_of(n: int) -> int:
    """-1, 0 or 1."""
    return (n > 0) - (n < 0)


def best_among(best: Callable[[Sequence[int]], int], vs: Sequence[Val]) -> Val:
    """Of one or more numbers, or of one list of numbers that isn't empty, the one that goes before all others."""
    numbers = vs[0] if len(vs) == 1 and type(vs[0]) is tuple else vs
    if not numbers:
        raise Refusal("TypeMismatch")
    return best([of_number(v) for v in numbers])


def length_of(v: Val) -> Val:
    """How many items a list has, or bytes a text."""
    if type(v) not in (tuple, bytes):
        raise Refusal("TypeMismatch")
    return number_or_too_large(len(v))


def joined_items(vs: Sequence[Val]) -> Val:
    """The items of all lists, one behind the other, and another value as one item."""
    return tuple(item for v in vs for item in (v if type(v) is tuple else (v,)))


def power_row(base: int, exponent: int) -> int:
    """The power of two whole numbers, where it is whole: an exponent below 0 is for 1 and -1 alone."""
    if exponent < 0 and base == 0:
        raise Refusal("ZeroDivisor")
    if abs(base) == 1:
        return base if exponent % 2 else 1
    if exponent < 0:
        raise Refusal("NotWhole")
    if base == 0:
        return 1 if exponent == 0 else 0
    return number_or_too_large(base ** min(exponent, 53))


builtin_of: dict[bytes, Callable[[Sequence[Val]], Val]] = {
    b"abs": lambda vs: number_or_too_large(abs(of_number(vs[0]))),
    b"sign": lambda vs: sign_of(of_number(vs[0])),
    b"floor": lambda vs: of_number(vs[0]),
    b"ceil": lambda vs: of_number(vs[0]),
    b"round": lambda vs: of_number(vs[0]),
    b"min": lambda vs: best_among(min, vs),
    b"max": lambda vs: best_among(max, vs),
    b"len": lambda vs: length_of(vs[0]),
    b"concat": lambda vs: value_or_long_list(joined_items(vs)),
    b"pow": lambda vs: power_row(*both_numbers(vs[0], vs[1])),
    b"is_undef": lambda vs: vs[0] is undef,
    b"is_num": lambda vs: type(vs[0]) is int,
    b"is_bool": lambda vs: type(vs[0]) is bool,
    b"is_list": lambda vs: type(vs[0]) is tuple,
}


def builtin_value(name: bytes, values: Sequence[Val]) -> Val:
    """The table, for as many values as the function takes."""
    return builtin_of[name](values)
