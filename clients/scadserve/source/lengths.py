"""Lengths as they are written: above 0, as a whole number, a decimal number or a fraction."""

from __future__ import annotations

import re
from argparse import ArgumentTypeError
from fractions import Fraction

_DECIMAL = r"(?:[0-9]{1,9}(?:\.[0-9]{0,9})?|\.[0-9]{1,9})(?:[eE][-+]?[0-9]{1,2})?"
_UNIT = re.compile(rf"{_DECIMAL}|[0-9]{{1,9}}/0*[1-9][0-9]{{0,8}}")
_LENGTH = re.compile(r"[0-9]{1,9}(?:\.[0-9]{1,9}|/0*[1-9][0-9]{0,8})?")
_MOST = 10**9
_IS_NONE = "is not a number above 0 and below 10^9 like 2, 25.4 or 1/10"

#: The unit of a source that says none.
MILLIMETRE = Fraction(1)


def unit_of_text(text: str) -> Fraction | None:
    """How many millimetres a unit is that is written so; None where it is none."""
    unit = Fraction(text) if _UNIT.fullmatch(text) else Fraction(0)
    return unit if 0 < unit < _MOST else None


def unit_argument(text: str) -> Fraction:
    """The unit that an option says. Raises ArgumentTypeError."""
    unit = unit_of_text(text)
    if unit is None:
        raise ArgumentTypeError(f"{text!r} {_IS_NONE}")
    return unit


def length_argument(text: str) -> Fraction:
    """The length that an option says. Raises ArgumentTypeError."""
    if _LENGTH.fullmatch(text) is None or Fraction(text) == 0:
        raise ArgumentTypeError(f"{text!r} is not a number above 0 like 2, 0.05 or 1/20")
    return Fraction(text)
