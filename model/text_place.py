"""Places and faults of a source, and how numbers are written: the crates `plain_text` and `text_place`."""

from __future__ import annotations

from typing import NamedTuple

least_too_large = 2 ** 53


class Place(NamedTuple):
    """A line and a byte within it, both from 1."""

    line: int
    column: int


class Fault(Exception):
    """What is wrong with a source, by its word, and where."""

    def __init__(self, kind: str, at: Place) -> None:
        super().__init__(kind, at)
        self.kind = kind
        self.at = at


class Refusal(Exception):
    """What is wrong with values, by its word: the caller that has their place makes it a `Fault`."""

    def __init__(self, kind: str) -> None:
        super().__init__(kind)
        self.kind = kind


def is_short_numeral(digits: bytes) -> bool:
    """1 to 7 decimal digits and nothing else; leading zeros are allowed."""
    return 1 <= len(digits) <= 7 and all(48 <= digit <= 57 for digit in digits)


def unless_short_numeral(digits: bytes) -> int | None:
    """The number of a short numeral."""
    return int(digits) if is_short_numeral(digits) else None
