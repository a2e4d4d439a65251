"""The words of the command line: the crate `run_words`."""

from __future__ import annotations

from typing import NamedTuple, Sequence

from .text_place import unless_short_numeral


class Run(NamedTuple):
    """Serve a script."""

    workers: int
    memo: int
    share: int
    half: bool
    tally: bool


class Demo(NamedTuple):
    """Run the demonstration with this number of parts."""

    parts: int


keys = ("--workers", "--memo", "--share")
flags = ("--half", "--tally")
defaults = {"--workers": 4, "--memo": 500000, "--share": 0, "--half": 0, "--tally": 0}


def given_options(words: Sequence[str]) -> dict[str, int] | None:
    """The options that are given, each at most once: `--NAME`, `--NAME=N` or `--NAME N`."""
    given: dict[str, int] = {}
    rest = list(words)
    while rest:
        word = rest.pop(0)
        key, sign, digits = word.partition("=")
        if key in keys and not sign:
            digits = rest.pop(0) if rest else ""
        number = unless_short_numeral(digits.encode()) if key in keys else 1 if word in flags else None
        if number is None or key in given:
            return None
        given[key] = number
    return given


def are_settings_in_range(settings: Run | Demo) -> bool:
    if isinstance(settings, Demo):
        return 1 <= settings.parts <= 200
    return (1 <= settings.workers <= 64 and settings.memo <= 2000000 and settings.share <= 125000
            and 16 * settings.share <= settings.memo)


def chooses(words: Sequence[str]) -> Run | Demo | None:
    """The settings that the words choose, or none where they are outside the grammar."""
    settings: Run | Demo | None = None
    if words and words[0] == "run":
        given = given_options(words[1:])
        if given is not None:
            workers, memo, share, half, tally = {**defaults, **given}.values()
            settings = Run(workers, memo, share, bool(half), bool(tally))
    elif len(words) == 2 and words[0] == "demo":
        parts = unless_short_numeral(words[1].encode())
        settings = None if parts is None else Demo(parts)
    return settings if settings is not None and are_settings_in_range(settings) else None


usage_line = b"usage: scadserve run [--workers N] [--memo W] [--share S] [--half] [--tally] | demo N\n"
