"""How far the tiles of a part are done, on a terminal."""

from __future__ import annotations

import sys
from time import monotonic

from ..files import say


class Progress:
    """A line on standard error, where that is a terminal, which is written over and is gone at the end."""

    def __init__(self, name: str, is_wanted: bool = True) -> None:
        self._name, self._began = name, monotonic()
        self._is_shown = is_wanted and sys.stderr is not None and sys.stderr.isatty()

    def __call__(self, tiles: int, share: float) -> None:
        """This many tiles are done, which are such a share of all."""
        if self._is_shown:
            left = (monotonic() - self._began) * (1 - share) / share if share else 0.0
            self._write(f"{self._name}: {tiles} of about {round(tiles / share) if share else tiles} tiles, {left:.0f} s left")

    def end(self) -> None:
        """Takes the line away."""
        if self._is_shown:
            self._write("")

    def _write(self, text: str) -> None:
        say(f"\r{text}\033[K")
