"""The tool scad2off: the 4OFF texts of the solids that source files describe, or their faults with places and cures."""

from __future__ import annotations

from typing import Sequence

from ..calls.asking import begin_server, told
from ..calls.words import write_out
from ..ending import BadCall, ended
from .scad2off_words import options_of, parser as parser

TOOL = "scad2off"


def main(words: Sequence[str]) -> int:
    """Does what the words of a call ask for, and gives its status. The environment's SCADSERVE names another server."""
    return ended(lambda: told(TOOL, lambda: _do(words)))


def _do(words: Sequence[str]) -> int:
    asked = options_of(words)
    if asked.explain is not None:
        return _explained(asked.explain)
    if not asked.script:
        begin_server(asked)
    # (loaded while the server starts)
    from .scad2off_texts import written

    return written(TOOL, asked)


def _explained(word: str) -> int:
    from ..source.differences import explained
    from ..source.faults import explanation

    try:
        said = explanation(word) or explained(word)
    except OSError as error:
        raise BadCall(f"cannot open {error.filename}: {error.strerror}") from error
    if said is None:
        raise BadCall(f"neither docs/FAULTS.md nor docs/differences.txt explains {word}")
    write_out("-", said.encode())
    return 0
