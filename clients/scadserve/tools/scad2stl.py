"""`scad2stl`: sources as closed surfaces of triangles, for slicers, or their faults with places and cures.

What was found of each solid is told in one line on standard error (`exporting`). How long a unit is, an option says or a
comment in the source (`units`).
"""

from __future__ import annotations

from argparse import Namespace
from typing import Sequence

from ..calls.asking import begin_server, told
from ..calls.mesh_words import format_of, mesh_words
from ..calls.words import Words, front_end_words, source_words, test_front_end, test_outs
from ..ending import BadCall, ended
from .scad2off_words import STATUSES

TOOL = "scad2stl"
_DESCRIPTION = "Writes the solids that OpenSCAD sources describe as closed surfaces of triangles, or prints their first faults."
_UNITS = "--unit gives the unit, or else a comment in the source, // unit: 1/10; the default is a millimetre. "
# What a file of another ending is, which no mesh has.
_OTHERS = {
    ".4off": "scad2off makes a 4OFF text of a source",
    ".scad": "that is the ending of a source",
}


def main(words: Sequence[str]) -> int:
    """Does what the words of a call ask for, and gives its status. The environment's SCADSERVE names another server."""
    return ended(lambda: told(TOOL, lambda: _do(words)))


def _do(words: Sequence[str]) -> int:
    asked = _read_words(words)
    begin_server(asked)
    # (loaded while the server starts)
    from .scad2stl_meshes import written

    return written(TOOL, asked)


def parser() -> Words:
    """The words that there are."""
    words = Words(TOOL, _DESCRIPTION, _UNITS + STATUSES)
    source_words(words, "mesh", ".stl, or with the ending of its format")
    mesh_words(words)
    front_end_words(words)
    return words


def _read_words(words: Sequence[str]) -> Namespace:
    """What these words ask for. Raises BadCall where they ask for nothing that can be done."""
    own = parser()
    asked = own.of_files(words)
    test_outs(asked, "a mesh", _OTHERS)
    test_front_end(asked)
    if len(asked.files) > 1 and asked.folder is None:
        raise BadCall("several FILEs need -d DIR")
    asked.format = format_of(own, asked)
    return asked
