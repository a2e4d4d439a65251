"""The words of the tools that write meshes, `off2stl` and `scad2stl`."""

from __future__ import annotations

import os
import sys
from argparse import Namespace

from ..source.lengths import unit_argument
from .words import Words

#: The formats, as `solid.formats` writes them.
FORMATS = ("stl", "binstl", "off", "obj", "3mf")
#: The formats that no terminal shows.
_BINARY = ("binstl", "3mf")


def mesh_words(words: Words) -> None:
    """The words that each tool takes which writes meshes."""
    words.add_argument("--unit", type=unit_argument, metavar="U", help="a unit's length in millimetres: 1/10, 25.4; default: 1")
    words.add_argument("--exact-numbers", action="store_true", help="print box and volume exactly; default: to six figures")
    words.add_argument("--format", choices=FORMATS, help="the format; default: that of the ending of OUT, or else stl")


def format_of(words: Words, asked: Namespace) -> str:
    """The format that the words of a call ask for. Raises BadCall where they ask for none."""
    to_file = asked.out not in (None, "-")
    form: str = asked.format or (os.path.splitext(asked.out)[1][1:].lower() if to_file else "stl")
    if form not in FORMATS:
        words.error(f"the ending of {asked.out} is not that of a format: give --format")
    if form in _BINARY and not to_file and asked.folder is None and sys.stdout.isatty():
        words.error(f"{form} is not for a terminal: give -o OUT")
    return form


def ending_of(form: str) -> str:
    """The ending of files in a format."""
    return ".stl" if form == "binstl" else f".{form}"
