"""`off2html`: a 4OFF text of the server as one page, which shows the solid to turn, move and zoom by mouse, touch and keys.

With `--watch` the page is written again each time that the text changes, and loads itself again.
"""

from __future__ import annotations

import os
import time
from argparse import Namespace
from typing import NamedTuple, NoReturn, Sequence

from ..calls import off2tool
from ..calls.off2tool import BadSolid
from ..calls.words import Words, write_out
from ..ending import BadCall
from ..files import called, say
from ..solid import closing
from ..source.lengths import unit_argument
from ..view.drawing import VIEW
from ..view.page import BEGINS, Shown, page
from .off2svg import degrees

TOOL = "off2html"
_DESCRIPTION = "Writes a page that shows the solid of a 4OFF text, to turn, move and zoom it."
_VIEW_HELP = "the first view, in degrees to the right of the front and above it; default: 30 30"
_UNIT_HELP = "the length of a unit in millimetres: 1/10, 25.4; default: the page shows lengths in units"
_WATCH_HELP = "write the page again whenever FILE changes, until Ctrl-C; the page reloads itself"
# The endings of sources, of solids and of pictures.
_OTHERS = (".scad", ".4off", ".stl", ".3mf", ".obj", ".off", ".svg", ".png", ".jpg", ".pdf")
# Seconds between two looks at a watched file.
_PAUSE = 0.2


class Stamp(NamedTuple):
    """What changes with a file; all is 0 where there is none."""

    device: int
    number: int
    size: int
    nanoseconds: int


def main(words: Sequence[str]) -> int:
    """Runs the tool on its words, without its name; gives its status."""
    return off2tool.run(TOOL, _show, words)


def parser() -> Words:
    """The words that there are."""
    words = off2tool.off_words(TOOL, _DESCRIPTION)
    words.add_argument("--view", nargs=2, type=degrees, default=VIEW, metavar=("AZ", "EL"), help=_VIEW_HELP)
    words.add_argument("--unit", type=unit_argument, metavar="U", help=_UNIT_HELP)
    words.add_argument("--watch", action="store_true", help=_WATCH_HELP)
    return words


def _show(words: Sequence[str]) -> None:
    own = parser()
    asked = own.parse_args(words)
    if os.path.splitext(asked.out)[1].lower() in _OTHERS:
        own.error(f"{asked.out} would be a page, but has another ending")
    if asked.watch and "-" in (asked.file, asked.out):
        own.error("--watch needs a file to read again and a file to write: give FILE and -o OUT")
    stamp = _stamp(asked.file)
    with off2tool.nothing_old(asked.out, (BEGINS,)):
        solid = _read(asked)
    write_out(asked.out, page(solid, asked.watch))
    if asked.watch:
        _watch(asked, stamp, solid)


def _read(asked: Namespace) -> Shown:
    """The solid of the file. Raises BadCall and BadSolid."""
    boundary = off2tool.read(asked.file, asked.out)
    rings = closing.close(boundary)
    volume = off2tool.check(asked.file, boundary, rings)
    right, up = asked.view
    return Shown(off2tool.stem(asked.file), boundary, rings, volume, (right, up), asked.unit)


def _watch(asked: Namespace, stamp: Stamp, solid: Shown) -> NoReturn:
    """Writes the page again each time that the file is another one. At a fault the page keeps its solid, and tells the fault.
    """
    now = stamp
    while True:
        time.sleep(_PAUSE)
        before, now = now, _stamp(asked.file)
        # (a file that changes still is half written)
        if now != before or now == stamp:
            continue
        stamp = now
        notice = ""
        try:
            solid = _read(asked)
        except (BadCall, BadSolid) as fault:
            notice = f"{fault}. This is the previous solid."
            tool = f"{TOOL}: " if isinstance(fault, BadCall) else ""
            say(f"{tool}{fault}; {called(asked.out)} shows the previous solid\n")
        write_out(asked.out, page(solid, True, notice))


def _stamp(file: str) -> Stamp:
    """What a file has now."""
    try:
        found = os.stat(file)
    except (OSError, ValueError):
        return Stamp(0, 0, 0, 0)
    return Stamp(found.st_dev, found.st_ino, found.st_size, found.st_mtime_ns)
