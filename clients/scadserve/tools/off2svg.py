"""`off2svg`: a 4OFF text of the server as a drawing in SVG, with shaded faces and the solid's edges."""

from __future__ import annotations

import os
import re
from argparse import ArgumentTypeError
from typing import Sequence

from ..calls import off2tool
from ..calls.words import Words, write_out
from ..solid import closing
from ..view.drawing import VIEW, Camera, drawing

_VIEW_HELP = "the place of the viewer, in degrees to the right of the front and above it; default: 30 30"
_DESCRIPTION = "Draws the solid of a 4OFF text in SVG."
# The endings of sources, of solids and of other pictures.
_OTHERS = (".scad", ".4off", ".stl", ".3mf", ".obj", ".off", ".png", ".jpg", ".pdf")


def main(words: Sequence[str]) -> int:
    """Runs the tool on its words, without its name; gives its status."""
    return off2tool.run("off2svg", _draw, words)


def parser() -> Words:
    """The words that there are."""
    words = off2tool.off_words("off2svg", _DESCRIPTION)
    words.add_argument("--view", nargs=2, type=degrees, default=VIEW, metavar=("AZ", "EL"), help=_VIEW_HELP)
    words.add_argument("--width", type=_pixels, default=480, metavar="PX", help="the width in pixels; default: 480")
    return words


def _draw(words: Sequence[str]) -> None:
    own = parser()
    asked = own.parse_args(words)
    if os.path.splitext(asked.out)[1].lower() in _OTHERS:
        own.error(f"{asked.out} would be an SVG picture, but has another ending")
    with off2tool.nothing_old(asked.out, (b"<svg ",)):
        boundary = off2tool.read(asked.file, asked.out)
        rings = closing.close(boundary)
        off2tool.check(asked.file, boundary, rings)
    text = drawing(boundary, rings, Camera(*asked.view), asked.width, off2tool.stem(asked.file))
    write_out(asked.out, text.encode())


def degrees(text: str) -> float:
    """An angle in degrees."""
    if re.fullmatch(r"[+-]?[0-9]{1,4}(\.[0-9]{1,6})?", text) is None:
        raise ArgumentTypeError(f"{text!r} is not an angle from -9999 to 9999 degrees")
    return float(text)


def _pixels(text: str) -> int:
    """A width in pixels."""
    if re.fullmatch(r"[0-9]{1,5}", text) is None or int(text) < 16:
        raise ArgumentTypeError(f"{text!r} is not a width from 16 to 99999 pixels")
    return int(text)
