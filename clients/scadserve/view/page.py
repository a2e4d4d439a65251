"""A solid as one page, which shows it to turn, move and zoom by mouse, touch and keys.

The page is a single file that asks no network for anything. It has the exact corners of the solid, and tells the one under
the pointer as fractions. What it draws are planes: each with the loops round its faces, without the ways between faces that lie
on it, so edges are those of the solid alone. `page.html` is its form, and `page.js` what it does.
"""

from __future__ import annotations

import hashlib
import json
from fractions import Fraction
from html import escape
from pathlib import Path
from string import Template
from typing import NamedTuple, Optional, Sequence

from ..solid import closing
from ..solid.fouroff import Boundary, Corner
from ..solid.measures import Volume, box, shown
from .drawing import VIEW
from .painter import outline, patches

#: What each page begins with.
BEGINS = b'<!DOCTYPE html>\n<html lang="en" data-mark="'


class Shown(NamedTuple):
    """A solid for a page, whose faces go round closed rings, and what is said about it."""

    title: str
    boundary: Boundary
    rings: Sequence[closing.Ring]
    volume: Volume
    view: tuple[float, float] = VIEW
    #: How many millimetres a unit is; where that isn't known, lengths are told in units.
    unit: Optional[Fraction] = None


def page(solid: Shown, is_watching: bool = False, notice: str = "") -> bytes:
    """The page of a solid, the same for the same one; it may load itself again, and have a notice above the picture."""
    beside = Path(__file__)
    form = Template(beside.with_suffix(".html").read_text("utf-8"))
    drawn: dict[str, object] = {"view": solid.view, "unit": str(solid.unit or 1), **planes(solid.boundary, solid.rings)}
    values = {
        "title": escape(solid.title),
        "facts": "\n".join(f"<div><dt>{name}</dt><dd>{escape(fact)}</dd></div>" for name, fact in _facts(solid).items()),
        "notice": f'<p role="alert">{escape(notice)}</p>\n' if notice else "",
        "watch": "yes" if is_watching else "no",
        "solid": json.dumps(drawn, separators=(",", ":")),
        "script": beside.with_suffix(".js").read_text("utf-8"),
    }
    # The page knows by its mark whether its file has another one now.
    mark = hashlib.sha256(form.substitute(values, mark="").encode("utf-8", "replace")).hexdigest()[:16]
    return form.substitute(values, mark=mark).encode("utf-8", "replace")


def _facts(solid: Shown) -> dict[str, str]:
    """What the page tells of a solid above its picture."""
    unit = solid.unit or Fraction(1)
    ends = [(low * unit, high * unit) for low, high in box(solid.boundary)]
    sides = " x ".join(shown(high - low) for low, high in ends)
    low, high = (", ".join(map(shown, corner)) for corner in zip(*ends))
    return {
        "Faces": str(len(solid.boundary.faces)),
        **({"Unit": f"{solid.unit} mm"} if solid.unit else {}),
        "Box": f"{sides}, ({low}) to ({high})",
        "Volume": shown(solid.volume.value * unit**3, solid.volume.exact),
    }


def planes(boundary: Boundary, rings: Sequence[closing.Ring]) -> dict[str, object]:
    """What the page draws: the corners as texts "X Y Z W", and each plane with the loops of numbers of corners round its faces.

    Corners where nothing but faces on one plane meet, and those inside straight edges, are left out: they are none of the
    solid. """
    numbers: dict[Corner, int] = {}
    drawn = []
    for patch in patches(boundary, rings):
        loops = [[numbers.setdefault(corner, len(numbers)) for corner, _ in loop] for loop in outline(patch)]
        drawn.append({"ahead": " ".join(map(str, patch.plane[:3])), "loops": loops})
    return {"corners": [" ".join(map(str, corner)) for corner in numbers], "planes": drawn}
