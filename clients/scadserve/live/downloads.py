"""The files that are made of a solid, by the names of their formats, which `media` has."""

from __future__ import annotations

from fractions import Fraction
from typing import Callable

from ..calls import off2tool
from ..calls.exporting import Lengths, export
from ..calls.off2tool import BadSolid
from ..ending import BadCall
from ..solid import closing, fouroff
from ..solid.formats import WRITERS
from ..source.lengths import MILLIMETRE
from ..view.drawing import VIEW, Camera, drawing
from ..view.page import Shown, page
from .solving import NotSolved, Solved, Told, empty_told

# The width of a drawing, in pixels.
_WIDTH = 480


def written(form: str, name: str, solved: Solved, unit: Fraction | None) -> bytes:
    """The file of a solid in a format. A unit that is asked for counts as the tools have it. Raises NotSolved."""
    if form != "4off" and not fouroff.read(solved.text).faces:
        raise empty_told(name)
    try:
        return _WRITERS[form](name, solved, unit or solved.unit)
    except (BadSolid, BadCall) as bad:
        said = str(bad).partition("error: ")[2] or str(bad)
        raise NotSolved([Told("BadSolid", said, "take another format or unit", f"{bad}\n", name)]) from None


def _text(_: str, solved: Solved, __: Fraction | None) -> bytes:
    return solved.text


def _mesh(form: str) -> Callable[[str, Solved, Fraction | None], bytes]:
    def write(name: str, solved: Solved, unit: Fraction | None) -> bytes:
        mesh, _ = export(name, fouroff.read(solved.text), Lengths(unit or MILLIMETRE, solved.step), form)
        return WRITERS[form](mesh)

    return write


def _drawing(name: str, solved: Solved, _: Fraction | None) -> bytes:
    boundary = fouroff.read(solved.text)
    rings = closing.close(boundary)
    off2tool.check(name, boundary, rings)
    return drawing(boundary, rings, Camera(*VIEW), _WIDTH, off2tool.stem(name)).encode()


def _page(name: str, solved: Solved, unit: Fraction | None) -> bytes:
    boundary = fouroff.read(solved.text)
    rings = closing.close(boundary)
    return page(Shown(off2tool.stem(name), boundary, rings, off2tool.check(name, boundary, rings), unit=solved.scale(unit)))


#: How a file is made in each format: of the name of the source, the solid, and how many millimetres a unit is.
_WRITERS: dict[str, Callable[[str, Solved, Fraction | None], bytes]] = {
    "4off": _text,
    **{it: _mesh(it) for it in WRITERS},
    "svg": _drawing,
    "html": _page,
}
