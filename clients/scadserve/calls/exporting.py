"""A solid as a mesh for a file, and the line that tells of it, for `off2stl` and `scad2stl`:

    part.4off: 46 faces, 72 triangles, 1 part, closed; unit 1/10 mm; box 2 x 1.2 x 1.6; volume 0.824

Box and volume are those of the solid before its corners are rounded for the format, in millimetres and to six figures, or
exact. Closed says of the
triangles that are written that each has one neighbour at each of its edges, which goes along it the other way. Nothing is
repaired, and no corners are joined but those that rounding makes one.
"""

from __future__ import annotations

from fractions import Fraction
from typing import NamedTuple, Sequence

from ..ending import PART_FAULT
from ..files import called
from ..solid import closing
from ..solid.fouroff import Boundary
from ..solid.measures import Volume, box, rounded, shown
from ..solid.merging import merged
from ..solid.meshes import Mesh, mesh
from ..solid.surface import NotClosed, Surface, surface_of
from ..source.lengths import MILLIMETRE
from . import off2tool
from .off2tool import BadSolid

class Lengths(NamedTuple):
    """The lengths of a solid: how many millimetres a unit is, how many units a length of its text is, and whether box and
    volume are told exactly."""

    unit: Fraction
    step: Fraction = MILLIMETRE
    is_exact: bool = False

    def told(self, number: Fraction, is_known: bool = True) -> str:
        """A number of the solid, which is known exactly or not, as digits."""
        return shown(number, is_known) if self.is_exact else rounded(number)


def export(file: str, boundary: Boundary, lengths: Lengths, form: str) -> tuple[Mesh, str]:
    """The mesh of the solid in a file, with corners in millimetres and rounded for this format, and the line that tells of it.

    Raises BadSolid where the boundary isn't closed or looks inward, or rounding leaves nothing.
    """
    rings = closing.close(boundary)
    try:
        surface = merged(surface_of(boundary, rings))
    except NotClosed as fault:
        raise BadSolid(f"{called(file)}: error: {fault}") from None
    return export_closed(file, boundary, rings, surface, lengths, form)


def export_closed(
    file: str, boundary: Boundary, rings: Sequence[closing.Ring], surface: Surface, lengths: Lengths, form: str
) -> tuple[Mesh, str]:
    """The same of a boundary whose rings are closed, and of its surface. Raises BadSolid."""
    solid = mesh(off2tool.stem(file), surface, lengths.unit, form, lengths.step)
    volume = off2tool.check(file, boundary, solid.triangles)
    if not solid.triangles:
        what = f"{called(file)}: error: rounding moves all corners to one point, so nothing is written"
        raise BadSolid(f"{what}: use a larger --unit, or a --format other than binstl", PART_FAULT)
    return solid, f"{called(file)}: {_summary(boundary, rings, solid, volume, lengths)}\n"


def _summary(boundary: Boundary, rings: Sequence[closing.Ring], solid: Mesh, volume: Volume, lengths: Lengths) -> str:
    """What is said about a solid that is closed."""
    counts = [
        f"{len(boundary.faces)} faces",
        _counted(len(solid.triangles), "triangle"),
        _counted(solid.parts, "part") + (f" with {_counted(solid.hollows, 'hollow')}" if solid.hollows else ""),
        "closed",
    ]
    for count, what, how in (
        (closing.shared_edges(closing.ways(rings)), "edge", "of more than two faces"),
        (closing.touching_corners(rings), "corner", "where it touches itself"),
        (closing.shared_edges(closing.ways(solid.triangles)), "edge", "of more than two triangles"),
    ):
        if count:
            counts.append(f"{_counted(count, what)} {how}")
    length = lengths.unit * lengths.step
    sides = " x ".join(lengths.told((high - low) * length) for low, high in box(boundary))
    told = [f"unit {shown(lengths.unit)} mm", f"box {sides}", f"volume {lengths.told(volume.value * length**3, volume.exact)}"]
    if solid.rounded:
        told.append(f"{_counted(solid.rounded, 'corner')} rounded for the format")
    if solid.lost:
        told[-1] += f", {_counted(solid.lost, 'triangle')} lost by that"
    return "; ".join([", ".join(counts), *told])


def _counted(count: int, what: str) -> str:
    """How many there are of something, in words."""
    return f"{count} {what}" if count == 1 else f"{count} {what}s"
