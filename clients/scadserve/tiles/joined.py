"""What tiles are put together to: a solid as the server would tell it, with its surface."""

from __future__ import annotations

from ..server.replies import Solid as ToldSolid
from ..solid.fouroff import Boundary
from ..solid.surface import Surface


class JoinedSolid(ToldSolid):
    """A solid that is put together, as it would be told, and its surface, whose triangles are the faces of its text."""

    surface: Surface

    @classmethod
    def of(cls, vertices: int, faces: int, text: bytes, surface: Surface) -> JoinedSolid:
        """The solid of a text with this many vertices and faces, and of its surface."""
        it = cls(vertices, faces, text)
        it.surface = surface
        return it


def boundary_of(surface: Surface) -> Boundary:
    """The boundary whose faces are the triangles of a surface, with its corners in the order in which they have them."""
    numbers: dict[int, int] = {}
    faces: list[tuple[int, ...]] = []
    for at in range(len(surface.planes)):
        a, b, c = (numbers.setdefault(surface.places[it], len(numbers)) for it in surface.triangle(at))
        faces.append((a, b, c))
    return Boundary([surface.corners[it] for it in numbers], faces, surface.planes)


def text_of(surface: Surface) -> JoinedSolid:
    """A surface as a 4OFF text."""
    boundary = boundary_of(surface)
    lines = ["4OFF", f"{len(boundary.corners)} {len(boundary.faces)} 0"]
    lines += ["%d %d %d %d" % it for it in boundary.corners]
    lines += ["3 %d %d %d" % it for it in boundary.faces]
    text = "".join(f"{it}\n" for it in lines).encode("ascii")
    return JoinedSolid.of(len(boundary.corners), len(boundary.faces), text, surface)
