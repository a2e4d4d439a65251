"""What `scad2stl` does once its words are read: the meshes of sources."""

from __future__ import annotations

from argparse import Namespace

from ..calls import off2tool
from ..calls.converting import Call, convert, front_end
from ..calls.exporting import Lengths, export, export_closed
from ..calls.mesh_words import ending_of
from ..calls.words import outs_of, write_out
from ..files import called, say
from ..server.processes import server_of_environment
from ..server.replies import Solid
from ..solid import fouroff
from ..solid.formats import BEGINS, WRITERS
from ..source.lengths import MILLIMETRE
from ..source.reading import read_source
from ..source.sources import Source
from ..source.units import with_unit
from ..tiles.joined import JoinedSolid, boundary_of


def written(tool: str, asked: Namespace) -> int:
    """Writes what these words of a tool ask for, and gives the status. Raises BadCall, and what `run` of `server` raises."""
    reader = front_end(asked, asked.unit)
    call = Call(
        tool,
        asked.files,
        outs_of(asked.files, asked.out, asked.folder, ending_of(asked.format)),
        folder=asked.folder,
        half=asked.half,
        definitions=asked.definitions,
        folders=asked.folders,
        has_notes=not asked.no_notes and not asked.by_openscad,
        server=server_of_environment(),
        begins=BEGINS,
        read=reader or (lambda *it: with_unit(read_source(*it), asked.unit)),
        coarser=reader.coarser if reader else None,
        larger=reader.larger if reader else None,
        jobs=asked.jobs,
        last=reader.last if reader else None,
    )
    return convert(call, lambda source, out, solid: off2tool.told(tool, lambda: _write(asked, source, out, solid)))


def _write(asked: Namespace, source: Source, out: str, solid: Solid) -> None:
    """Writes one solid. Raises BadCall and BadSolid."""
    lengths = Lengths(source.unit or MILLIMETRE, source.step, asked.exact_numbers)
    file = "-" if source.name == called("-") else source.name
    with off2tool.nothing_old(out, BEGINS):
        if isinstance(solid, JoinedSolid):
            boundary = boundary_of(solid.surface)
            mesh, line = export_closed(file, boundary, boundary.faces, solid.surface, lengths, asked.format)
        else:
            mesh, line = export(file, fouroff.read(solid.text), lengths, asked.format)
    write_out(out, WRITERS[asked.format](mesh))
    say(line)
