"""What `scad2off` does once its words are read: the texts of sources, or the script that asks for them."""

from __future__ import annotations

from argparse import Namespace

from ..calls.converting import Call, convert, front_end, parts_of
from ..calls.words import outs_of, say_bad, write_out
from ..ending import BAD_CALL, BadCall
from ..files import say
from ..server.batches import batches
from ..server.processes import server_of_environment
from ..server.replies import Solid
from ..solid.measures import shown
from ..source.lengths import MILLIMETRE
from ..source.reading import read_source
from ..source.sources import LargeSource, Source
from ..source.units import with_unit


def written(tool: str, asked: Namespace) -> int:
    """Writes what these words of a tool ask for, and gives the status. Raises BadCall, and what `run` of `server` raises."""
    reader = front_end(asked)
    call = Call(
        tool,
        asked.files,
        outs_of(asked.files, asked.out, asked.folder, ".4off"),
        folder=asked.folder,
        half=asked.half,
        definitions=asked.definitions,
        folders=asked.folders,
        has_notes=not asked.no_notes and not asked.by_openscad,
        allow_empty=asked.allow_empty,
        server=server_of_environment(),
        begins=(b"4OFF\n",),
        read=reader or (lambda *it: with_unit(read_source(*it))),
        coarser=reader.coarser if reader else None,
        larger=reader.larger if reader else None,
        jobs=asked.jobs,
        last=reader.last if reader else None,
    )
    return _script_written(call) if asked.script else convert(call, lambda *it: _text_written(tool, *it))


def _script_written(call: Call) -> int:
    """Writes the script that the server would be given."""
    parts, statuses = parts_of(call)
    if statuses:
        return max(statuses)
    for it in parts:
        if isinstance(it.source, LargeSource):
            said = "is made by tiles, but --script prints the script of one source (--fewer makes one)"
            raise BadCall(f"{it.source.name} {said}")
    scripts = [bytes(it.script) for it in batches([it.source.sent() for it in parts], call.half)]
    if len(scripts) != 1:
        raise BadCall(f"these files make {len(scripts)} scripts, but --script prints one")
    write_out(call.outs[0], scripts[0])
    return 0


def _text_written(tool: str, source: Source, out: str, solid: Solid) -> int:
    try:
        write_out(out, solid.text)
    except BadCall as bad:
        say_bad(tool, bad)
        return BAD_CALL
    length = (source.unit or MILLIMETRE) * source.step
    if source.step != MILLIMETRE:
        say(f"{source.name}: a unit of its text is {shown(length)} mm, so make its mesh by off2stl --unit {length}\n")
    return 0
