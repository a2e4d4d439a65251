"""The tool csg2scad: OpenSCAD's evaluated form, which `openscad --render -o part.csg part.scad` writes, as a source of ours."""

from __future__ import annotations

import argparse
import os
import re
from dataclasses import replace
from typing import Sequence

from ..calls.by_openscad import conversion_told, warnings_told
from ..calls.words import Words, front_end_wishes, jobs_word, say_bad, wanted_of, write_out
from ..ending import BAD_CALL, BadCall, PART_FAULT, ended
from ..files import called, identity, read_file, reason, refusal_to_write, say
from ..openscad import reader
from ..openscad.conversion import Design, converted, of_any_size, whole
from ..openscad.front import Front
from ..openscad.grid import PLANES
from ..openscad.reader import CsgFault
from ..source.lengths import unit_argument
from ..tiles.cutting import Limits
from ..tiles.folder import write_folder

_DESCRIPTION = """Converts the evaluated form that openscad --render -o part.csg part.scad writes to a source for scad2off: each
convex leaf becomes the hull of its corners, rounded to a grid. Changes are reported on standard error."""
_EPILOG = "The status is 0 if all was written, 1 if the design can't be converted, 2 if words or files are faulty."


def main(words: Sequence[str]) -> int:
    """Does what the words of a call ask for, and gives its status."""
    return ended(lambda: _told(words))


def parser() -> Words:
    """The words that there are."""
    words = Words("csg2scad", _DESCRIPTION, _EPILOG)
    words.add_argument("file", nargs="?", default="-", metavar="FILE.csg", help="the evaluated form; default: standard input")
    words.add_argument("-o", dest="out", metavar="FILE", default="-", help="the source to write; default: standard output")
    words.add_argument(
        "--unit", type=unit_argument, help="the step of the grid in OpenSCAD's lengths, such as 1/20; default: it is chosen"
    )
    of_tiles = "write a source for each tile of the design to the new folder DIR; off2join joins their texts"
    words.add_argument("--tiles", metavar="DIR", help=of_tiles)
    of_planes = f"use at most N planes; default: {PLANES}, or {Limits().planes} for a tile"
    words.add_argument("--planes", type=_count, metavar="N", help=of_planes)
    jobs_word(words, "how many pieces of the design are cut into tiles at the same time")
    front_end_wishes(words)
    words.add_argument("--folder", metavar="DIR", help="the folder of the files that the design imports; default: FILE.csg's")
    return words


def _told(words: Sequence[str]) -> int:
    try:
        return _converted(parser().parse_args(words))
    except BadCall as bad:
        say_bad("csg2scad", bad)
        return BAD_CALL


def _converted(asked: argparse.Namespace) -> int:
    name = called(asked.file)
    if asked.tiles is not None and (asked.fewer or asked.out != "-"):
        raise BadCall("--tiles writes many sources, with all corners, so -o and --fewer can't be given with it")
    text = _text(asked.file, asked.out)
    wanted = replace(wanted_of(asked), unit=asked.unit, planes=asked.planes or PLANES)
    front = Front(asked.folder or os.path.dirname(os.path.abspath(asked.file)), asked.strict)
    try:
        nodes = reader.read(text)
        if asked.tiles is not None:
            return _tiles_written(asked, name, whole(nodes, wanted, front))
        found = converted(nodes, wanted, front) if asked.fewer else of_any_size(nodes, wanted, front)
    except CsgFault as fault:
        say(f"{name}:{fault.line}:{fault.column}: error: {fault.word}: {fault.said}\n")
        return PART_FAULT
    if isinstance(found, Design):
        say(f"{name}: error: TooManyPlanes: the design has more planes or shapes than a source may have\n")
        say("    cure: --tiles DIR writes it as many sources, and --fewer leaves out corners of curves\n")
        return PART_FAULT
    say(conversion_told(name, found))
    write_out(asked.out, found.text)
    say(warnings_told(name, found.warnings))
    return 0


def _tiles_written(asked: argparse.Namespace, name: str, design: Design) -> int:
    """Writes the tiles of a design to a folder. Raises BadCall and CsgFault."""
    limits = Limits(planes=asked.planes) if asked.planes else Limits()
    try:
        os.makedirs(asked.tiles, exist_ok=True)
        if os.listdir(asked.tiles):
            raise BadCall(f"the folder {asked.tiles} is not empty")
        count = write_folder(asked.tiles, os.path.basename(name), design, limits, asked.jobs)
    except OSError as error:
        raise BadCall(f"cannot write to the folder {asked.tiles}: {error.strerror}") from error
    say(conversion_told(name, design))
    say(f"{name}: {count} tiles in {asked.tiles}: scad2off --allow-empty -d DIR makes their texts, and off2join joins them\n")
    say(warnings_told(name, design.warnings))
    return 0


def _count(text: str) -> int:
    if not re.fullmatch("[0-9]{1,4}", text) or not 4 <= int(text) <= PLANES:
        raise argparse.ArgumentTypeError(f"{text!r} is not a number from 4 to {PLANES}")
    return int(text)


def _text(file: str, out: str) -> str:
    """The text of a file, for what is then written to `out`. Raises BadCall."""
    try:
        data = read_file(file)
    except (OSError, ValueError) as error:
        raise BadCall(f"cannot open {called(file, 'standard input')}: {reason(error)}") from None
    refusal = refusal_to_write(out)
    if identity(out, 1) is not None and identity(out, 1) == identity(file, 0):
        refusal = "that is the evaluated form itself"
    if refusal:
        raise BadCall(f"cannot write {called(out, 'standard output')}: {refusal}")
    return data.decode("utf-8", "surrogateescape")
