"""`off2join`: the texts of a design's tiles as one text.

A folder of tiles is what `csg2scad --tiles FOLDER` writes; `scad2off --allow-empty -d` makes the text of each tile anywhere.
"""

from __future__ import annotations

from typing import Sequence

from ..calls import off2tool
from ..calls.off2tool import BadSolid
from ..calls.words import Words, jobs_word, write_out
from ..ending import BadCall
from ..files import reason, refusal_to_write, say
from ..solid.surface import NotClosed
from ..tiles.folder import INDEX, BadIndex, BadTile, Index, parts_of, read_index, texts_of
from ..tiles.gluing import glued
from ..tiles.joined import text_of

TOOL = "off2join"
_DESCRIPTION = """Joins the texts of a design's tiles: NAME.4off for each NAME.scad in a folder that csg2scad --tiles wrote."""
_EPILOG = """The status is 0 if all was written, 1 if a text is missing or is not that of its tile, 2 if words or files are
faulty."""
_SHOWN = 8


def main(words: Sequence[str]) -> int:
    """Runs the tool on its words, without its name; gives its status."""
    return off2tool.run(TOOL, _join, words)


def parser() -> Words:
    """The words that there are."""
    words = Words(TOOL, _DESCRIPTION, _EPILOG)
    of_folders = "the folder that csg2scad wrote, and the folders with the texts, if they are elsewhere"
    words.add_argument("folders", nargs="+", metavar="DIR", help=of_folders)
    words.add_argument("-o", dest="out", metavar="OUT", default="-", help="the file to write; default: standard output")
    jobs_word(words, "how many texts are read at the same time")
    return words


def _join(words: Sequence[str]) -> None:
    asked = parser().parse_intermixed_args(words)
    folder, *others = asked.folders
    refusal = refusal_to_write(asked.out)
    if refusal:
        raise BadCall(f"cannot write {asked.out}: {refusal}")
    index = _index(folder)
    texts = texts_of(index, others or [folder])
    if texts.missing:
        more = len(texts.missing) - _SHOWN
        shown = ", ".join(texts.missing[:_SHOWN]) + (f" and {more} more" if more > 0 else "")
        raise BadSolid(f"{folder}: error: {len(texts.missing)} of {len(index.tiles)} tiles have no text yet: {shown}", 1)
    try:
        surface = glued(parts_of(index, texts.files, asked.jobs))
    except BadTile as fault:
        raise BadSolid(str(fault), 1) from None
    except NotClosed as fault:
        raise BadSolid(f"{folder}: error: the texts of its tiles do not fit together: {fault}", 1) from None
    write_out(asked.out, text_of(surface).text)
    told = f"{len(index.tiles)} tiles joined to a surface of {len(surface.planes)} triangles, which was checked to be closed"
    say(f"{folder}: {told}; print by off2stl --unit {index.unit}\n")


def _index(folder: str) -> Index:
    """The index of a folder. Raises BadCall."""
    try:
        return read_index(folder)
    except OSError as error:
        raise BadCall(f"cannot open {folder}/{INDEX}: {reason(error)}") from None
    except BadIndex as fault:
        raise BadCall(f"{folder}/{INDEX}: {fault}") from None
