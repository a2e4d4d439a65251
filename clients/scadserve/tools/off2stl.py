"""`off2stl`: 4OFF texts of the server as closed surfaces of triangles, for slicers and other programs.

What was found of each is told in one line on standard error (`exporting`).
"""

from __future__ import annotations

from argparse import Namespace
from typing import Sequence

from ..calls import off2tool
from ..calls.converting import counted, test_place
from ..calls.exporting import Lengths, export
from ..calls.mesh_words import ending_of, format_of, mesh_words
from ..calls.words import Words, outs_of, test_outs, write_out
from ..files import say
from ..solid.formats import BEGINS, WRITERS
from ..source.lengths import MILLIMETRE

TOOL = "off2stl"
_DESCRIPTION = "Writes the solids of 4OFF texts as closed surfaces of triangles, and prints a line about each."


def main(words: Sequence[str]) -> int:
    """Runs the tool on its words, without its name; gives its status."""
    return off2tool.run(TOOL, _convert, words)


def _convert(words: Sequence[str]) -> int:
    asked = _read_words(words)
    outs = outs_of(asked.files, asked.out, asked.folder, ending_of(asked.format), ".4off")
    test_place(outs, asked.folder)
    statuses = [off2tool.told(TOOL, lambda: _write(asked, file, out)) for file, out in zip(asked.files, outs)]
    if asked.folder is not None:
        say(counted(statuses))
    return max(statuses)


def _write(asked: Namespace, file: str, out: str) -> None:
    """Writes one solid. Raises BadCall and BadSolid."""
    lengths = Lengths(asked.unit or MILLIMETRE, is_exact=asked.exact_numbers)
    with off2tool.nothing_old(out, BEGINS):
        solid, told = export(file, off2tool.read(file, out), lengths, asked.format)
    if asked.info:
        write_out("-", told.encode("utf-8", "surrogateescape"))
    else:
        write_out(out, WRITERS[asked.format](solid))
        say(told)


def parser() -> Words:
    """The words that there are."""
    words = Words(TOOL, _DESCRIPTION)
    words.add_argument("files", nargs="*", metavar="FILE", help="a 4OFF text; default: standard input, which `-` names too")
    words.add_argument("-o", dest="out", metavar="OUT", help="the file to write; default: standard output")
    words.add_argument("-d", dest="folder", metavar="DIR", help="write each solid to DIR/NAME.stl, or with its format's ending")
    mesh_words(words)
    words.add_argument("--info", action="store_true", help="print only the lines of counts, on standard output")
    return words


def _read_words(words: Sequence[str]) -> Namespace:
    """The options by name, with the format told where none was given."""
    own = parser()
    asked = own.of_files(words)
    asked.files = asked.files or ["-"]
    test_outs(asked, "a mesh", {})
    if asked.info and (asked.out is not None or asked.folder is not None):
        own.error("--info writes no solid, so -o and -d can't be given with it")
    if len(asked.files) > 1 and asked.folder is None and not asked.info:
        own.error("several FILEs need -d DIR")
    asked.format = format_of(own, asked)
    return asked
