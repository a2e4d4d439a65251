"""What `off2stl`, `off2svg`, `off2html` and `off2in` have in common: their words, the solid that they read, and the file that
they write.

Faults are one line on standard error. The status is 0 where all was written, 1 where the solid is empty or all
lost by rounding, 2 where words or files are faulty, 6 where memory ran out, 130 after Ctrl-C, and 141 where
nobody reads the output.
"""

from __future__ import annotations

import contextlib
import os
from typing import Callable, Iterator, Sequence

from ..ending import BAD_CALL, BadCall, PART_FAULT, ended
from ..files import called, identity, left_over, read_file, reason, refusal_to_write, say
from ..solid import closing
from ..solid import fouroff
from ..solid import measures
from .words import Words, say_bad


class BadSolid(Exception):
    """A file has no solid that can be written: one line, which begins with the file's name, and the status."""

    def __init__(self, line: str, status: int = BAD_CALL) -> None:
        super().__init__(line)
        self.status = status


def off_words(tool: str, description: str) -> Words:
    """The words of a tool that reads a 4OFF text and writes a file."""
    words = Words(tool, description)
    words.add_argument("-o", dest="out", metavar="OUT", default="-", help="the file to write; default: standard output")
    words.add_argument("file", nargs="?", default="-", metavar="FILE", help="a 4OFF text; default: standard input")
    return words


def run(name: str, tool: Callable[[Sequence[str]], int | None], words: Sequence[str]) -> int:
    """Runs the tool of this name on its words: the status, with the fault told where there is one."""
    return ended(lambda: told(name, lambda: tool(words)))


def told(name: str, work: Callable[[], int | None]) -> int:
    """The status of a piece of a tool's work, with the fault told where there is one."""
    try:
        return work() or 0
    except BadCall as bad:
        say_bad(name, bad)
        return BAD_CALL
    except BadSolid as bad:
        say(f"{bad}\n")
        return bad.status


@contextlib.contextmanager
def nothing_old(out: str, begins: tuple[bytes, ...]) -> Iterator[None]:
    """What a block writes to `out` begins so: where it ends by BadSolid, what is left there of an earlier solid is removed."""
    try:
        yield
    except BadSolid as bad:
        raise BadSolid(f"{bad}\n{left_over(out, begins)}".rstrip("\n"), bad.status) from None


def stem(file: str) -> str:
    """What a solid is called inside a new file: the name of its 4OFF file, with `_` for what no text can show."""
    name = os.path.splitext(os.path.basename(file))[0] if file != "-" else "solid"
    return "".join(it if it.isprintable() else "_" for it in name)


def read(file: str, out: str) -> fouroff.Boundary:
    """The boundary of the solid in a file, for what is then written to `out`.

    Raises BadCall where the one can't be read or the other not be written, and BadSolid at a text that is no 4OFF text and
    at the empty solid.
    """
    data = _bytes_of(file)
    refusal = refusal_to_write(out)
    if identity(out, 1) is not None and identity(out, 1) == identity(file, 0):
        refusal = "that is the 4OFF text itself"
    if refusal:
        raise BadCall(f"cannot write {called(out, 'standard output')}: {refusal}")
    boundary = _parsed(file, data)
    if not boundary.faces:
        raise BadSolid(f"{called(file)}: error: the solid is empty, so nothing is written", PART_FAULT)
    return boundary


def boundary_of(file: str) -> fouroff.Boundary:
    """The boundary of the solid in a file, which may be empty. Raises BadCall, and BadSolid at a text that is no 4OFF text."""
    return _parsed(file, _bytes_of(file))


def _bytes_of(file: str) -> bytes:
    """What is in the file. Raises BadCall."""
    try:
        return read_file(file)
    except (OSError, ValueError) as error:
        raise BadCall(f"cannot open {called(file, 'standard input')}: {reason(error)}") from None


def _parsed(file: str, data: bytes) -> fouroff.Boundary:
    """The boundary that the bytes of the file print. Raises BadSolid."""
    try:
        return fouroff.read(data)
    except fouroff.Malformed as fault:
        hint = ": scad2off makes a 4OFF text of a source" if file.endswith(".scad") else ""
        raise BadSolid(f"{called(file)}:{fault.line}: error: {fault.reason}{hint}") from None


def check(file: str, boundary: fouroff.Boundary, rings: Sequence[closing.Ring]) -> measures.Volume:
    """The volume. Raises BadSolid where the rings, which go round the boundary's faces, are not closed or look inward."""
    unpaired = closing.open_edges(closing.ways(rings))
    if unpaired:
        raise BadSolid(f"{called(file)}: error: not closed: {unpaired} edges do not occur equally often in both directions")
    volume = measures.volume(boundary)
    if volume.value <= 0:
        raise BadSolid(f"{called(file)}: error: its faces look inward: the volume is {measures.shown(*volume)}")
    return volume
