"""One walk over a source and all that it includes or uses, as OpenSCAD finds it, for what it can't read and for units.

A NUL byte ends a file for OpenSCAD, so that what stands behind it would be missing without a word. OpenSCAD would wait for a
pipe, and what is not an ordinary file can't be read twice.
"""

from __future__ import annotations

import os
import re
from typing import Iterator, Sequence

from ..source.joining import WORD, File, folders_of_environment, is_pipe
from ..source.sources import Origin, Refused, Spot
from ..source.units import Said, says
from ..top import LIBRARY

_PIECE = re.compile(rb'(?P<comment>//[^\n]*|/\*.*?(?:\*/|\Z))|"(?:\\.|[^"\\])*"|\b' + WORD, re.DOTALL)
# OpenSCAD's own folders of libraries, which are none of the source's: no comment in them says its unit.
_OWN = ("~/.local/share/OpenSCAD/libraries", "/usr/share/openscad/libraries")
_PLAIN = "save it as plain text in UTF-8; OpenSCAD reads nothing behind such a byte"
_ORDINARY = "copy it to an ordinary file: OpenSCAD reads a file more than once"


def units_said(file: str, folders: Sequence[str] = ()) -> list[Said]:
    """What comments of a source, and of all that it includes, say of units, in order.

    Looks at each file that is included or used and is there. Raises OSError, and Refused at a file that OpenSCAD can't read.
    """
    if is_pipe(file) or not (os.path.isfile(file) or os.path.isdir(file)):
        kind = "a pipe" if is_pipe(file) else "no ordinary file"
        raise Refused(Spot(file, 1, 0, None), "NoFile", f"{file} is {kind}", _ORDINARY)
    return _Walk(folders).said(_read(file, None))


class _Walk:
    """A walk over files that name one another."""

    def __init__(self, folders: Sequence[str]) -> None:
        self._own = own, *others = [os.path.expanduser(it) for it in _OWN]
        self._folders = [*folders, *folders_of_environment(), own, LIBRARY, *others]
        # (each file counts once where it is included, and once where it is used)
        self._seen: set[tuple[str, bool]] = set()

    def said(self, first: File) -> list[Said]:
        """What comments say of units in a file and in what it includes."""
        found: list[Said] = []
        stack = [(first, False, _pieces(first))]
        while stack:
            file, is_other, pieces = stack[-1]
            piece = next(pieces, None)
            if piece is None:
                stack.pop()
            elif piece["comment"]:
                found += [Said(file.spot(at), file.origin, unit) for at, unit in says(piece)] if not is_other else []
            elif piece["word"]:
                for named, is_other_too in self._named(file, piece):
                    if self._is_new(named, is_other or is_other_too):
                        stack.append((named, is_other or is_other_too, _pieces(named)))
        return found

    def _named(self, file: File, piece: re.Match[bytes]) -> Iterator[tuple[File, bool]]:
        """The file that a piece of another one names, and whether its comments are no part of the source; none where it isn't
        there. Raises Refused."""
        name = os.fsdecode(piece["file"])
        for folder in (os.path.dirname(file.path), *self._folders):
            path = os.path.join(folder, name)
            if os.path.isdir(path) or not os.path.exists(path):
                continue
            if is_pipe(path):
                raise Refused(file.spot(piece.start()), "NoFile", f"{path} is a pipe", _ORDINARY)
            word = piece["word"].decode()
            yield _read(path, Origin(file.spot(piece.start()), word, file.origin)), word == "use" or folder in self._own
            return

    def _is_new(self, file: File, is_other: bool) -> bool:
        key = (file.identity(), is_other)
        is_new = key not in self._seen and (file.identity(), False) not in self._seen
        self._seen.add(key)
        return is_new


def _read(path: str, origin: Origin | None) -> File:
    """A file that OpenSCAD reads whole. Raises OSError and Refused."""
    with open(path, "rb") as it:
        file = File(path, path, it.read(), origin)
    if b"\0" in file.data:
        raise Refused(file.spot(file.data.index(b"\0")), "BadCharacter", "\\x00 can't stand here", _PLAIN)
    return file


def _pieces(file: File) -> Iterator[re.Match[bytes]]:
    return _PIECE.finditer(file.data)
