"""Reads a source with all that it includes: `include <FILE>` is replaced by the text of that file, wherever it stands.

A file is looked for in the folder of the file that names it, then in those of `-I`, then in those of OPENSCADPATH, then in
`library/`. Each line keeps its place. `use <FILE>` between the statements of the program is taken out of the text, and the file
is noted.
"""

from __future__ import annotations

import os
import re
import stat
from typing import NamedTuple, Sequence

from ..files import called, read_file, reason
from ..top import LIBRARY
from .sources import Line, Origin, Refused, Spot
from .tokens import PIECE

#: A source that is larger than a script is past a limit.
MOST_BYTES = 1_048_576
MOST_FILES, MOST_NESTED = 1_024, 64
# (more than that is a fault of the file at hand, before all of it fills the memory)
MOST_LINES = 16 * 4_096

WORD = rb"(?P<word>include|use)[ \t\r\n]*<(?P<file>[^\t\r\n>]+)>"
#: What names another file, wherever it stands, in a comment too.
WORD_OF_FILE = re.compile(WORD)
_PIECE = re.compile(WORD + b"|" + PIECE.pattern, re.DOTALL)
_OPENING, _CLOSING = (b"(", b"[", b"{"), (b")", b"]", b"}")


class File(NamedTuple):
    """A file: where it is opened, what it is called in messages, its bytes, and where it is included or used."""

    path: str
    name: str
    data: bytes
    origin: Origin | None = None

    def identity(self) -> str:
        """What is the same for each path of a file."""
        return os.path.realpath(self.path) if self.path != "-" else "-"

    def spot(self, at: int) -> Spot:
        """The place of a byte."""
        start = self.data.rfind(b"\n", 0, at) + 1
        text = self.data[start:].partition(b"\n")[0]
        return Spot(self.name, self.data.count(b"\n", 0, at) + 1, at - start + 1, text)

    def refused(self, at: int, word: str, said: str | None = None) -> Refused:
        """The fault of this kind at a byte."""
        # (what tells faults is loaded where there is one, so that the tools are quicker to start)
        from .faults import FILES

        what, cure = FILES[word]
        return Refused(self.spot(at), word, said or what, cure, self.origin)


class Joined:
    """A file with all that it includes, and the files that it uses, in order."""

    def __init__(self, file: File, lines: Sequence[Line] = ()) -> None:
        self.file, self.lines = file, list(lines)
        self.uses: list[File] = []
        #: How many brackets are open behind these lines, and the last token in them.
        self.deep, self.last = 0, b";"
        #: How many bytes these lines have.
        self.size = 0
        #: The lines that are assigned behind them.
        self.behind: Sequence[bytes] = ()


def folders_of_environment() -> list[str]:
    """The folders that OPENSCADPATH names."""
    return list(filter(None, os.environ.get("OPENSCADPATH", "").split(os.pathsep)))


class Folders:
    """The folders in which files are looked for, beside that of the file that names them, and how many were read. Files are
    bounded by what a script may have, or not. Where `roots` are given, which have no links in them, no file is there but the
    ordinary ones below these and those of the library."""

    def __init__(self, folders: Sequence[str], roots: Sequence[str] | None = None) -> None:
        self._folders = [*folders, *folders_of_environment(), LIBRARY]
        self._roots = None if roots is None else [*roots, os.path.realpath(LIBRARY)]
        self._read = 0

    def first(self, path: str) -> File:
        """The file of a call; `-` is standard input. Raises OSError."""
        return File(path, called(path), self._bytes_of(path))

    def find(self, file: File, at: int, word: str, named: str, opened: Sequence[str]) -> File:
        """The file that a file names so at a byte. Raises Refused, also where it is one of those that are opened."""
        folder = os.path.dirname(file.path) if file.path != "-" else ""
        there = [it for it in (os.path.join(it, named) for it in [folder, *self._folders]) if self._is_there(it)]
        path = next((it for it in there if not os.path.isdir(it)), None)
        if path is None:
            raise file.refused(at, "NoFile", f"{named} is a folder" if there else f"there is no file {named}")
        if is_pipe(path):
            raise file.refused(at, "NoFile", f"{path} is a pipe")
        if os.path.realpath(path) in opened:
            raise file.refused(at, "Ring", f"{path} is being read already")
        self._read += 1
        if self._read > MOST_FILES or len(opened) > MOST_NESTED:
            raise file.refused(at, "TooManyFiles")
        try:
            data = self._bytes_of(path)
        except OSError as error:
            raise file.refused(at, "NoFile", f"{path} can't be opened: {reason(error)}") from None
        if len(data) > MOST_BYTES:
            raise file.refused(at, "TooLarge", f"{path} has more than a script's 1 MiB")
        return File(path, path, data, Origin(file.spot(at), word, file.origin))

    def _bytes_of(self, path: str) -> bytes:
        return read_file(path, MOST_BYTES + 1)

    def _is_there(self, path: str) -> bool:
        if self._roots is None:
            return os.path.exists(path)
        real = os.path.realpath(path)
        return os.path.isfile(real) and any(os.path.commonpath([real, it]) == it for it in self._roots)

    def join(self, file: File, opened: Sequence[str] = ()) -> Joined:
        """A file with all that it includes, while these files are opened. Raises Refused."""
        joined = Joined(file)
        if opened or WORD_OF_FILE.search(file.data):
            self._add(joined, file, (*opened, file.identity()))
        else:
            _add_lines(joined, file, 0, len(file.data))
        return joined

    def _add(self, joined: Joined, file: File, opened: Sequence[str]) -> bool:
        """Adds the lines of a file, and tells whether it ends in a comment that only the end of a line would end."""
        start, skipped, is_comment = 0, 0, False
        for piece in _PIECE.finditer(file.data):
            if piece.start() < skipped:
                continue
            is_comment = piece[0].startswith(b"//")
            if piece["open"] and len(opened) > 1:
                raise file.refused(piece.start(), "OpenComment")
            if not _is_taken(joined, piece):
                continue
            _add_lines(joined, file, start, piece.start())
            start = piece.end()
            found = self.find(file, piece.start(), piece["word"].decode(), os.fsdecode(piece["file"]), opened)
            if piece["word"] == b"use":
                joined.uses.append(found)
                joined.last = b";"
            elif self._add(joined, found, (*opened, found.identity())):
                start = skipped = _end_of_line(file.data, start)
                is_comment = True
            if len(joined.lines) > MOST_LINES or joined.size > MOST_BYTES:
                raise file.refused(piece.start(), "TooLarge")
        _add_lines(joined, file, start, len(file.data))
        return is_comment


def is_pipe(path: str) -> bool:
    """Whether a path is that of a pipe: it would be waited for, without an end where nobody writes to it."""
    return stat.S_ISFIFO(os.stat(path).st_mode)


def _is_taken(joined: Joined, piece: re.Match[bytes]) -> bool:
    """Whether a piece of a source is an include, or a use between statements of the program; follows it where it is a token."""
    if piece["gap"]:
        return False
    if piece["word"] == b"include" or (piece["word"] and not joined.deep and joined.last in (b";", b"}")):
        return True
    joined.deep += (piece[0] in _OPENING) - (piece[0] in _CLOSING)
    joined.last = piece[0]
    return False


def _add_lines(joined: Joined, file: File, start: int, end: int) -> None:
    """Adds the text of a file between two bytes, with blanks before it, so that each byte keeps its column. The parts of
    lines beside an include are left out where they are blank."""
    first = file.data.rfind(b"\n", 0, start) + 1
    pieces = file.data[start:end].split(b"\n")
    number = file.data.count(b"\n", 0, start) + 1
    whole = file.data[first : _end_of_line(file.data, end)].split(b"\n")
    for at, (piece, text) in enumerate(zip(pieces, whole)):
        is_part = (at == 0 and start > first) or (at == len(pieces) - 1 and end < len(file.data))
        if (is_part or at == len(pieces) - 1) and not piece.strip(b" \t\r"):
            if is_part or not piece:
                continue
        sent = b" " * (start - first) + piece if at == 0 else piece
        joined.lines.append(Line(sent, text, file.name, number + at, file.origin))
        joined.size += len(sent) + 1


def _end_of_line(data: bytes, at: int) -> int:
    end = data.find(b"\n", at)
    return len(data) if end < 0 else end
