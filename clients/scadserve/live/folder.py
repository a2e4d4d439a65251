"""The folder whose sources are edited: which there are, what is in them, and that they are saved whole or not at all.

A file is named by its way from the folder, with `/` between. No name leads out of the folder, and none goes by a link.
"""

from __future__ import annotations

import hashlib
import os
import stat
from typing import Iterator, NamedTuple

from ..files import read_file, write_file

ENDING = ".scad"
#: A source that is larger is none that the server would take.
MOST_BYTES = 1_048_576
# This many files are listed, from folders so deep in one another.
_MOST_FILES, _MOST_DEEP = 1_000, 6


class NoSuchFile(Exception):
    """There is no such file that may be read or written here."""


class Stamp(NamedTuple):
    """What changes with a file."""

    inode: int
    size: int
    nanoseconds: int


class Folder:
    """A folder with sources in it and in the folders below."""

    def __init__(self, path: str) -> None:
        self.path = os.path.realpath(path)
        self._marks: dict[str, tuple[Stamp, str]] = {}

    def names(self) -> list[str]:
        """The names of the sources, hidden ones left out."""
        return sorted(self._found(self.path, "", 0))[:_MOST_FILES]

    def _found(self, folder: str, before: str, deep: int) -> Iterator[str]:
        try:
            entries = sorted(os.scandir(folder), key=lambda it: it.name)
        except OSError:
            return
        for it in entries:
            if it.name.startswith("."):
                continue
            if it.is_dir(follow_symlinks=False) and deep < _MOST_DEEP:
                yield from self._found(it.path, f"{before}{it.name}/", deep + 1)
            elif it.name.endswith(ENDING) and it.is_file(follow_symlinks=False):
                yield before + it.name

    def files(self) -> dict[str, str]:
        """The mark of each source, which is another one where its bytes are."""
        found: dict[str, tuple[Stamp, str]] = {}
        for name in self.names():
            try:
                stamp = _stamp(os.path.join(self.path, name))
                known = self._marks.get(name)
                found[name] = known if known and known[0] == stamp else (stamp, mark_of(self.read(name)))
            except (OSError, NoSuchFile):
                continue
        self._marks = found
        return {name: mark for name, (_, mark) in found.items()}

    def place(self, name: str) -> str:
        """The path of a name, whether there is a file or not. Raises NoSuchFile."""
        parts = name.split("/")
        if not name.endswith(ENDING) or any(it.startswith(".") or not it or "\0" in it for it in parts):
            raise NoSuchFile(name)
        path = os.path.join(self.path, *parts)
        # (where a part of it is a link, or it is too long, that is another path)
        try:
            real = os.path.realpath(path)
        except OSError:
            raise NoSuchFile(name) from None
        if real != path or len(os.fsencode(path)) > 4_000 or (os.path.lexists(path) and not os.path.isfile(path)):
            raise NoSuchFile(name)
        return path

    def read(self, name: str) -> bytes:
        """The bytes of a source. Raises NoSuchFile and OSError."""
        path = self.place(name)
        if not os.path.isfile(path) or os.path.getsize(path) > MOST_BYTES:
            raise NoSuchFile(name)
        return read_file(path, MOST_BYTES)

    def mark(self, name: str) -> str | None:
        """The mark of a source; None where there is none. Raises NoSuchFile and OSError."""
        return mark_of(self.read(name)) if os.path.lexists(self.place(name)) else None

    def write(self, name: str, data: bytes) -> None:
        """Writes a source, whole or not at all. Raises NoSuchFile and OSError."""
        write_file(self.place(name), data)


def mark_of(data: bytes) -> str:
    """What tells these bytes from others."""
    return hashlib.sha256(data).hexdigest()[:16]


def _stamp(path: str) -> Stamp:
    found = os.stat(path, follow_symlinks=False)
    if not stat.S_ISREG(found.st_mode):
        raise NoSuchFile(path)
    return Stamp(found.st_ino, found.st_size, found.st_mtime_ns)


def stamps(folders: list[str]) -> dict[str, Stamp]:
    """The stamps of the sources in these folders, those below them left out."""
    found: dict[str, Stamp] = {}
    for folder in folders:
        try:
            names = sorted(it for it in os.listdir(folder) if it.endswith(ENDING))[:_MOST_FILES]
        except OSError:
            continue
        for name in names:
            path = os.path.join(folder, name)
            try:
                found[path] = _stamp(path)
            except (OSError, NoSuchFile):
                continue
    return found
