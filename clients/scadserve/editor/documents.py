"""The texts that are open in an editor, and the files of their folders, by path."""

from __future__ import annotations

import os
from dataclasses import dataclass, field
from pathlib import Path
from typing import Any, Mapping, Sequence
from urllib.parse import unquote_to_bytes, urlsplit

from ..source.joining import File, Folders
from ..source.sources import Refused
from .texts import Text

MOST_FILES = 1_000


@dataclass
class Document:
    """An open text. What has no file has a path of its own, in the folder that the server runs in."""

    uri: str
    path: str
    version: int | None
    text: Text

    @property
    def real(self) -> str:
        """The true path."""
        return os.path.realpath(self.path)


class OpenFolders(Folders):
    """Folders in which some files have other bytes: those of the texts that are open. A lenient one takes what isn't there,
    or can't be read, for an empty file."""

    def __init__(self, folders: Sequence[str], texts: Mapping[str, bytes], is_lenient: bool = False) -> None:
        super().__init__(folders)
        self._texts, self._is_lenient = texts, is_lenient
        #: The files that were read, by their true paths.
        self.read: set[str] = set()

    def find(self, file: File, at: int, word: str, named: str, opened: Sequence[str]) -> File:
        """As it is said of Folders."""
        try:
            return super().find(file, at, word, named, opened)
        except Refused:
            if self._is_lenient:
                # (no file is in a file, so it is nothing that is there)
                return File(os.path.join(file.path, named), named, b"")
            raise

    def _bytes_of(self, path: str) -> bytes:
        real = os.path.realpath(path)
        self.read.add(real)
        text = self._texts.get(real)
        return super()._bytes_of(path) if text is None else text


@dataclass
class Documents:
    """What is open, the folders of the editor, and those in which included files are looked for."""

    folders: Sequence[str] = ()
    roots: list[str] = field(default_factory=list)
    #: By the URI that the editor gives.
    open: dict[str, Document] = field(default_factory=dict)
    #: How often the editor has told of a change, and what was read of a text since the last one.
    changes: int = 0
    kept: tuple[Any, Any] | None = None

    def texts(self) -> dict[str, bytes]:
        """The bytes of what is open, by true path."""
        return {it.real: it.text.data for it in self.open.values()}

    def at(self, path: str) -> Document | None:
        """The open text of a file."""
        real = os.path.realpath(path)
        return next((it for it in self.open.values() if it.real == real), None)

    def text(self, path: str) -> Text:
        """The text of a file, open or not. Raises OSError."""
        found = self.at(path)
        return found.text if found else Text(Path(path).read_bytes())

    def uri(self, path: str) -> str:
        """What the editor calls a file."""
        found = self.at(path)
        return found.uri if found else Path(os.path.abspath(path)).as_uri()

    def own_roots(self, path: str) -> list[str]:
        """The folders that belong to the work on a file: those of the editor, and its own where it is in none of these."""
        own, roots = os.path.realpath(os.path.dirname(path)), [os.path.realpath(it) for it in self.roots]
        return roots if any(os.path.commonpath([own, it]) == it for it in roots) else [*roots, own]

    def sources(self, path: str) -> list[str]:
        """The true paths of the sources that belong to the work on a file. There are more than MOST_FILES where it isn't known
        which: there are more sources, or more folders."""
        found = dict.fromkeys(sorted(it.real for it in self.open.values()))
        walked = 0
        for root in self.own_roots(path):
            for folder, folders, names in os.walk(root):
                folders[:] = sorted(it for it in folders if not it.startswith("."))
                sources = sorted(it for it in names if it.endswith(".scad"))
                found.update(dict.fromkeys(os.path.realpath(os.path.join(folder, it)) for it in sources))
                walked += 1
                if max(walked, len(found)) > MOST_FILES:
                    return [*found, *[path] * MOST_FILES]
        return list(found)


def path_of(uri: str) -> str:
    """The path of a file that an editor names; of what is not a file one in the folder that the server runs in."""
    parts = urlsplit(uri)
    if parts.scheme == "file":
        return os.fsdecode(unquote_to_bytes(parts.path))
    return os.path.abspath(os.path.basename(os.fsdecode(unquote_to_bytes(parts.path))) or "untitled")
