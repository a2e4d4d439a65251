"""Reads a source file with all that it includes and uses, as the server is sent it."""

from __future__ import annotations

from typing import Sequence

from .joining import File, Folders
from .sources import Source
from .tokens import tokens


def read_source(file: str, definitions: Sequence[str] = (), folders: Sequence[str] = ()) -> Source:
    """The source in a file, with NAME=VALUE to be assigned behind it; `-` is standard input. What it includes and uses is
    looked for in these folders too. Raises OSError where the file can't be read, and Refused."""
    there = Folders(folders)
    return joined_source(there, there.first(file), definitions)


def source_of(data: bytes, name: str, definitions: Sequence[str] = (), folders: Sequence[str] = ()) -> Source:
    """The same of a source with these bytes, which stands in no folder but the one that the program runs in."""
    return joined_source(Folders(folders), File("-", name, data), definitions)


def source_within(
    data: bytes, file: str, definitions: Sequence[str], folders: Sequence[str], roots: Sequence[str]
) -> Source:
    """The same of these bytes as the text of a file, whether it exists or not, which names no file but those below these
    roots."""
    return joined_source(Folders(folders, roots=roots), File(file, file, data), definitions)


def joined_source(there: Folders, first: File, definitions: Sequence[str] = ()) -> Source:
    """The same of a file that was read already. Raises Refused."""
    source = Source(first.name, [], definitions, len(first.data.removesuffix(b"\n").split(b"\n")) if first.data else 0)
    joined = there.join(first)
    if not joined.uses:
        source.lines = joined.lines
        return source
    # (what tells names of files apart is loaded where a source uses one, so that the tools are quicker to start)
    from .using import with_uses

    source.lines = with_uses(there, joined, source.sent())
    return source


def unused(source: Source) -> list[str]:
    """The names that are assigned behind a source, and that it never has."""
    if not source.definitions:
        return []
    own = [it.sent for it in source.lines if not it.is_used()]
    found = {it.text.decode("ascii", "replace") for it in tokens(own) if it.is_name()} | {"$fn", "$fa", "$fs"}
    names = [it.partition("=")[0].strip() for it in source.definitions]
    return [it for it in names if it not in found]
