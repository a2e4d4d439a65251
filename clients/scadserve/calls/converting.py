"""From source files to what is made of their solids: the way of each tool that reads sources.

    call = Call("scad2off", files, outs, half=True)
    status = convert(call, lambda source, out, solid: write(out, solid.text))

Files are read with what they include and use, those within the limits go to the server in few runs, and each solid is
handed on to be written. What is wrong with a file is said on standard error, and stops no other file.
"""

from __future__ import annotations

import os
from argparse import Namespace
from fractions import Fraction
from time import monotonic
from typing import TYPE_CHECKING, Callable, NamedTuple, Sequence

from ..ending import BAD_CALL, BadCall, NO_MEMORY, PART_FAULT
from ..files import called, identity, left_over, reason, refusal_to_write, say
from ..server.processes import SERVER
from ..server.scripts import Complex, NoMemory, Reply, Solid, passed_limit
from ..source.answering import answered
from ..source.notes import notes_told
from ..source.reading import read_source, unused
from ..source.sources import LargeSource, Refused, Source
from .words import say_bad, wanted_of

if TYPE_CHECKING:
    from .by_openscad import Reader

# (an unproved run takes a minute each time, and is not asked again which call led to a fault)
QUICK = 10.0


class Part(NamedTuple):
    """A source that is sent, and the file that what is made of it goes to; `-` is standard output."""

    source: Source
    out: str


class Call(NamedTuple):
    """What a call of a tool asks for: its files, where what is made of each goes, and what holds of all of them."""

    tool: str
    files: Sequence[str]
    outs: Sequence[str]
    #: The folder that `outs` are in, where there is one: it is made, and how many were right is said at the end.
    folder: str | None = None
    half: bool = False
    definitions: Sequence[str] = ()
    folders: Sequence[str] = ()
    allow_empty: bool = False
    #: Whether it is noted where OpenSCAD takes a source for another solid.
    has_notes: bool = True
    server: Sequence[str] = SERVER
    #: What the files that the tool makes begin with: such a file is removed where its source has a fault now.
    begins: tuple[bytes, ...] = ()
    #: How the source in a file is read.
    read: Callable[[str, Sequence[str], Sequence[str]], Source] = read_source
    #: A source of the same file whose solid is smaller, for one that passes a limit of the server; None where there is none.
    coarser: Callable[[Source], Source | None] | None = None
    #: The same source as one whose solid is made by tiles; None where there is none.
    larger: Callable[[Source], LargeSource | None] | None = None
    #: How many tiles are made side by side, where that is said.
    jobs: int | None = None
    #: What is said of a source last, when what was made of it is written.
    last: Callable[[Source], str] | None = None


def front_end(asked: Namespace, unit: Fraction | None = None) -> Reader | None:
    """What reads sources by OpenSCAD's front end, where the words ask for that; the unit of each is this one, if there is one.
    """
    if not asked.by_openscad:
        return None
    # (a third of the package, without which the tools are quicker to start)
    from .by_openscad import Reader

    return Reader(wanted_of(asked), unit)


def convert(call: Call, write: Callable[[Source, str, Solid], int]) -> int:
    """The highest status of the files of a call, each of whose solids was written to its place by `write`, which gives a
    status and says what is wrong. Raises BadCall, and what `run` of `server` raises."""
    parts, statuses = parts_of(call)
    began = monotonic()
    quick = None
    replies = answered([it.source for it in parts if not isinstance(it.source, LargeSource)], call.half, call.server)
    for source, out in parts:
        try:
            if isinstance(source, LargeSource):
                statuses.append(_finished(call, source, source.solid(call.server, call.jobs), out, write, True))
                continue
            source, reply = next(replies)
            quick = monotonic() - began < QUICK if quick is None else quick
            if call.has_notes and isinstance(reply, Solid):
                say(notes_told(source))
            statuses.append(_finished(call, *_other(call, source, reply), out, write, quick))
        except Refused as refused:
            _say_refused(call, out, refused)
            statuses.append(PART_FAULT)
    if call.folder is not None:
        say(counted(statuses))
    return max(statuses)


def counted(statuses: Sequence[int]) -> str:
    """What is said at the end of a call of many files, each of which ended with one of these statuses."""
    solids, unread = statuses.count(0), statuses.count(BAD_CALL)
    counts = ((len(statuses), "file"), (solids, "solid"), (len(statuses) - solids - unread, "fault"))
    files, *others = (f"{count} {of}{'s' * (count != 1)}" for count, of in counts)
    return f"{files}: {', '.join(others)}{f', {unread} not read or written' if unread else ''}\n"


def parts_of(call: Call) -> tuple[list[Part], list[int]]:
    """The parts of a call that can be sent, and the statuses of the others, which are told.

    Raises BadCall where nothing can be written where it goes.
    """
    test_place(call.outs, call.folder)
    parts: list[Part] = []
    statuses: list[int] = []
    sources = {identity(it, 0) for it in call.files} - {None}
    for file, out in zip(call.files, call.outs):
        try:
            if identity(out, 1) in sources:
                raise BadCall(f"cannot write {called(out, 'standard output')}: that is a source")
            source = _read(call, file)
            limit = None if isinstance(source, LargeSource) else passed_limit(source.sent())
            if limit:
                from ..source.telling import limit_told

                _say_of(call, out, limit_told(source, limit))
                statuses.append(PART_FAULT)
            else:
                parts.append(Part(source, out))
        except BadCall as bad:
            say_bad(call.tool, bad)
            statuses.append(BAD_CALL)
        except Refused as refused:
            _say_refused(call, out, refused)
            statuses.append(PART_FAULT)
    return parts, statuses


def test_place(outs: Sequence[str], folder: str | None) -> None:
    """Makes the folder that is asked for. Raises BadCall where nothing can be written there, or to the one file."""
    if folder is not None:
        try:
            os.makedirs(folder, exist_ok=True)
        except OSError as error:
            raise BadCall(f"cannot make the folder {folder}: {error.strerror}") from error
    out = outs[0] if folder is None else os.path.join(folder, "any")
    why = refusal_to_write(out)
    if why is not None:
        raise BadCall(f"cannot write {folder or out}: {why}")


def _read(call: Call, file: str) -> Source:
    try:
        source = call.read(file, call.definitions, call.folders)
    except (OSError, ValueError) as error:
        raise BadCall(f"cannot open {called(file, 'standard input')}: {reason(error)}") from error
    for name in unused(source):
        say(f"{source.name}: warning: the source never has {name}, which -D assigns\n")
    return source


def _other(call: Call, source: Source, reply: Reply) -> tuple[Source, Reply]:
    """The source and its answer; where that is a limit, those by tiles, or with fewer planes. Raises Refused."""
    while isinstance(reply, Complex):
        large = call.larger(source) if call.larger else None
        if large is not None:
            return large, large.solid(call.server, call.jobs)
        coarser = call.coarser(source) if call.coarser else None
        if coarser is None:
            break
        [(source, reply)] = answered([coarser], call.half, call.server)
    return source, reply


def _finished(
    call: Call, source: Source, reply: Reply, out: str, write: Callable[[Source, str, Solid], int], quick: bool
) -> int:
    """Writes what is made of a part, or says why there is nothing, and gives the part's status."""
    if isinstance(reply, Solid) and (reply.faces or call.allow_empty):
        status = write(source, out, reply)
        if call.last is not None and not status:
            say(call.last(source))
        return status
    from ..source.telling import reply_told

    if isinstance(reply, NoMemory):
        say(reply_told(source, reply))
        return NO_MEMORY
    _say_of(call, out, reply_told(source, reply, call.half, call.server if quick else None))
    return PART_FAULT


def _say_refused(call: Call, out: str, refused: Refused) -> None:
    """Says what is wrong with a source that is not sent."""
    # (here and above: what tells faults is loaded where there is one, so that the tools are quicker to start)
    from ..source.telling import refused_told

    _say_of(call, out, refused_told(refused))


def _say_of(call: Call, out: str, fault: str) -> None:
    """Says what is wrong with a source, and removes what was made of an earlier one, or says that it is old."""
    say(fault + left_over(out, call.begins))
