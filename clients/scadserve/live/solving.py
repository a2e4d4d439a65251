"""What a request for a solid is answered: its source is read and told of as the tools do it, and exported in the queue.

`Request` is what is asked. `Solver.solve` gives the solid with what belongs to it, or raises `NotSolved` with what `scad2off`
says of such a source, and the place.
"""

from __future__ import annotations

import os
import threading
from dataclasses import dataclass, field
from fractions import Fraction
from time import monotonic
from typing import Callable, NamedTuple, Sequence

from ..server.failures import Malformed
from ..server.replies import NoMemory, Reply, Solid
from ..server.scripts import OutOfMemory, OutOfTime, ServerFailed, passed_limit
from ..source.faults import NO_MEMORY, STATUSES, TOKEN
from ..source.joining import folders_of_environment
from ..source.lengths import MILLIMETRE
from ..source.notes import placed_notes
from ..source.reading import source_within, unused
from ..source.sources import Refused, Source, Spot
from ..source.telling import Message, limit_message, refused_message, reply_message
from ..source.units import unit_of
from . import openscad
from .exports import Exports
from .folder import Folder

#: What a source is called that has no file.
NO_FILE = "source.scad"
_TOO_LONG = ("it takes longer than {} s, and was ended", "make it simpler, or start scadlive with more --seconds")
_FAILED = ("the server gave no answer: {}", "look at what scadlive says in its terminal, and try again")


@dataclass(frozen=True)
class Request:
    """A source for which a solid is asked."""

    text: bytes
    file: str = NO_FILE
    client: str | None = None
    definitions: Sequence[str] = ()
    half: bool = False
    by_openscad: bool = False


class Note(NamedTuple):
    """Something that is said about a source beside its solid or its fault. It stands at a place, as a fault does, or is about
    the whole source."""

    message: str
    file: str | None = None
    line: int | None = None
    column: int | None = None
    start: int | None = None
    end: int | None = None

    def as_json(self) -> dict[str, object]:
        """What a client is told about it."""
        return self._asdict()


@dataclass(frozen=True)
class Told:
    """A fault as a client is told it. The line and its byte count from 1, and what the browser marks, in its own units, from 0.
    """

    word: str
    message: str
    cure: str
    #: All that `scad2off` says of it.
    told: str
    file: str | None = None
    line: int | None = None
    column: int | None = None
    start: int | None = None
    end: int | None = None

    def as_json(self) -> dict[str, object]:
        """What a client is told about it."""
        return dict(vars(self))


class NotSolved(Exception):
    """There is no solid: the faults, whether they are those of the source, and what is noted beside them."""

    def __init__(self, faults: Sequence[Told], is_of_source: bool = True, notes: Sequence[Note] = ()) -> None:
        super().__init__(faults[0].word)
        self.faults, self.is_of_source, self.notes = faults, is_of_source, notes


@dataclass(frozen=True)
class Solved:
    """A solid: its 4OFF text, how many millimetres the source says a unit is, what is noted, and how many units a length of
    the text is."""

    text: bytes
    unit: Fraction | None
    notes: list[Note] = field(default_factory=list)
    step: Fraction = MILLIMETRE

    def scale(self, unit: Fraction | None = None) -> Fraction | None:
        """How many millimetres a length of the text is, by this unit or the source's; None where that isn't known."""
        unit = unit or self.unit
        return unit * self.step if unit else self.step if self.step != MILLIMETRE else None


class Solver:
    """Answers requests for solids of sources in a folder, many at once."""

    def __init__(self, folder: Folder, libraries: Sequence[str], server: Sequence[str], jobs: int, seconds: float) -> None:
        self.libraries, self._server, self._seconds = libraries, server, seconds
        #: The folders whose files a source may name.
        self.roots = [folder.path, *(os.path.realpath(it) for it in [*libraries, *folders_of_environment()])]
        self.exports = Exports(server, jobs, seconds)
        self._asking = threading.BoundedSemaphore(jobs)

    def solve(self, request: Request) -> Solved:
        """The solid of a source, which may be empty. Raises NotSolved, and Replaced and Closed of the queue."""
        return self._guarded(request, lambda: self._by_openscad(request) if request.by_openscad else self._solved(request))

    def _guarded(self, request: Request, work: Callable[[], Solved]) -> Solved:
        """What comes of the work, with what is refused or goes wrong told."""
        try:
            return work()
        except Refused as refused:
            raise NotSolved([told_of(refused_message(refused))]) from None
        except OutOfTime:
            raise self._failure(request, "OutOfTime", f"{self._seconds:g}", *_TOO_LONG) from None
        except OutOfMemory:
            raise self._failure(request, "nomem", "", *NO_MEMORY) from None
        except (ServerFailed, Malformed) as failed:
            said = f"{failed}{STATUSES.get(getattr(failed, 'status', 0), '')}"
            raise self._failure(request, "NoAnswer", said, *_FAILED) from failed

    def _failure(self, request: Request, word: str, shown: str, said: str, cure: str) -> NotSolved:
        """What is told where it isn't known whether the source has a solid."""
        said = said.format(shown)
        told = f"{request.file}: error: {word}: {said}\n    cure: {cure}\n"
        return NotSolved([Told(word, said, cure, told, request.file)], is_of_source=False)

    def _solved(self, request: Request) -> Solved:
        source = source_within(request.text, request.file, request.definitions, self.libraries, self.roots)
        limit = passed_limit(source.sent())
        if limit:
            raise NotSolved([told_of(limit_message(source, limit))])
        answer = self.exports.ask(request.client, source, request.half)
        # (looked for while the server is at work)
        differences = [_note_at(it.message(), spot) for it, spot in placed_notes(source)]
        found, reply = answer()
        notes = [Note(f"the source never has {it}, which is assigned behind it", request.file) for it in unused(source)]
        if not isinstance(reply, Solid):
            raise self._not_solved(found, reply, request.half, notes)
        unit, about_unit = _unit(source)
        return Solved(reply.text, unit, [*notes, *about_unit, *differences])

    def _not_solved(self, source: Source, reply: Reply, half: bool, notes: Sequence[Note]) -> NotSolved:
        with self._asking:
            message = reply_message(source, reply, half, self._server, monotonic() + self._seconds)
        return NotSolved([told_of(message)], not isinstance(reply, NoMemory), notes)

    def _by_openscad(self, request: Request) -> Solved:
        openscad.test_reads(request.text, request.file, self.roots, [*self.libraries, *folders_of_environment()])
        work = openscad.Evaluation(request.text, request.file, request.definitions, self.libraries, self._server)
        found: openscad.Evaluated = self.exports.alone(request.client, work)
        notes = [Note(it) for it in found.said if it.strip()]
        if found.text is None:
            raise NotSolved([_printed(found.fault, request.file)], True, notes)
        return Solved(found.text, found.unit, notes, found.step)


def empty_told(name: str) -> NotSolved:
    """What is said about an empty solid, where nothing can be made of it."""
    return NotSolved([told_of(reply_message(Source(name, []), Solid(0, 0, b"")))])


def _unit(source: Source) -> tuple[Fraction | None, list[Note]]:
    """The unit that a source says, and a note where it says none that counts: a solid has its text without one, too."""
    try:
        return unit_of(source), []
    except Refused as refused:
        return None, [_note_at(f"{refused.word}: {refused.said}; {refused.cure}", refused.spot)]


def _note_at(message: str, spot: Spot) -> Note:
    """A note that stands at a place."""
    return Note(message, spot.file, spot.line, spot.column, *_marked(spot))


def told_of(message: Message) -> Told:
    """A fault as a client is told it, by what the tools say of it."""
    parts = (message.word, message.said, message.cure, str(message))
    spot = message.spot
    if spot is None:
        return Told(*parts, message.place)
    return Told(*parts, spot.file, spot.line, spot.column, *_marked(spot))


def _marked(spot: Spot) -> tuple[int, int]:
    """What a browser marks at a place: a token of the line, from 0 in its own units."""
    if spot.text is None:
        return 0, 0
    start = _units(spot.text[: spot.column - 1])
    token = TOKEN.match(spot.text, spot.column - 1)
    return start, start + (_units(token[0]) if token else 0)


def _printed(told: str, name: str) -> Told:
    """The same of what the process of a source by OpenSCAD printed, which has no other parts than its lines."""
    first, *others = told.splitlines() or [""]
    word, _, said = first.partition("error: ")[2].partition(": ")
    cure = next((it.removeprefix("    cure: ") for it in others if it.startswith("    cure: ")), "")
    return Told(word or "NoAnswer", said or first, cure, told, name)


def _units(text: bytes) -> int:
    """How many units of UTF-16 a text has, as a browser counts them."""
    return len(text.decode("utf-8", "replace").encode("utf-16-le")) // 2
