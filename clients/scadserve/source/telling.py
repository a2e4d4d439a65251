"""What is said of a source that has no solid: a line that editors read as NAME:LINE:COLUMN: error: .., and a cure."""

from __future__ import annotations

from typing import NamedTuple, Sequence

from ..server.scripts import Complex, Fault, Reply, Solid
from .faults import COMPLEX, EMPTY, LIMITS, NO_MEMORY, cure_by_openscad, excerpt, what_is_wrong
from .sources import Origin, Refused, Source, Spot
from .structure import NoProgram, Structure, structure_of
from .tokens import tokens


class Message(NamedTuple):
    """What is said of a source: of which place, by which word, what is wrong, and its cure. It has a spot unless it is said of
    the source as a whole, and each note has one."""

    place: str
    word: str
    said: str
    cure: str
    spot: Spot | None = None
    notes: Sequence[tuple[Spot, str]] = ()

    def __str__(self) -> str:
        """The lines that tools print."""
        near = "" if self.spot is None or self.spot.text is None else excerpt(self.spot.text, self.spot.column)
        notes = "".join(f"{_place(spot)}: note: {what}\n" for spot, what in self.notes)
        return f"{self.place}: error: {self.word}: {self.said}\n{near}    cure: {self.cure}\n{notes}"


def limit_told(source: Source, limit: Fault) -> str:
    """What is said of a source that passes a limit before it is sent."""
    return str(limit_message(source, limit))


def limit_message(source: Source, limit: Fault) -> Message:
    """The same, with its parts. With files in it, it is told where one of them is included or used, unless one line alone
    passes it."""
    said, cure = LIMITS[limit.word]
    before = [it.origin for it in source.lines[: limit.line] if it.origin is not None]
    if before and limit.word != "TooLong":
        said = f"with this file {said[0].lower()}{said[1:]}"
        return _placed(source, before[-1].around_it()[-1].spot, limit.word, said, cure)
    return _placed(source, source.spot(limit.line, limit.column), limit.word, said, cure, source.origin(limit.line))


def refused_told(refused: Refused) -> str:
    """What is said of a source that is not sent."""
    return str(refused_message(refused))


def refused_message(refused: Refused) -> Message:
    """The same, with its parts."""
    return _placed(None, refused.spot, refused.word, refused.said, refused.cure, refused.origin)


def reply_told(
    source: Source, reply: Reply, half: bool = False, server: Sequence[str] | None = None, until: float | None = None
) -> str:
    """What is said of an export that gave no solid, or an empty one. A server that answers at once is asked which calls
    led to a fault, until the time of `time.monotonic` that is given."""
    return str(reply_message(source, reply, half, server, until))


def reply_message(
    source: Source, reply: Reply, half: bool = False, server: Sequence[str] | None = None, until: float | None = None
) -> Message:
    """The same, with its parts."""
    if isinstance(reply, Fault):
        return _fault_message(source, reply, half, server, until)
    if isinstance(reply, Complex):
        return Message(source.name, f"complex {reply.kind}", *COMPLEX[reply.kind])
    word, (said, cure) = ("Empty", EMPTY) if isinstance(reply, Solid) else ("nomem", NO_MEMORY)
    return Message(source.name, word, said, cure)


def _fault_message(source: Source, fault: Fault, half: bool, server: Sequence[str] | None, until: float | None) -> Message:
    """What is said of a fault, its cause where the source shows it, and the calls that led there."""
    spot = source.spot(fault.line, fault.column)
    said, cure = what_is_wrong(fault.word, spot.text, spot.column)
    found, at = _at(source, fault)
    if found is None or at is None:
        return _placed(source, spot, fault.word, said, cure_by_openscad(fault.word, cure), source.origin(fault.line))
    # (what is loaded only where a source has a fault leaves a call without one quicker)
    from . import details
    from .callers import calls_to

    said, cure = details.cause(found, at, fault.word) or (said, cure)
    calls = [found.tokens[it] for it in calls_to(found, at, fault.word, half, server, until)]
    notes = [(source.spot(it.line + 1, it.start + 1), "called here") for it in calls]
    cure = cure_by_openscad(fault.word, cure)
    return _placed(source, spot, fault.word, said, cure, source.origin(fault.line), notes)


def _at(source: Source, fault: Fault) -> tuple[Structure | None, int | None]:
    """How a source is built, and the number of the token at which a fault of it is told."""
    found = tokens(source.sent())
    at = next((at for at, it in enumerate(found) if (it.line + 1, it.start + 1) == (fault.line, fault.column)), None)
    try:
        return structure_of(found), at
    except NoProgram:
        return None, at


def _place(spot: Spot) -> str:
    return spot.file if spot.file.startswith("-D ") else spot.place()


def _placed(
    source: Source | None,
    spot: Spot,
    word: str,
    said: str,
    cure: str,
    origin: Origin | None = None,
    notes: Sequence[tuple[Spot, str]] = (),
) -> Message:
    """What is said of a fault in a line of a source or at its end, or in a definition behind it, and of the places where
    the file is included or used."""
    place = spot.place()
    if spot.file.startswith("-D ") and source is not None:
        place, said = spot.file, f"{said} (with {source.name})"
    origins = [] if origin is None else origin.around_it()
    return Message(place, word, said, cure, spot, [*notes, *((it, f"{of}d here") for it, of, _ in origins)])
