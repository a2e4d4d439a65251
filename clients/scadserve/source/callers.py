"""Which calls led to a fault in the body of a module or in the value of a function.

Where several calls of it stand in a source, each is given a copy of the definition of its own, and the server is asked
again: the copy that has the fault tells the call.
"""

from __future__ import annotations

from typing import NamedTuple, Sequence

from ..server.scripts import Fault, Malformed, Script, ServerFailed, passed_limit, run
from .structure import Call, Definition, Structure

MOST_CALLS = 4
LINE_BYTES = 900


class Piece(NamedTuple):
    """A token of a changed source: its number in the source, its bytes, and the name of the copy in which it stands."""

    at: int
    text: bytes
    copy: bytes | None


class _Changed:
    """A source in which the calls of some definitions have copies of their own."""

    def __init__(self, found: Structure) -> None:
        self.pieces = [Piece(at, it.text, None) for at, it in enumerate(found.tokens)]
        self._taken = {it.text for it in found.tokens}
        #: Of each copy the call that it was made for, as the number of its name, and the copy in which that stands.
        self.made_for: dict[bytes, tuple[int, bytes | None]] = {}

    def copy(self, definition: Definition, calls: Sequence[Call]) -> None:
        """Gives a copy of a definition to each of its calls that stand outside it."""
        names = {it.name for it in calls}
        body = [it for it in self.pieces if it.copy is None and definition.has(it.at)]
        copies: list[Piece] = []
        changed: list[Piece] = []
        for piece in self.pieces:
            if piece.at in names and not definition.has(piece.at):
                new = self._new()
                self.made_for[new] = (piece.at, piece.copy)
                own = names | {definition.name}
                copies += [Piece(it.at, new if it.at in own else it.text, new) for it in body]
                piece = piece._replace(text=new)
            changed.append(piece)
        self.pieces = changed + copies

    def _new(self) -> bytes:
        number = len(self.made_for)
        while b"_%d" % number in self._taken:
            number += len(self._taken)
        self._taken.add(b"_%d" % number)
        return b"_%d" % number

    def lines(self) -> tuple[list[bytes], dict[tuple[int, int], Piece]]:
        """The lines of it, and of each place, from 1, the token that begins there."""
        lines = [b""]
        places: dict[tuple[int, int], Piece] = {}
        for piece in self.pieces:
            if len(lines[-1]) + len(piece.text) > LINE_BYTES:
                lines.append(b"")
            places[len(lines), len(lines[-1]) + 1] = piece
            lines[-1] += piece.text + b" "
        return lines, places


def calls_to(
    found: Structure, at: int, word: str, half: bool, server: Sequence[str] | None, until: float | None = None
) -> list[int]:
    """The calls that led to a fault at a token, as the numbers of their names, the inner ones first. None is told where that
    is not known; no server is asked where none is given, nor after this time."""
    told: list[int] = []
    definitions: list[tuple[Definition, list[Call]]] = []
    while len(told) < MOST_CALLS:
        place = told[-1] if told else at
        around = next((it for it in found.outer() if it.body.has(place)), None)
        if around is None or any(around is it for it, _ in definitions) or not _is_alone(found, around):
            break
        calls = [it for it in found.calls if it.kind == around.kind and found.text(it.name) == found.text(around.name)]
        outside = [it for it in calls if not around.has(it.name)]
        definitions.append((around, calls))
        if len(outside) == 1:
            told.append(outside[0].name)
            continue
        name = _asked(found, at, word, definitions, half, server, until) if server is not None else None
        if name is None:
            break
        told.append(name)
    return told


def _is_alone(found: Structure, definition: Definition) -> bool:
    """Whether no other definition has its name."""
    name = found.text(definition.name)
    return sum(it.kind == definition.kind and found.text(it.name) == name for it in found.definitions) == 1


def _asked(
    found: Structure,
    at: int,
    word: str,
    definitions: Sequence[tuple[Definition, list[Call]]],
    half: bool,
    server: Sequence[str],
    until: float | None,
) -> int | None:
    """The call of the last of these definitions that led to the fault, by way of the others."""
    changed = _Changed(found)
    for definition, calls in reversed(definitions):
        changed.copy(definition, calls)
        if sum(len(it.text) + 1 for it in changed.pieces) > 500_000:
            return None
    lines, places = changed.lines()
    if passed_limit(lines):
        return None
    script = Script(half)
    client = script.client("a")
    client.source(lines)
    place = client.export()
    try:
        [answers] = run([script], server, until=until)
    except (ServerFailed, Malformed):
        return None
    reply = answers["a"][place]
    piece = places.get((reply.line, reply.column)) if isinstance(reply, Fault) and reply.word == word else None
    copy = piece.copy if piece is not None and piece.at == at else None
    call = None
    for _ in definitions:
        if copy is None:
            return None
        call, copy = changed.made_for[copy]
    return call
