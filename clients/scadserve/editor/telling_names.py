"""What is said about a name where an editor asks: of the source's own its definition, of others what is built in."""

from __future__ import annotations

import os
import re

from ..source.faults import printable
from ..source.structure import ARGUMENT, FUNCTION, VARIABLE
from . import built_in
from .views import Meaning, View

MOST_LINES, MOST_BYTES = 12, 400


def hover(view: View, at: int) -> str | None:
    """What is said about the name at a token of the file of a view, in Markdown; None where nothing is known of it."""
    found = view.main.structure
    meanings = view.meanings(view.main, at)
    if meanings:
        return "\n\n".join(told(view, it) for it in meanings)
    role = found.roles.get(at)
    if role == ARGUMENT:
        return _of_built_in_parameter(view, at)
    if role == VARIABLE and not found.tokens[at].is_special():
        return None
    return built_in.about(printable(found.text(at)), role)


def _of_built_in_parameter(view: View, at: int) -> str | None:
    call = view.names(view.main).calls.get(at)
    name = printable(view.main.structure.text(call.name)) if call is not None else ""
    return None if view.main.structure.tokens[at].is_special() else built_in.about(name, call.kind if call else None)


def told(view: View, meaning: Meaning) -> str:
    """The definition of a name as it stands in the source, with the comment above it, and where that is."""
    definition = view.definition(meaning)
    at = definition.name if definition is not None else meaning.tokens()[-1]
    shown = signature(view, meaning)
    place = view.place(meaning.of, at)
    where = "" if place.path == os.path.realpath(view.file.path) else f"{os.path.basename(place.path)}, "
    first = definition.first if definition is not None else at
    blocks = [
        f"```openscad\n{shown}\n```", comment_above(view, meaning, first), f"{_kind(meaning, at)}, {where}line {place.line}"
    ]
    return "\n\n".join(it for it in blocks if it)


def _kind(meaning: Meaning, at: int) -> str:
    if meaning.key[0] != VARIABLE:
        return meaning.key[0]
    if any(it.own is meaning.scope and at in it.parameters for it in meaning.of.structure.definitions):
        return "parameter"
    return "variable of a loop" if at < meaning.scope.first else "variable"


def signature(view: View, meaning: Meaning) -> str:
    """The words of a definition that say how it is called, or of a variable what it is assigned at last."""
    definition, found = view.definition(meaning), meaning.of.structure
    if definition is None:
        first = last = meaning.tokens()[-1]
        deep = 0
        # (to the end of the value: a bracket or a comma around it, or the end of the assignment)
        while last + 1 < len(found.tokens) and (deep or found.text(last + 1) not in (b",", b")", b";", b"{", b"}")):
            last += 1
            deep += (found.text(last) in (b"(", b"[")) - (found.text(last) in (b")", b"]"))
        last += found.text(last + 1) == b";"
        return _source(meaning, first, last)
    is_function = meaning.key[0] == FUNCTION
    return _source(meaning, definition.first, definition.last if is_function else definition.body.first - 1)


def _source(meaning: Meaning, first: int, last: int) -> str:
    """The text from a token to another, as it stands there; its end is left out where it is long."""
    found, lines = meaning.of.structure, meaning.of.joined.lines
    start, end = found.tokens[first], found.tokens[last]
    rows = [it.sent for it in lines[start.line : min(end.line, start.line + MOST_LINES) + 1]]
    if end.line - start.line <= MOST_LINES:
        rows[-1] = rows[-1][: end.start + len(end.text)]
    rows[0] = rows[0][start.start :]
    text = b"\n".join(rows)
    is_long = len(text) > MOST_BYTES or end.line - start.line > MOST_LINES
    return printable_lines(text[:MOST_BYTES]) + (" .." if is_long else "")


def printable_lines(text: bytes) -> str:
    """A text of several lines as an editor shows it."""
    return "\n".join(printable(it.rstrip(b"\r")) for it in text.split(b"\n"))


def comment_above(view: View, meaning: Meaning, first: int) -> str:
    """The comment of whole lines that ends right above a token."""
    lines = meaning.of.joined.lines
    at = meaning.of.structure.tokens[first].line
    said: list[str] = []
    while at and len(said) < MOST_LINES and lines[at - 1].number == lines[at].number - 1:
        found = re.fullmatch(rb"[ \t]*//[ \t]?(.*?)[ \t\r]*", lines[at - 1].sent)
        if found is None:
            break
        said.insert(0, printable(found[1]))
        at -= 1
    return "  \n".join(said)
