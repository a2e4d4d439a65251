"""The outline of a file: its modules, functions and variables, each inside the one that it stands in."""

from __future__ import annotations

from dataclasses import dataclass, field
from typing import Any

from ..source.structure import FUNCTION, MODULE, VARIABLE
from .texts import Text
from .views import View

#: The kinds of symbols that the protocol has for these.
KINDS = {MODULE: 2, FUNCTION: 12, VARIABLE: 13}


@dataclass
class Symbol:
    """A name that is bound: its kind, its text, its bytes, those of all that belongs to it, and what is in it."""

    kind: str
    name: str
    own: tuple[int, int]
    all: tuple[int, int]
    inner: list[Symbol] = field(default_factory=list)

    def nested(self, text: Text) -> dict[str, Any]:
        """As the protocol has symbols in one another."""
        return {
            "name": self.name,
            "kind": KINDS[self.kind],
            "range": text.range(*self.all),
            "selectionRange": text.range(*self.own),
            "children": [it.nested(text) for it in self.inner],
        }

    def flat(self, uri: str, text: Text, around: str | None = None) -> list[dict[str, Any]]:
        """As the protocol has them in a list."""
        location = {"uri": uri, "range": text.range(*self.all)}
        own = {"name": self.name, "kind": KINDS[self.kind], "location": location}
        if around is not None:
            own["containerName"] = around
        return [own, *(it for inner in self.inner for it in inner.flat(uri, text, self.name))]


def symbols(view: View, text: Text) -> list[Symbol]:
    """The symbols of the file of a view, in order."""
    found = view.main.structure
    ends = {it.name: it for it in found.definitions}
    bound = sorted(
        (at, kind)
        for scope in found.scopes
        for (kind, _), tokens in scope.bound.items()
        for at in tokens
        # (parameters and variables of loops stand before their scope)
        if view.is_own(at) and (kind != VARIABLE or at >= scope.first)
    )
    top: list[Symbol] = []
    around: list[tuple[int, Symbol]] = []
    for at, kind in bound:
        definition = ends.get(at)
        first, last = (definition.first, definition.last) if definition else (at, at)
        name = found.tokens[at].text.decode("utf-8", "replace")
        own = _bytes(view, text, at, at)
        symbol = Symbol(kind, name, own, _bytes(view, text, first, last) if view.is_own(last) else own)
        while around and around[-1][0] < at:
            around.pop()
        (around[-1][1].inner if around else top).append(symbol)
        if definition:
            around.append((last, symbol))
    return top


def _bytes(view: View, text: Text, first: int, last: int) -> tuple[int, int]:
    """The bytes of the file from one of its tokens to another."""
    start, end = (view.place(view.main, it) for it in (first, last))
    return text.byte(start.line, start.column), text.byte(end.line, end.column) + len(view.main.structure.tokens[last].text)
