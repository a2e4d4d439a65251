"""What can stand at a place: parameters of the call around it, names in scope, and what is built in."""

from __future__ import annotations

from dataclasses import dataclass
from typing import Any, Iterator

from ..source.details import PARAMETERS
from ..source.faults import printable
from ..source.structure import FUNCTION, MODULE, VARIABLE, Scope
from ..source.tokens import PIECE, Token
from . import built_in
from .telling_names import signature
from .views import Meaning, View

#: The kinds of items that the protocol has for these.
KINDS = {MODULE: 9, FUNCTION: 3, VARIABLE: 6, "parameter": 5, "keyword": 14, "constant": 21}
CONSTANTS = ("true", "false", "undef")


@dataclass(frozen=True)
class Item:
    """A word that can stand at a place, what it is, how that is written, and what is said about it in Markdown."""

    word: str
    kind: str
    detail: str = ""
    about: str | None = None

    def shown(self) -> dict[str, Any]:
        """As the protocol has it."""
        item: dict[str, Any] = {"label": self.word, "kind": KINDS[self.kind]}
        if self.kind == "parameter":
            # (they come before all else)
            item.update(insertText=f"{self.word} = ", sortText=f" {self.word}")
        if self.detail:
            item["detail"] = self.detail
        if self.about:
            item["documentation"] = {"kind": "markdown", "value": self.about}
        return item


def completions(view: View, byte: int) -> list[Item]:
    """The words that can stand at a byte of the file of a view; none in a comment, a text or a number."""
    if not _is_code(view.file.data, byte):
        return []
    place = _Place(view, byte)
    if place.is_named:
        return []
    found = {**{it.word: it for it in place.others()}}
    for it in place.own():
        found[it.word] = it
    parameters = {it.word: it for it in place.parameters()}
    return [*parameters.values(), *(it for it in found.values() if it.word not in parameters or it.kind == VARIABLE)]


def _is_code(data: bytes, byte: int) -> bool:
    """Whether a name can begin or go on at a byte."""
    for piece in PIECE.finditer(data):
        if piece.end() >= byte:
            is_line = piece[0].startswith(b"//")
            is_inside = piece.start() < byte and (byte < piece.end() or is_line or bool(piece["open"]))
            if piece["gap"] or piece["open"]:
                return not (is_inside and piece[0].startswith(b"/"))
            if piece["text"]:
                is_open = len(piece[0]) < 2 or not piece[0].endswith(b'"')
                return not (piece.start() < byte and (byte < piece.end() or is_open))
            return not (piece["numeral"] and piece.start() < byte)
    return True


class _Place:
    """A place between the tokens of a file: the number of the one behind it, or of the word that is being written there."""

    def __init__(self, view: View, byte: int) -> None:
        self._view = view
        self._found = view.main.structure
        line = view.file.data.count(b"\n", 0, byte) + 1
        column = byte - view.file.data.rfind(b"\n", 0, byte) - 1
        own = [at for at in view.own_tokens() if self._start(at) < (line, column)]
        last = own[-1] if own else None
        token = self._found.tokens[last] if last is not None else None
        self._is_word = (
            token is not None
            and last is not None
            and token.kind == "name"
            and self._start(last)[0] == line
            and token.start + len(token.text) >= column
        )
        self._at = 0 if last is None else last if self._is_word else last + 1
        #: Whether what is written here is a name of its own: that of a definition.
        self.is_named = self._found.text(self._at - 1) in (b"module", b"function") if self._at else False

    def _start(self, at: int) -> tuple[int, int]:
        token = self._found.tokens[at]
        return self._view.main.joined.lines[token.line].number, token.start

    def _before(self) -> Token | None:
        return self._found.tokens[self._at - 1] if self._at else None

    def _opening(self) -> int | None:
        """The bracket that is open here, within the statement."""
        deep = 0
        for at in range(self._at - 1, -1, -1):
            text = self._found.text(at)
            if text in (b";", b"{", b"}"):
                return None
            deep += (text in (b")", b"]")) - (text in (b"(", b"["))
            if deep < 0:
                return at
        return None

    def _is_value(self) -> bool:
        """Whether a value is to stand here, and no statement."""
        if self._opening() is not None:
            return True
        for at in range(self._at - 1, -1, -1):
            if self._found.text(at) in (b";", b"{", b"}"):
                return False
            if self._found.text(at) == b"=":
                return True
        return False

    def _scopes(self) -> Iterator[Scope]:
        """The scopes around this place, from the inner one outward."""
        inner = [it for it in self._found.scopes if self._is_in(it)]
        scope: Scope | None = max(inner, key=lambda it: (it.first, -it.last)) if inner else self._found.scopes[0]
        while scope is not None:
            yield scope
            scope = scope.around

    def _is_in(self, scope: Scope) -> bool:
        if scope.around is None:
            return True
        is_whole = self._found.text(scope.last) in (b";", b"}")
        is_behind = scope.first < self._at or (self._is_word and scope.first == self._at)
        return is_behind and self._at <= scope.last + (not is_whole)

    def parameters(self) -> list[Item]:
        """The parameters of the call around this place that are not given yet, where one could begin here."""
        opening, before = self._opening(), self._before()
        if opening is None or not opening or before is None or before.text not in (b"(", b","):
            return []
        name = opening - 1
        role = self._found.roles.get(name)
        if role not in (MODULE, FUNCTION) or self._found.text(name - 1) in (b"module", b"function"):
            return []
        given = {self._found.text(it - 1) for it in range(opening, self._at) if self._found.text(it) == b"="}
        taken = [it for it in self._taken(name, role) if it not in given]
        return [Item(printable(it), "parameter", f"parameter of {printable(self._found.text(name))}") for it in taken]

    def _taken(self, name: int, role: str) -> list[bytes]:
        for meaning in self._view.meanings(self._view.main, name):
            definition = self._view.definition(meaning)
            return [meaning.of.structure.text(it) for it in definition.parameters] if definition else []
        return PARAMETERS.get(self._found.text(name), []) if role == MODULE else []

    def own(self) -> list[Item]:
        """The source's own names that are known here, those of outer scopes first."""
        view, found = self._view, []
        for used in reversed(view.main.uses):
            found += [Meaning(used, used.structure.scopes[0], it) for it in used.structure.scopes[0].bound if it[0] != VARIABLE]
        for scope in reversed(list(self._scopes())):
            found += [Meaning(view.main, scope, key) for key, tokens in scope.bound.items() if tokens != [self._at]]
        return [self._item(it) for it in found if self._fits(it.key[0])]

    def _fits(self, kind: str) -> bool:
        return (kind != MODULE) if self._is_value() else (kind != FUNCTION)

    def _item(self, meaning: Meaning) -> Item:
        return Item(printable(meaning.key[1]), meaning.key[0], signature(self._view, meaning))

    def others(self) -> list[Item]:
        """What is built in, as far as it can stand here."""
        if self._is_value():
            names = [(it, FUNCTION) for it in sorted(built_in.FUNCTIONS)]
            names += [*((it, "constant") for it in CONSTANTS), *((it, VARIABLE) for it in sorted(built_in.SPECIAL))]
        else:
            words = ("module", "function", "if", "else", "for", "intersection_for", "include", "use")
            names = [*((it, MODULE) for it in sorted(built_in.MODULES)), *((it, "keyword") for it in words)]
        return [
        Item(name, kind, "built in" if kind in (MODULE, FUNCTION) else "", built_in.about(name, kind))
        for name, kind in names
    ]
