"""The requests of an editor and what they are answered, each a function by the name of its method."""

from __future__ import annotations

import contextlib
import os
from dataclasses import dataclass
from typing import Any, Callable, Type, TypeVar

from ..source.faults import printable
from ..source.joining import WORD_OF_FILE, File
from ..source.sources import Refused
from . import completing, renaming, symbols, telling_names
from .documents import Document, Documents, OpenFolders
from .framing import INVALID_PARAMS, REQUEST_FAILED, Failed
from .views import Place, View

Kind = TypeVar("Kind")

CAPABILITIES: dict[str, Any] = {
    "positionEncoding": "utf-16",
    "textDocumentSync": {"openClose": True, "change": 2, "save": {"includeText": False}},
    "hoverProvider": True,
    "completionProvider": {"triggerCharacters": ["$", "(", ","]},
    "definitionProvider": True,
    "referencesProvider": True,
    "documentSymbolProvider": True,
    "renameProvider": {"prepareProvider": True},
    "workspace": {"workspaceFolders": {"supported": True, "changeNotifications": True}},
}


def wanted(params: Any, kind: Type[Kind], *keys: str) -> Kind:
    """The value of this kind that parameters have by these keys, one in another. Raises Failed."""
    found = params
    for key in keys:
        found = found.get(key) if isinstance(found, dict) else None
    if not isinstance(found, kind):
        raise Failed(INVALID_PARAMS, f"{'.'.join(keys)} is missing, or is none")
    return found


def document(documents: Documents, params: Any) -> Document:
    """The open text that parameters name. Raises Failed."""
    uri = wanted(params, str, "textDocument", "uri")
    if uri not in documents.open:
        raise Failed(INVALID_PARAMS, f"{uri} is not open")
    return documents.open[uri]


@dataclass(frozen=True)
class Asked:
    """A request: the open texts, what the editor can, and the parameters."""

    documents: Documents
    capabilities: dict[str, Any]
    params: Any

    def document(self) -> Document:
        """The text that it is about."""
        return document(self.documents, self.params)

    def byte(self) -> int:
        """The byte of that text that it is about."""
        return self.document().text.offset(wanted(self.params, dict, "position"))

    def folders(self) -> OpenFolders:
        """The folders of included files, in which what isn't there is empty."""
        return OpenFolders(self.documents.folders, self.documents.texts(), is_lenient=True)

    def view(self) -> View:
        """That text with all that it includes and uses. It is kept until something is changed."""
        path, kept = self.document().path, self.documents.kept
        if kept is None or kept[0] != (path, self.documents.changes, _stamp(kept[1])):
            view = View(self.folders(), File(path, path, self.document().text.data))
            kept = self.documents.kept = (path, self.documents.changes, _stamp(view)), view
        found: View = kept[1]
        return found

    def can(self, *keys: str) -> Any:
        """What the editor says of something that it can do; None where it says nothing."""
        found: Any = self.capabilities
        for key in keys:
            found = found.get(key) if isinstance(found, dict) else None
        return found

    def token(self, view: View) -> int | None:
        """The name at the place that it is about, of that view."""
        return view.token(*self.document().text.spot(self.byte()))

    def location(self, place: Place, length: int) -> dict[str, Any]:
        """A name at a place as the protocol has it. Raises Failed where the file is gone."""
        try:
            text = self.documents.text(place.path)
        except OSError as error:
            raise Failed(REQUEST_FAILED, f"{place.path} can't be read: {error.strerror}") from None
        start = text.byte(place.line, place.column)
        return {"uri": self.documents.uri(place.path), "range": text.range(start, start + length)}

    def own_range(self, view: View, at: int) -> dict[str, Any]:
        """The places of a name of the text."""
        place, text = view.place(view.main, at), self.document().text
        start = text.byte(place.line, place.column)
        return text.range(start, start + len(view.main.structure.text(at)))


def _stamp(view: View) -> list[tuple[str, int]]:
    """When the files of a view were written at last."""
    found = []
    for path in sorted(view.paths):
        with contextlib.suppress(OSError):
            found.append((path, os.stat(path).st_mtime_ns))
    return found


def hover(asked: Asked) -> Any:
    """What is said about the name at a place."""
    view = asked.view()
    at = asked.token(view)
    said = telling_names.hover(view, at) if at is not None else None
    if at is None or said is None:
        return None
    forms = asked.can("textDocument", "hover", "contentFormat")
    kind = "markdown" if forms is None or "markdown" in forms else "plaintext"
    return {"contents": {"kind": kind, "value": said}, "range": asked.own_range(view, at)}


def completion(asked: Asked) -> Any:
    """What can stand at a place."""
    return {"isIncomplete": False, "items": [it.shown() for it in completing.completions(asked.view(), asked.byte())]}


def definition(asked: Asked) -> Any:
    """Where a name is defined that stands at a place, or the file that is included or used there."""
    file = _named_file(asked)
    if file is not None:
        return [{"uri": asked.documents.uri(file), "range": {"start": _FIRST, "end": _FIRST}}]
    view = asked.view()
    at = asked.token(view)
    found = []
    for meaning in view.meanings(view.main, at) if at is not None else []:
        of = view.definition(meaning)
        tokens = [of.name] if of is not None else meaning.tokens()
        found += [asked.location(view.place(meaning.of, it), len(meaning.key[1])) for it in tokens]
    return found


_FIRST = {"line": 0, "character": 0}


def _named_file(asked: Asked) -> str | None:
    """The file whose name stands at a place, behind `include` or `use`."""
    own = asked.document()
    byte = asked.byte()
    for word in WORD_OF_FILE.finditer(own.text.data):
        if word.start() <= byte <= word.end():
            there = OpenFolders(asked.documents.folders, asked.documents.texts())
            file = File(own.path, own.path, own.text.data)
            try:
                return there.find(file, word.start(), word["word"].decode(), os.fsdecode(word["file"]), ()).path
            except Refused:
                return None
    return None


def references(asked: Asked) -> Any:
    """All names that are tied to the one at a place."""
    view = asked.view()
    at = asked.token(view)
    if at is None or not view.meanings(view.main, at):
        return []
    name = view.main.structure.text(at)
    found = renaming.Renaming(asked.documents, asked.document().path).places(view, at)
    return [asked.location(it, len(name)) for it in sorted(found)]


def document_symbol(asked: Asked) -> Any:
    """The outline of a text."""
    own = asked.document()
    found = symbols.symbols(asked.view(), own.text)
    if asked.can("textDocument", "documentSymbol", "hierarchicalDocumentSymbolSupport"):
        return [it.nested(own.text) for it in found]
    return [it for symbol in found for it in symbol.flat(own.uri, own.text)]


def prepare_rename(asked: Asked) -> Any:
    """The name at a place, where it can be changed."""
    view = asked.view()
    at = asked.token(view)
    if at is None:
        raise renaming.refused("there is no name here")
    renaming.test_name(view, at)
    return {"range": asked.own_range(view, at), "placeholder": printable(view.main.structure.text(at))}


def rename(asked: Asked) -> Any:
    """The edits that give the name at a place another text."""
    new = wanted(asked.params, str, "newName")
    view = asked.view()
    at = asked.token(view)
    if at is None:
        raise renaming.refused("there is no name here")
    edits = renaming.Renaming(asked.documents, asked.document().path).edits(view, at, new)
    changes = {}
    for path, spans in edits.items():
        text = asked.documents.text(path)
        changes[path] = [{"range": text.range(*it), "newText": new} for it in spans]
    if not asked.can("workspace", "workspaceEdit", "documentChanges"):
        return {"changes": {asked.documents.uri(path): it for path, it in changes.items()}}
    return {"documentChanges": [{"textDocument": _versioned(asked, path), "edits": it} for path, it in changes.items()]}


def _versioned(asked: Asked, path: str) -> dict[str, Any]:
    found = asked.documents.at(path)
    return {"uri": asked.documents.uri(path), "version": found.version if found else None}


ANSWERS: dict[str, Callable[[Asked], Any]] = {
    "textDocument/hover": hover,
    "textDocument/completion": completion,
    "textDocument/definition": definition,
    "textDocument/references": references,
    "textDocument/documentSymbol": document_symbol,
    "textDocument/prepareRename": prepare_rename,
    "textDocument/rename": rename,
}
