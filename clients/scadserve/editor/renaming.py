"""Gives a variable, a parameter, a module or a function another name, wherever it is meant, and nowhere else.

What is renamed are all names that one is tied to, by a use that may mean it, in the file and in the others of its folders. The
files are read once more with the new name, and each name must mean what it meant: else the name is refused.
"""

from __future__ import annotations

import os
import re
from bisect import bisect_left
from typing import Iterator, Mapping, NamedTuple

from ..source.structure import VARIABLE
from . import built_in
from .documents import MOST_FILES, Documents, OpenFolders
from .framing import REQUEST_FAILED, Failed
from .views import Place, View

_NAME = re.compile(r"[A-Za-z_][A-Za-z0-9_]*")

class Edit(NamedTuple):
    """The bytes of a name, from the first to the one behind the last."""

    start: int
    end: int


def refused(said: str) -> Failed:
    """The answer where a name can't be changed."""
    return Failed(REQUEST_FAILED, said)


def test_name(view: View, at: int) -> None:
    """Raises Failed where the name at a token of the file of a view can't be changed."""
    token, name = view.main.structure.tokens[at], view.main.structure.text(at).decode("ascii", "replace")
    if token.is_special():
        raise refused(f"{name} is a special variable, which calls bind and no scope does")
    if not token.is_name():
        raise refused(f"{name} is a word of the language")
    if not view.meanings(view.main, at):
        known = name in built_in.ALL or view.main.structure.roles.get(at) == "argument"
        raise refused(f"{name} is built in" if known else f"{name} is defined nowhere")


def test_new_name(new: str, kind: str) -> None:
    """Raises Failed where a name can't be given to things of this kind."""
    if not _NAME.fullmatch(new):
        raise refused(f"{new!r} is not a name: names have letters, digits and _, and begin with no digit")
    if new in built_in.KEYWORDS:
        raise refused(f"{new} is a word of the language")
    if kind != VARIABLE and new in built_in.ALL:
        raise refused(f"{new} is built in")


class Renaming:
    """The change of one name of a file of some documents."""

    def __init__(self, documents: Documents, path: str) -> None:
        self._documents, self._path = documents, path
        self._sources = documents.sources(path)
        if len(self._sources) > MOST_FILES:
            raise refused(f"more than {MOST_FILES} sources or folders belong to this work, and any of them may use that name")

    def edits(self, view: View, at: int, new: str) -> dict[str, list[Edit]]:
        """The edits that give the name at a token of the file of a view another text, by true path. Raises Failed."""
        test_name(view, at)
        test_new_name(new, view.names(view.main).key(at)[0])
        old = view.main.structure.text(at)
        if new.encode() == old:
            return {}
        texts = self._documents.texts()
        views = list(self._views(texts))
        before = {it for of in views for it in of.uses({old, new.encode()})}
        places = _tied(before, view.place(view.main, at))
        self._test_places(places, views)
        changed = self._changed(places, old, new.encode())
        after = {it for of in self._views({**texts, **changed}) for it in of.uses({old, new.encode()})}
        moved = _Moved(places, len(new.encode()) - len(old))
        if after != {(moved.place(a), moved.place(b)) for a, b in before}:
            raise refused(
                f"{new} has a meaning of its own where {old.decode()} stands, or {old.decode()} has one where {new} does"
            )
        return self._spans(places, old)

    def places(self, view: View, at: int) -> set[Place]:
        """All names that are tied to the one at a token of the file of a view."""
        uses = {it for of in self._views(self._documents.texts()) for it in of.uses({view.main.structure.text(at)})}
        return _tied(uses, view.place(view.main, at))

    def _views(self, texts: Mapping[str, bytes]) -> Iterator[View]:
        """The sources of the folders, each with what it includes and uses."""
        for path in self._sources:
            folders = OpenFolders(self._documents.folders, texts, is_lenient=True)
            try:
                yield View(folders, folders.first(path))
            except OSError:
                continue

    def _test_places(self, places: set[Place], views: list[View]) -> None:
        """Raises Failed where a file can't be changed, or is not a program, so that its names are not sure."""
        paths = {it.path for it in places}
        roots = self._documents.own_roots(self._path)
        for path in sorted(paths):
            if not any(os.path.commonpath([path, it]) == it for it in roots):
                raise refused(f"it is defined in {path}, which is outside of the folders of this work")
            if os.path.exists(path) and not os.access(path, os.W_OK):
                raise refused(f"it stands in {path}, which can't be written")
        for view in views:
            if view.fault is not None and view.paths & paths:
                line = f"{os.path.basename(view.fault.path)}:{view.fault.line}:{view.fault.column}"
                raise refused(f"{line} is not a program yet: mend that first, since what its names mean is not sure")

    def _spans(self, places: set[Place], old: bytes) -> dict[str, list[Edit]]:
        found: dict[str, list[Edit]] = {}
        for path in sorted({it.path for it in places}):
            text = self._documents.text(path)
            starts = sorted(text.byte(it.line, it.column) for it in places if it.path == path)
            found[path] = [Edit(it, it + len(old)) for it in starts]
        return found

    def _changed(self, places: set[Place], old: bytes, new: bytes) -> dict[str, bytes]:
        """The files with the new name in them. Raises Failed where one was changed meanwhile."""
        changed: dict[str, bytes] = {}
        for path, edits in self._spans(places, old).items():
            data, done, at = self._documents.text(path).data, b"", 0
            for edit in edits:
                if data[edit.start : edit.end] != old:
                    raise refused(f"{path} was changed meanwhile: try again")
                done += data[at : edit.start] + new
                at = edit.end
            changed[path] = done + data[at:]
        return changed


def _tied(uses: set[tuple[Place, Place]], start: Place) -> set[Place]:
    """All names that are tied to one, by a name that may mean either."""
    near: dict[Place, set[Place]] = {}
    for use, meant in uses:
        near.setdefault(use, set()).add(meant)
        near.setdefault(meant, set()).add(use)
    found, left = {start}, [start]
    while left:
        more = near.get(left.pop(), set()) - found
        found |= more
        left += more
    return found


class _Moved:
    """Where names stand once those at some places are longer by this many bytes."""

    def __init__(self, places: set[Place], longer: int) -> None:
        self._longer = longer
        self._columns: dict[tuple[str, int], list[int]] = {}
        for it in sorted(places):
            self._columns.setdefault((it.path, it.line), []).append(it.column)

    def place(self, it: Place) -> Place:
        """The place that one is moved to."""
        before = bisect_left(self._columns.get((it.path, it.line), []), it.column)
        return it._replace(column=it.column + before * self._longer)
