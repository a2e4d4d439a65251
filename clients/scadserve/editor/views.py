"""A file as it is read with all that it includes and uses, and what the names in it mean."""

from __future__ import annotations

import os
from typing import Iterator, NamedTuple, Sequence

from ..source.file_scopes import FileScope
from ..source.joining import File, Joined
from ..source.naming import Names
from ..source.recovering import structure_as_far
from ..source.sources import Line, Refused
from ..source.structure import ARGUMENT, FUNCTION, MODULE, VARIABLE, Definition, NoProgram, Scope, Structure
from ..source.tokens import Token
from ..source.using import scope_of
from .documents import OpenFolders


class Place(NamedTuple):
    """Where a token begins: the true path of its file, and there its line and its byte in that, both from 1."""

    path: str
    line: int
    column: int


class Meaning(NamedTuple):
    """What a name means: its kind and text, the scope that binds it, and the file in which that is."""

    of: FileScope
    scope: Scope
    key: tuple[str, bytes]

    def tokens(self) -> list[int]:
        """The tokens that bind it."""
        return self.scope.bound[self.key]


class View:
    """A file with all that it includes and uses, read as far as that can be done."""

    def __init__(self, folders: OpenFolders, file: File) -> None:
        #: The first place at which one of its files is not a program.
        self.fault: Place | None = None
        self.file = file
        self._names: dict[int, Names] = {}
        self._scopes: dict[str, FileScope] = {}
        self._paths: dict[str, str] = {}
        self._faults: list[tuple[Sequence[Token], NoProgram]] = []
        try:
            joined = folders.join(file)
            self.main = self._read(folders, joined)
        except Refused:
            # (what stands in the file alone can be told all the same)
            self._scopes.clear()
            self._faults.clear()
            lines = file.data.split(b"\n")
            joined = Joined(file, [Line(it, it, file.name, number) for number, it in enumerate(lines, 1)])
            self.main = self._read(folders, joined)
        #: The true paths of the files that were read.
        self.paths = {os.path.realpath(file.path), *folders.read}
        self.scopes = [*(it for it in self._scopes.values() if it is not self.main), self.main]
        for tokens, fault in self._faults:
            of = next((it for it in self.scopes if it.structure.tokens is tokens), None)
            if of is not None and self.fault is None:
                self.fault = self.place(of, min(fault.at, len(tokens) - 1)) if tokens else None

    def _read(self, folders: OpenFolders, joined: Joined) -> FileScope:
        return scope_of(folders, joined, (joined.file.identity(),), self._scopes, self._built)

    def _built(self, tokens: Sequence[Token]) -> Structure:
        found, faults = structure_as_far(tokens)
        self._faults += [(tokens, it) for it in faults[:1]]
        return found

    def names(self, of: FileScope) -> Names:
        """The names of a file with what it includes."""
        if id(of) not in self._names:
            self._names[id(of)] = Names(of.structure)
        return self._names[id(of)]

    def place(self, of: FileScope, at: int) -> Place:
        """Where a token stands."""
        token = of.structure.tokens[at]
        line = of.joined.lines[token.line]
        if line.file not in self._paths:
            self._paths[line.file] = os.path.realpath(line.file)
        return Place(self._paths[line.file], line.number, token.start + 1)

    def is_own(self, at: int) -> bool:
        """Whether a token of the main scope stands in the file itself."""
        return self.main.joined.lines[self.main.structure.tokens[at].line].origin is None

    def token(self, line: int, column: int) -> int | None:
        """The name of the file itself at a byte of a line, or right before it, both from 1; its number."""
        for at in self.own_tokens():
            token = self.main.structure.tokens[at]
            own = self.main.joined.lines[token.line].number == line
            if own and token.start + 1 <= column <= token.start + 1 + len(token.text) and token.kind == "name":
                return at
        return None

    def own_tokens(self) -> Iterator[int]:
        """The tokens of the file itself."""
        return (at for at in range(len(self.main.structure.tokens)) if self.is_own(at))

    def meanings(self, of: FileScope, at: int) -> list[Meaning]:
        """What the name at a token may mean, the likeliest first: nothing where it is built in, or not known."""
        names, role = self.names(of), of.structure.roles.get(at)
        if role is None or of.structure.tokens[at].is_special():
            return []
        if role == ARGUMENT:
            return self._of_argument(of, at)
        key = names.key(at)
        found = names.scopes(at)
        if not found or (found[0].bound.get(key) is None and key[0] == FUNCTION):
            used = self._used(of, key)
            if used is not None or not found:
                return [] if used is None else [used]
            key = (VARIABLE, key[1])
        return [Meaning(of, it, key) for it in found]

    def _of_argument(self, of: FileScope, at: int) -> list[Meaning]:
        """The parameter that an argument with a name is for."""
        call = self.names(of).calls.get(at)
        for meaning in self.meanings(of, call.name) if call is not None else []:
            definition = self.definition(meaning)
            key = (VARIABLE, of.structure.text(at))
            if definition is not None and any(meaning.of.structure.text(it) == key[1] for it in definition.parameters):
                return [Meaning(meaning.of, definition.own, key)]
        return []

    def _used(self, of: FileScope, key: tuple[str, bytes]) -> Meaning | None:
        """What a module or a function means that a used file defines."""
        if key[0] not in (MODULE, FUNCTION):
            return None
        for it in of.uses:
            outer = it.structure.scopes[0]
            if key in outer.bound:
                return Meaning(it, outer, key)
        return None

    def definition(self, meaning: Meaning) -> Definition | None:
        """The definition of a module or a function."""
        if meaning.key[0] not in (MODULE, FUNCTION):
            return None
        return self.names(meaning.of).definition(meaning.scope, meaning.key)

    def uses(self, texts: set[bytes]) -> Iterator[tuple[Place, Place]]:
        """Each name of these texts that means something, and the place that stands for what it means."""
        for of in self.scopes:
            for at in of.structure.roles:
                if of.structure.text(at) in texts:
                    for it in self.meanings(of, at):
                        yield self.place(of, at), self.place(it.of, it.tokens()[0])
