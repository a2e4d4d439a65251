"""The files of which a source is put together: a file with what it includes, and the names in it."""

from __future__ import annotations

import os
import re
from dataclasses import dataclass, field
from typing import Iterator

from .faults import printable, what_is_wrong
from .joining import Joined
from .sources import Refused, Spot
from .structure import FUNCTION, MODULE, VARIABLE, Structure
from .tokens import Token

#: Modules, functions and variables have names of their own kind.
Name = tuple[str, bytes]


@dataclass
class FileScope:
    """A file with what it includes, the scopes that it uses, the last one first, and how it is built."""

    joined: Joined
    uses: list[FileScope]
    structure: Structure
    #: What its names are called where they would meet others.
    renamed: dict[Name, bytes] = field(default_factory=dict)
    #: Other texts for single tokens.
    changed: dict[int, bytes] = field(default_factory=dict)

    def names(self) -> Iterator[tuple[int, Name]]:
        """Each name that another file's could be taken for, with its token's number. What stands for a parameter doesn't."""
        of_parameters = self._of_parameters()
        for at, role in self.structure.roles.items():
            name = self.structure.text(at)
            if role in (MODULE, FUNCTION) or (role == VARIABLE and not name.startswith(b"$") and at not in of_parameters):
                yield at, (role, name)

    def _of_parameters(self) -> set[int]:
        """The tokens that stand for a parameter of a definition around them."""
        found: set[int] = set()
        for it in self.structure.definitions:
            own = {self.structure.text(at) for at in it.parameters}
            found.update(at for at in range(it.body.first, it.body.last + 1) if self.structure.text(at) in own)
        return {at for at in found if self.structure.roles.get(at) == VARIABLE}

    def defined(self) -> set[Name]:
        """The names of its modules, functions and variables outside all bodies."""
        found = {(it.kind, self.structure.text(it.name)) for it in self.structure.outer()}
        return found | {(VARIABLE, self.structure.text(it.name)) for it in self.structure.assignments}

    def meant(self, name: Name) -> FileScope | None:
        """The scope whose definition a name outside all bodies means: its own, or that of a scope that it uses."""
        if name in self.defined():
            return self
        return None if name[0] == VARIABLE else next((it for it in self.uses if name in it.defined()), None)

    def refused(self, at: int, word: str, said: str | None = None, cure: str | None = None) -> Refused:
        """A fault at a token of it."""
        token = self.structure.tokens[at] if at < len(self.structure.tokens) else None
        return refused(self.joined, token, word, said, cure)


def refused(joined: Joined, token: Token | None, word: str, said: str | None = None, cure: str | None = None) -> Refused:
    """A fault at a token of a joined file, or at its end."""
    file = joined.file
    if token is None:
        what, usual = what_is_wrong(word, None, 1)
        return Refused(file.spot(len(file.data))._replace(text=None), word, said or what, cure or usual, file.origin)
    if token.line >= len(joined.lines):
        text = joined.behind[token.line - len(joined.lines)]
        spot, origin = Spot(f"-D {printable(text[:-1])}", 1, token.start + 1, text), None
    else:
        line = joined.lines[token.line]
        spot, origin = line.spot(token.start + 1), line.origin
    what, usual = what_is_wrong(word, spot.text, spot.column)
    return Refused(spot, word, said or what, cure or usual, origin)


def new_name(scope: FileScope, name: bytes, taken: set[bytes]) -> bytes:
    """A name that is none of those that are taken, and is taken now: made of those of a file and of what it stands for."""
    stem = re.sub(r"[^A-Za-z0-9]", "_", os.path.basename(scope.joined.file.name).partition(".")[0])
    new = b"_%b_%b" % (stem[:16].encode(), name.lstrip(b"$"))
    while new in taken:
        new = b"_" + new
    taken.add(new)
    return new
