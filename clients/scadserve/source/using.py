"""Puts the definitions of used files before a source, so that each name means there what it means in its own file.

What `use` takes of a file are its modules and functions; its top-level variables are seen by these alone, and it sees
nothing of who uses it but special variables. The profile has no scopes of files, so names that would meet are told apart:
where a module, a function or a variable of one file would be taken for that of another one, it gets another name in its own
file, and modules and functions in those that use them too. What can't be told apart so is refused.
"""

from __future__ import annotations

from typing import Callable, Sequence

from . import specials
from .file_scopes import Name, FileScope, new_name, refused
from .joining import Folders, Joined
from .sources import Edit, Line
from .structure import VARIABLE, NoProgram, Structure, structure_of
from .tokens import Token, tokens


def with_uses(folders: Folders, joined: Joined, definitions: Sequence[bytes]) -> list[Line]:
    """The lines of a source, behind which these lines will be assigned, behind those of all that it uses. Raises Refused."""
    scopes: dict[str, FileScope] = {}
    joined.behind = definitions
    main = scope_of(folders, joined, (joined.file.identity(),), scopes)
    libraries = [it for it in scopes.values() if it is not main]
    _rename(main, libraries)
    specials.hand_over(list(scopes.values()))
    lines = [line for it in libraries for line in _definitions_of(it)]
    return lines + _edited(main, main.joined.lines)


def scope_of(
    folders: Folders,
    joined: Joined,
    opened: tuple[str, ...],
    scopes: dict[str, FileScope],
    built: Callable[[Sequence[Token]], Structure] = structure_of,
) -> FileScope:
    """The scope of a file, with the lines behind it, while these files are opened. The scopes that it uses are added before
    it. `built` says how tokens are built. Raises Refused."""
    uses: list[FileScope] = []
    for file in joined.uses:
        identity = file.identity()
        if identity not in scopes:
            scopes[identity] = scope_of(folders, folders.join(file, opened), (*opened, identity), scopes, built)
        # (of two files that define a name the later use counts)
        uses = [scopes[identity], *(it for it in uses if it is not scopes[identity])]
    found = tokens([*(it.sent for it in joined.lines), *joined.behind])
    try:
        structure = built(found)
    except NoProgram as fault:
        raise refused(joined, found[fault.at] if fault.at < len(found) else None, fault.word) from None
    scope = FileScope(joined, uses, structure)
    scopes.setdefault(opened[-1], scope)
    return scope


def _rename(main: FileScope, libraries: Sequence[FileScope]) -> None:
    """Gives names that would meet others of their own, that stand in no scope."""
    scopes = [*libraries, main]
    mentioned = [{name for _, name in it.names()} for it in scopes]
    taken = {token.text for it in scopes for token in it.structure.tokens}
    for scope, own in zip(scopes, mentioned):
        others = [(it, names) for it, names in zip(scopes, mentioned) if it is not scope]
        for name in sorted(own):
            if name[0] == VARIABLE and scope is not main and _is_met(scope, name, others):
                scope.renamed[name] = new_name(scope, name[1], taken)
            elif name[0] != VARIABLE and name in scope.defined() and _is_taken_for(scope, name, others):
                scope.renamed[name] = new_name(scope, name[1], taken)
    for scope, own in zip(scopes, mentioned):
        for name in own:
            meant = scope.meant(name)
            if meant is not None and name in meant.renamed:
                scope.renamed[name] = meant.renamed[name]


def _is_met(scope: FileScope, name: Name, others: Sequence[tuple[FileScope, set[Name]]]) -> bool:
    """Whether a variable of a scope would be taken for another one's, or another one's for it."""
    is_own = name in scope.defined()
    return any(name in it.defined() or (is_own and name in names) for it, names in others)


def _is_taken_for(scope: FileScope, name: Name, others: Sequence[tuple[FileScope, set[Name]]]) -> bool:
    """Whether another scope has a name of a scope's own module or function, and means none of these."""
    for other, names in others:
        meant = other.meant(name)
        if name in names and meant is not scope and (meant is None or name not in meant.renamed):
            return True
    return False


def _definitions_of(scope: FileScope) -> list[Line]:
    """The lines of what a scope defines and assigns outside all bodies, with all else left out."""
    found = scope.structure.tokens
    kept: dict[int, list[tuple[int, int]]] = {}
    for it in [*scope.structure.outer(), *scope.structure.assignments]:
        first, last = found[it.first], found[it.last]
        for number in range(first.line, last.line + 1):
            start = first.start if number == first.line else 0
            end = last.start + len(last.text) if number == last.line else len(scope.joined.lines[number].sent)
            kept.setdefault(number, []).append((start, end))
    lines = list(scope.joined.lines)
    for number, spans in kept.items():
        sent, at = b"", 0
        for start, end in sorted(spans):
            sent += b" " * (start - at) + lines[number].sent[start:end]
            at = end
        lines[number] = lines[number]._replace(sent=sent)
    edited = _edited(scope, lines)
    return [edited[number] for number in sorted(kept) if edited[number].sent.strip()]


def _edited(scope: FileScope, lines: Sequence[Line]) -> list[Line]:
    """The lines of a scope with the new names in them."""
    changes: dict[int, list[tuple[int, bytes, bytes]]] = {}
    new = {at: scope.renamed[name] for at, name in scope.names() if name in scope.renamed}
    for at, text in {**new, **scope.changed}.items():
        token = scope.structure.tokens[at]
        if token.line >= len(lines):
            said = "what a used file defines is called, and has another name here, or special variables of that file"
            raise scope.refused(at, "NotInProfile", said, "assign it in the source: what stands behind it is not changed")
        changes.setdefault(token.line, []).append((token.start, token.text, text))
    edited = list(lines)
    for number, of_line in changes.items():
        edited[number] = _with_changes(lines[number], sorted(of_line))
    return edited


def _with_changes(line: Line, changes: Sequence[tuple[int, bytes, bytes]]) -> Line:
    sent, at, edits = b"", 0, []
    for start, old, new in changes:
        if line.sent[start : start + len(old)] != old:
            continue  # (it was left out)
        sent += line.sent[at:start]
        edits.append(Edit(len(sent), len(new), len(old)))
        sent += new
        at = start + len(old)
    return line._replace(sent=sent + line.sent[at:], edits=tuple(edits))
