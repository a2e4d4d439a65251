"""The special variables that used files assign outside all bodies: each call of such a file from another one is given them.

In OpenSCAD a call of a module or a function of a used file sees them, as if it were given them, unless it is given others.
What would have other values there, since they are evaluated anew for each call, is refused.
"""

from __future__ import annotations

from typing import Sequence

from .file_scopes import FileScope, new_name
from .structure import FUNCTION, Call, Structure

#: Of the name of a function the special variables that it asks for.
Asking = dict[bytes, set[bytes]]


def hand_over(scopes: Sequence[FileScope]) -> None:
    """Changes the scopes of a source, of which the last uses the others, so that calls are given these variables."""
    asking = _asking([it.structure for it in scopes])
    taken = {token.text for it in scopes for token in it.structure.tokens}
    taken.update(new for it in scopes for new in it.renamed.values())
    given: dict[int, dict[bytes, bytes]] = {}
    for scope in scopes[:-1]:
        given[id(scope)] = _assigned(scope, asking, taken)
    for scope in scopes:
        for call in scope.structure.calls:
            meant = scope.meant((call.kind, scope.structure.text(call.name)))
            specials = given.get(id(meant), {})
            if specials and meant is not scope and scope.structure.defined_at(call) is None:
                _give(scope, call, specials, asking)


def _assigned(scope: FileScope, asking: Asking, taken: set[bytes]) -> dict[bytes, bytes]:
    """The special names that a used file assigns outside all bodies, each with the variable that has its value now."""
    found: dict[bytes, bytes] = {}
    for it in scope.structure.assignments:
        name = scope.structure.text(it.name)
        if name.startswith(b"$"):
            if name not in found:
                found[name] = new_name(scope, name, taken)
            scope.changed[it.name] = found[name]
        _test(scope, range(it.name + 1, it.last), asking, "outside all bodies of a file that is used")
    return found


def _give(scope: FileScope, call: Call, specials: dict[bytes, bytes], asking: Asking) -> None:
    """Gives a call all of these variables that it isn't given."""
    own = {scope.structure.text(it.first) for it in call.arguments if scope.structure.text(it.first + 1) == b"="}
    for it in call.arguments:
        first = it.first + 2 * (scope.structure.text(it.first + 1) == b"=")
        _test(scope, range(first, it.last + 1), asking, "in a call of a used file that assigns it", set(specials))
    more = [b"%b = %b" % it for it in specials.items() if it[0] not in own]
    between = b"" if scope.structure.text(call.last - 1) in (b"(", b",") else b", "
    if more:
        scope.changed[call.last] = between + b", ".join(more) + b")"


def _test(scope: FileScope, span: range, asking: Asking, where: str, names: set[bytes] | None = None) -> None:
    """Raises Refused where tokens ask for one of these special variables, or for any, by themselves or by a call."""
    for at in span:
        token = scope.structure.tokens[at]
        asked = {token.text} if token.is_name() and token.is_special() else set()
        if scope.structure.roles.get(at) == FUNCTION:
            asked = asking.get(token.text, set())
        if asked and (names is None or asked & names):
            name = min(asked if names is None else asked & names).decode()
            what = name if token.is_special() else f"{token.text.decode()} asks for {name}"
            raise scope.refused(at, "NotInProfile", f"{what} {where}", "give it in a body, or include the file")


def _asking(structures: Sequence[Structure]) -> Asking:
    """Which special variables the functions of a name ask for, by themselves or by calls."""
    words: dict[bytes, set[bytes]] = {}
    for it in structures:
        for of in it.definitions:
            if of.kind == FUNCTION:
                found = {it.text(at) for at in range(of.first + 2, of.last + 1) if it.tokens[at].is_name()}
                words.setdefault(it.text(of.name), set()).update(found)
    asking = {name: {it for it in found if it.startswith(b"$")} for name, found in words.items()}
    while True:
        more = {name: set().union(of, *(asking.get(it, set()) for it in words[name])) for name, of in asking.items()}
        if more == asking:
            return asking
        asking = more
