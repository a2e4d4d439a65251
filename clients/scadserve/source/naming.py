"""What the names of a source mean: of each use the scope that binds its name, as docs/LANGUAGE.md says it under Scopes."""

from __future__ import annotations

from typing import Iterator

from .structure import ARGUMENT, FUNCTION, MODULE, VARIABLE, Call, Definition, Scope, Structure

class Names:
    """The names of a source. What stands in its own scope is known to those who use it too."""

    def __init__(self, found: Structure) -> None:
        self.found = found
        self.definitions = {it.name: it for it in found.definitions}
        #: The call that each argument with a name is of, by the number of that name.
        self.calls: dict[int, Call] = {
            argument.first: call
            for call in found.calls
            for argument in call.arguments
            if found.roles.get(argument.first) == ARGUMENT
        }

    def key(self, at: int) -> tuple[str, bytes]:
        """The kind and the text of the name at a token."""
        role = self.found.roles[at]
        return (role if role in (MODULE, FUNCTION) else VARIABLE, self.found.text(at))

    def scopes(self, at: int) -> list[Scope]:
        """The scopes that may bind the name at a token, which is none of an argument; the likeliest comes first. There are
        several where a function sees a variable of another one's name that is bound after it may have been called. What is
        bound too late alone, so that it has no value there, is found too."""
        key, start = self.key(at), self.found.places[at]
        # (a value that is a function is called by the name of its variable)
        keys = [key, (VARIABLE, key[1])] if key[0] == FUNCTION else [key]
        found = (list(_looked_up(start, it, is_late)) for is_late in (False, True) for it in keys)
        return next((it for it in found if it), [])

    def definition(self, scope: Scope, key: tuple[str, bytes]) -> Definition | None:
        """The definition that counts of those of a name in a scope: the last."""
        return self.definitions.get(scope.bound[key][-1])


def _looked_up(start: Scope, key: tuple[str, bytes], is_late: bool) -> Iterator[Scope]:
    """The scopes from one outward that bind a name, too late ones or not, up to the first that surely does."""
    scope: Scope | None = start
    before: int | None = None
    is_early = False
    while scope is not None:
        bound = scope.bound.get(key)
        if bound and (is_late or before is None or key[0] != VARIABLE or bound[0] < before):
            yield scope
            # (a parameter, which stands before its scope, is bound before all else)
            if not is_early or key[0] != VARIABLE or bound[0] < scope.first:
                return
        before, is_early, scope = scope.before, scope.is_function, scope.around
