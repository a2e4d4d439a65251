"""What public calls reach by the names in their clauses: definitions and types, from above, and names of the library.

Some names are left to another page: where a definition names one of these, it is noted and not followed.
"""

from __future__ import annotations

from typing import Iterable, NamedTuple, Union

from definitions import Definition, Failure, Library, SpecFile, Target, tokens_of
from sources import Call, Declared, Sources

Item = Union[Definition, Declared]


class Cut(NamedTuple):
    """A name that a definition has and that stands on another page, with what is said of it."""

    within: str
    name: str
    page: str
    said: str


class Reached:
    """All that some calls reach, each once, in the order in which it is found from above: breadth before depth."""

    def __init__(self, library: Library, sources: Sources, cuts: Iterable[Cut] = ()) -> None:
        """Nothing is reached yet; at these cuts names are not followed."""
        self.library, self.sources = library, sources
        self.cuts = {(it.within, it.name): it for it in cuts}
        self.met: dict[Cut, None] = {}
        self.items: dict[Target, Item] = {}
        self.depths: dict[Target, int] = {}
        self.words: dict[str, None] = {}

    def definitions(self) -> list[Definition]:
        """The definitions that are reached, in order."""
        return [it for it in self.items.values() if isinstance(it, Definition)]

    def types(self) -> list[Declared]:
        """The types and traits that are reached, in order."""
        return [it for it in self.items.values() if isinstance(it, Declared)]

    def beyond(self, *others: Reached) -> list[Item]:
        """What is reached here, and by none of the others."""
        return [it for target, it in self.items.items() if not any(target in other.items for other in others)]

    def follow_calls(self, calls: Iterable[Call]) -> Reached:
        """Reaches all that the clauses and the signatures of calls name."""
        self.follow([target for call in calls for target in self.named_by_call(call)])
        return self

    def named_by_call(self, call: Call) -> list[Target]:
        """What the clauses of a call name, and the types and traits of the crates in its signature."""
        clauses = [it for it in call.reached() if it.kind != "module"]
        types = [self.sources.type_named(call.path, call.crate, name) for name in call.types()]
        return clauses + [it for it in types if it]

    def follow(self, targets: list[Target]) -> None:
        """Reaches these names and all that they name, breadth before depth."""
        depth = 0
        while targets:
            deeper: list[Target] = []
            for target in targets:
                found = self.resolved(target)
                if found and found.target not in self.items:
                    self.items[found.target], self.depths[found.target] = found, depth
                    deeper += self.named_by(found)
            targets, depth = deeper, depth + 1

    def resolved(self, target: Target) -> Item | None:
        """The definition or the type that a name leads to; none where it is the library's. Raises Failure where there is none.
        """
        if target.crate not in self.library.crates:
            self.words[library_word(target)] = None
            return None
        if target.kind == "type":
            known = self.items.get(Target("type", target.crate, "", target.name))
            return known or self.sources.declared(target)
        definition = self.library.definition(target)
        if definition is None:
            raise Failure(f"{target.crate}: {target.module} has no {target.name}")
        return definition

    def named_by(self, item: Item) -> list[Target]:
        """What a definition or a type names, but for what is left to another page."""
        if isinstance(item, Declared):
            return self.named_by_type(item)
        found = [member(it, word) for it, word in self.library.reached_by(item)]
        for it in found:
            cut = self.cuts.get((item.target.name, it.name))
            if cut:
                self.met[cut] = None
        return [it for it in found if (item.target.name, it.name) not in self.cuts]

    def named_by_type(self, declared: Declared) -> list[Target]:
        """What a type names: the types of its text, what contracts see in its place, or the clauses of a trait's calls."""
        scope = self.sources.scope(declared.path)
        clauses = [it.split("//")[0] for it in declared.lines] if declared.is_trait() else []
        text = [declared.seen] if declared.seen else clauses
        words = [token.split(".")[0] for token in tokens_of(text)]
        types = [self.sources.type_named(declared.path, declared.target.crate, name) for name in declared.names()]
        return [scope[word] for word in words if word in scope and scope[word].kind != "module"] + [it for it in types if it]


def member(target: Target, word: str) -> Target:
    """A name behind the name of its file as that of a definition."""
    return Target("spec", target.crate, target.module, word) if target.kind == "module" else target


def library_word(target: Target) -> str:
    """A name of the library without the places of its operands."""
    return next(it for it in target.name.split("◌") if it)


def in_groups(items: Iterable[Item]) -> list[list[Item]]:
    """Types and definitions in order, those of one group together where the first of them stands, in the order of their file.
    """
    kept = list(items)
    members: dict[object, list[Item]] = {}
    for it in kept:
        members.setdefault(group_of(it), []).append(it)
    for found in members.values():
        found.sort(key=lambda it: it.line if isinstance(it, Definition) else 0)
    return list(members.values())


def group_of(item: Item) -> object:
    """What definitions of one outermost group have in common, and of any other item itself."""
    if isinstance(item, Definition) and item.groups:
        return (item.target.crate, item.target.module, item.groups[0].number)
    return item.target


def without_comment(items: Iterable[Item], library: Library) -> list[str]:
    """What has no comment, with its place."""
    found = []
    for it in items:
        if isinstance(it, Declared):
            found += [] if it.comment else [(it.path, 0, it.target.name)]
            continue
        file: SpecFile = library.file(it.target.crate, it.target.module)
        group = it.groups[-1] if it.groups else None
        is_first = group and next(other for other in file.definitions if group in other.groups) is it
        if not it.comment and not (group and group.comment and is_first):
            found.append((file.path, it.line, it.target.name))
    return [f"{path.relative_to(library.top)}:{line}: {name} has no comment" for path, line, name in sorted(found)]
