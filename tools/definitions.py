"""Reads the definitions that contracts cite, and follows names from one to the next.

A name is found by its import, and never by the file that it stands in: `use Rattle.CRATE.specs.A.B.{name}` leads to the file
A/B of a crate's specs/, and `specs.declared` to a type of its sources. A word that is neither bound, imported, defined beside
it nor part of the language is an error, so that nothing which a clause reaches is left out.
"""

from __future__ import annotations

import re
from pathlib import Path
from typing import Iterable, NamedTuple

TOKEN = re.compile(r'"(?:[^"\\]|\\.)*"|\[\]|[(){}\[\];,|](?!\|)|\|\||[^\s(){}\[\];,]+')
USE = re.compile(
    r"^\s*(?:pub |ghost )?use (?:Rattle\.)?(?P<path>[\w.]+?)(?:\.\{(?P<names>[^}]*)\})?(?: as (?P<alias>\w+))?;?$"
)
DECLARED = re.compile(
    r"^(?P<margin> *)(?P<kind>(?:abbrev |unfoldable )?(?:pub )?(?:data |record )?)(?P<name>[^\s:(){}]+) (?=:|\(|\{)"
)
GROUP = re.compile(r"^ *(?:abbrev |unfoldable )?(?:mutual|module _ .*where)$")
MODULE = re.compile(r"\s*(?:pub )?mod \w+$")
NAME = re.compile(r"[^\W\d][\w'-]*")
# Words of the language itself, and what is built into it.
LANGUAGE = set("data record where elim as let in Type λ refl then else pub abbrev unfoldable mutual module".split())
LANGUAGE |= set("× → ¬ ⊥ ∥ ∥₁ = : | ↦ _ Unit tt absurd".split())
# Names of the toolchain's library that stand for values in patterns; any other name there is a variable.
VALUES = set("zero suc [] ∷ Some None Ok Err true false pos negsuc tt inl inr Less Equal Greater".split())


class Failure(Exception):
    """A name that leads nowhere, or a form that is not known."""


class Token(str):
    """A word of some lines, with the number of its line and its column, both from 0."""

    line: int
    column: int


def token_at(text: str, line: int, column: int) -> Token:
    """A word with its place."""
    token = Token(text)
    token.line, token.column = line, column
    return token


class Target(NamedTuple):
    """Where a name leads: `spec`, a definition; `type`, a type of the sources; `module`, a file of definitions."""

    kind: str
    crate: str
    module: str
    name: str


class Group(NamedTuple):
    """A line round definitions, by its number: `mutual`, or parameters that all of them take; with its comment."""

    number: int
    margin: int
    line: str
    comment: tuple[str, ...]


class Definition(NamedTuple):
    """A definition as it stands in its file."""

    target: Target
    comment: tuple[str, ...]
    lines: tuple[str, ...]
    groups: tuple[Group, ...]
    names: tuple[str, ...]  # its own name, and those of its variants
    line: int
    section: tuple[str, ...]  # what the file says of it and of what follows


def tokens_of(lines: Iterable[str], first: int = 0, column: int = 0) -> list[Token]:
    """The words of some lines, without comments. The first line has this number, and each begins at this column."""
    found: list[Token] = []
    for number, line in enumerate(lines, first):
        for match in TOKEN.finditer(line):
            if match[0] == "--":
                break
            found.append(token_at(match[0], number, column + match.start()))
    return found


def import_of(line: str) -> list[tuple[str, Target]]:
    """The names that a line of imports brings, each with its target; none where it is no such line."""
    match = USE.match(line)
    if not match:
        return []
    crate, *rest = match["path"].split(".")
    path = rest[1:] if rest[:1] == ["specs"] else rest
    if match["names"] is None:
        return [(match["alias"] or path[-1], target_in(crate, path, ""))]
    found = []
    for item in match["names"].split(","):
        name, _, alias = item.strip().partition(" as ")
        target = target_in(crate, path, name)
        for word in [it for it in (alias or name).split("◌") if it]:
            found.append((word.split("::")[-1], target))
    return found


def target_in(crate: str, path: list[str], name: str) -> Target:
    """The target of a name in a module, or of the module where the name is empty."""
    if path[:1] == ["declared"]:
        inner = [it for it in path[1:] if it not in ("TheVariants", "TheOpen", "TheFolds")]
        return Target("type", crate, ".".join(inner[:-1]), inner[-1] if inner else name)
    return Target("spec" if name else "module", crate, ".".join(path), name)


class SpecFile:
    """One file of definitions: what it says of itself, what it imports, and what it defines."""

    def __init__(self, crate: str, module: str, path: Path) -> None:
        """Reads the file. Raises Failure at a form that is not known."""
        self.crate, self.module, self.path = crate, module, path
        self.scope: dict[str, Target] = {}
        self.renamed: dict[str, str] = {}
        self.definitions: list[Definition] = []
        self.heading: list[str] = []
        self.section: list[str] = []
        self.groups: list[Group] = []
        lines, at = path.read_text(encoding="utf-8").splitlines(), 0
        comment: list[str] = []
        while at < len(lines):
            at, comment = self.read(lines, at, comment)

    def read(self, lines: list[str], at: int, comment: list[str]) -> tuple[int, list[str]]:
        """Reads what begins at a line below a comment, and gives the line behind it, with the comment above that."""
        line = lines[at]
        margin = len(line) - len(line.lstrip())
        if line.lstrip().startswith("--"):
            return at + 1, [*comment, line.strip()[2:].strip()]
        if line.strip():
            self.groups = [it for it in self.groups if it.margin < margin]
        if GROUP.match(line):
            self.groups.append(Group(at, margin, line, tuple(comment)))
        elif not line.strip() or import_of(line) or MODULE.match(line):
            self.keep(comment)
            self.scope.update(import_of(line))
            self.renamed.update((alias, name) for name, alias in re.findall(r"(\S+) as (\w+)", line))
        elif not line.lstrip().startswith("unfolding "):
            return self.read_definition(lines, at, comment), []
        return at + 1, []

    def keep(self, comment: list[str]) -> None:
        """Keeps a comment that stands above no definition: the first one is of the file, a later one of what follows."""
        if comment and not self.heading and not self.definitions:
            self.heading = comment
        elif comment:
            self.section = comment

    def read_definition(self, lines: list[str], at: int, comment: list[str]) -> int:
        """Reads the definition that begins at a line, and gives the line behind it."""
        match = DECLARED.match(lines[at])
        if not match:
            raise Failure(f"{self.path}:{at + 1}: a form that is not known: {lines[at]}")
        margin, name = match["margin"], match["name"]
        upto = at + 1
        while upto < len(lines) and belongs(lines, upto, margin, name):
            upto += 1
        body = tuple(lines[at:upto])
        names = [name]
        if "data" in match["kind"]:
            variants = [re.match(rf"{margin}  (?!--)([^:(){{}}]+) : ", it) for it in body[1:]]
            names += [word for it in variants if it for word in it[1].split()]
        target = Target("spec", self.crate, self.module, name)
        section, groups = tuple(self.section), tuple(self.groups)
        self.definitions.append(Definition(target, tuple(comment), body, groups, tuple(names), at + 1, section))
        self.scope.update((it, target) for it in names)
        return upto


def belongs(lines: list[str], at: int, margin: str, name: str) -> bool:
    """Whether a line goes on with the definition above it: deeper, an equation, a closing bracket, or a comment of these."""
    line = lines[at]
    if line.startswith(margin + "--"):
        behind = at + 1 < len(lines) and not lines[at + 1].startswith(margin + "  ")
        return behind and belongs(lines, at + 1, margin, name)
    return line.startswith(tuple(margin + it for it in ("  ", name + " ", "unfolding ", ")", "}")))


class Library:
    """All definitions of the crates, read as they are reached."""

    def __init__(self, top: Path) -> None:
        """The library of a repository."""
        self.top = top
        self.crates = {it.name for it in (top / "crates").iterdir() if it.is_dir()}
        self.files: dict[tuple[str, str], SpecFile] = {}
        self.walked: dict[Target, list[tuple[Target, str, Token]]] = {}

    def file(self, crate: str, module: str) -> SpecFile:
        """A file of definitions, read once."""
        if (crate, module) not in self.files:
            path = self.top / "crates" / crate / "specs" / (module.replace(".", "/") + ".antt")
            self.files[crate, module] = SpecFile(crate, module, path)
        return self.files[crate, module]

    def definition(self, target: Target) -> Definition | None:
        """The definition that a name leads to, also through a file that passes it on."""
        file = self.file(target.crate, target.module)
        for it in file.definitions:
            if target.name in it.names:
                return it
        passed_on = file.scope.get(target.name)
        return self.definition(passed_on) if passed_on and passed_on != target and passed_on.crate in self.crates else None

    def is_variant(self, file: SpecFile, token: str) -> bool:
        """Whether a name that a file has in scope stands for a variant of a type."""
        first, *rest = token.split(".")
        target = file.scope[first]
        if target.kind == "type":
            return bool(rest) or first != target.name
        found = self.definition(target) if target.kind == "spec" and target.crate in self.crates else None
        return found is not None and bool({target.name, first} & set(found.names[1:]))

    def reached_by(self, definition: Definition) -> list[tuple[Target, str]]:
        """The names that a definition reaches, in the order of its words, each with the word."""
        return [(target, word) for target, word, _ in self.named_in(definition) if target != definition.target]

    def named_in(self, definition: Definition) -> list[tuple[Target, str, Token]]:
        """The names that a definition and the lines round it have, its own among them, each with its word and its place: the
        line from 0, and below 0 in a line round it. Each definition is walked once."""
        if definition.target not in self.walked:
            self.walked[definition.target] = self.walk_over(definition)
        return self.walked[definition.target]

    def walk_over(self, definition: Definition) -> list[tuple[Target, str, Token]]:
        """The same, by a walk over its words."""
        walk = Walk(self, self.file(definition.target.crate, definition.target.module))
        for depth, group in enumerate(definition.groups):
            before, sign, parameters = group.line.partition(" _ ")
            walk.walk(tokens_of([parameters.replace(" where", "")], depth - len(definition.groups), len(before + sign)))
        signature, equations = divided(definition)
        walk.walk(signature)
        for equation in equations:
            walk.frames.append(set())
            ends = end_of_patterns(equation)
            walk.patterns(equation[1:ends])
            walk.walk(equation[ends + 1 :])
            walk.frames.pop()
        return walk.found


class Walk:
    """Walks over the words of one definition, and finds the names that it reaches. A frame for each open bracket has what is
    bound in it; what a binder binds holds up to the end of the bracket round it."""

    def __init__(self, library: Library, file: SpecFile) -> None:
        """A walk over words of this file, in which nothing is bound yet."""
        self.library, self.file = library, file
        self.frames: list[set[str]] = [set()]
        self.found: list[tuple[Target, str, Token]] = []

    def walk(self, tokens: list[Token]) -> None:
        """Goes over all words."""
        at = 0
        while at < len(tokens):
            at = self.step(tokens, at)

    def step(self, tokens: list[Token], at: int) -> int:
        """Goes over one word, or over what a binder binds, and gives the place behind it."""
        token = tokens[at]
        following = tokens[at + 1] if at + 1 < len(tokens) else ""
        if token in "({":
            names = bound_names(tokens, at + 1)
            self.frames[-1].update(names)
            self.frames.append(set())
            return at + 1 + len(names)
        if token in ")}":
            self.frames.pop()
        elif token == "λ":
            return self.binder(tokens, at + 1)
        elif token == "let":
            self.frames[-1].add(following)
            return at + 2
        elif token in "[|":
            return self.case(tokens, at)
        elif following == "=" and at > 0 and tokens[at - 1] in "{;":
            return at + 2
        else:
            self.word(token)
        return at + 1

    def case(self, tokens: list[Token], at: int) -> int:
        """Goes over the pattern of a case, where one stands behind this bracket or stroke."""
        upto = tokens.index("↦", at) if "↦" in tokens[at:] else at
        if upto == at or set(tokens[at + 1 : upto]) & {"[", "|", "]"}:
            return at + 1
        self.patterns(tokens[at + 1 : upto])
        return upto + 1

    def binder(self, tokens: list[Token], at: int) -> int:
        """Binds the names of a function, up to the word that ends with a dot."""
        while not tokens[at].endswith("."):
            self.frames[-1].update(NAME.findall(tokens[at]))
            at += 1
        self.frames[-1].update(NAME.findall(tokens[at]))
        return at + 1

    def patterns(self, tokens: list[Token]) -> None:
        """The patterns of an equation: names of variants are reached, all others are bound."""
        for token in tokens:
            word = token.split(".")[0]
            target = self.file.scope.get(word)
            if target and (word in VALUES or self.library.is_variant(self.file, token)):
                self.found.append((target, token.split(".")[-1], token))
            elif NAME.match(word):
                self.frames[-1].add(word)

    def word(self, token: Token) -> None:
        """A word that isn't bound is reached; one that leads nowhere is an error."""
        first, *rest = token.split(".")
        is_none = not first or first[0].isdigit() or first[0] == '"' or token in LANGUAGE or token in ",;[]"
        if (is_none and token not in self.file.scope) or any(first in frame for frame in self.frames):
            return
        target = self.file.scope.get(token) or self.file.scope.get(first)
        if target is None:
            raise Failure(f"{self.file.path}: {token} leads nowhere")
        self.found.append((target, rest[0] if rest and target.kind in ("module", "type") else first, token))


def bound_names(tokens: list[Token], at: int) -> list[str]:
    """The names that a bracket binds: those before its `:`."""
    names: list[str] = []
    while at < len(tokens) and NAME.fullmatch(tokens[at]):
        names.append(tokens[at])
        at += 1
    return names if at < len(tokens) and tokens[at] == ":" else []


def divided(definition: Definition) -> tuple[list[Token], list[list[Token]]]:
    """The words of a definition's signature, or of all of a record or a type, and those of each of its equations."""
    lines = definition.lines
    if re.match(r"\s*(?:abbrev |unfoldable )?(?:pub )?(?:data|record) ", lines[0]):
        return fields_of(definition), []
    margin = len(lines[0]) - len(lines[0].lstrip())
    begins = " " * margin + definition.target.name + " "
    starts = [at for at, it in enumerate(lines) if at and it.startswith(begins)]
    signature = tokens_of(lines[: starts[0]] if starts else lines)
    equations = [tokens_of(lines[a:b], a) for a, b in zip(starts, starts[1:] + [len(lines)])]
    return signature[signature.index(":") + 1 :], equations


def end_of_patterns(equation: list[Token]) -> int:
    """Where the `=` of an equation stands: the first one outside of brackets."""
    depth = 0
    for at, token in enumerate(equation):
        depth += (token in "({") - (token in ")}")
        if token == "=" and not depth:
            return at
    raise Failure(f"no equation: {' '.join(equation)}")


def fields_of(definition: Definition) -> list[Token]:
    """The words of a record or a type: each field or variant binds its name for what follows."""
    lines = definition.lines
    header = next((at + 1 for at, it in enumerate(lines) if it.endswith(" where")), len(lines))
    skipped = ("abbrev", "unfoldable", "pub", "data", "record", "where", definition.target.name)
    found = [it for it in tokens_of(lines[:header]) if it not in skipped]
    for number, line in enumerate(lines[header:], header):
        match = re.match(r"\s+(?!--)(?:pub )?([^:(){}]+) : (.*)$", line)
        if match:
            names = tokens_of([match[1]], number, match.start(1))
            found += [it for name in names for it in (token_at("let", number, name.column), name)]
            found += tokens_of([match[2]], number, match.start(2))
        else:
            found += tokens_of([line], number)
    return found
