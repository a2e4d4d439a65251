"""Reads what contracts see of the sources: public calls with their clauses, types, and members of traits for them alone."""

from __future__ import annotations

import re
from pathlib import Path
from typing import Iterable, NamedTuple

from definitions import Failure, Target, import_of, tokens_of

RUST_USE = re.compile(r"^\s*(?:pub(?:\(crate\))? )?use ([^;]+);", re.MULTILINE)
HANDED_ON = re.compile(r"^pub use (\w+)::([^;]+);", re.MULTILINE)
# Types of the language and its library, which are written out on no page.
LIBRARY = set("Vec Option String Result Box Arc Mutex Rc Self Clone Copy Debug PartialEq Eq Drop PhantomData Hash Ord".split())


class Declared(NamedTuple):
    """A type or a trait of the sources: its comment, its text, what contracts see in its place, and what it names."""

    target: Target
    comment: tuple[str, ...]
    lines: tuple[str, ...]
    seen: str
    path: Path

    def is_trait(self) -> bool:
        """Whether it is a trait."""
        return " trait " in f" {self.lines[0]}"

    def names(self) -> list[str]:
        """The types that its text names; none where contracts see something else."""
        text = " ".join(it.split("//")[0] for it in self.lines)
        return [] if self.seen else [it for it in re.findall(r"\b[A-Z]\w+", text) if it != self.target.name]


class Call(NamedTuple):
    """A public call: its name, its comment, its signature with its clauses, and what the words of these lead to."""

    name: str
    comment: tuple[str, ...]
    lines: tuple[str, ...]
    scope: dict[str, Target]
    crate: str
    path: Path

    def clauses(self) -> tuple[str, ...]:
        """The names of its clauses in order."""
        return tuple(it[1] for it in (re.match(r"\s*ensures (\w+) \{", line) for line in self.lines) if it)

    def reached(self) -> list[Target]:
        """What the words of its clauses lead to, in order."""
        clauses = self.lines[self.signature() :]
        words = [token.split(".")[0] for line in clauses for token in tokens_of([line.split("//")[0]])]
        return [self.scope[word] for word in words if word in self.scope]

    def types(self) -> list[str]:
        """The types and traits that its signature names: the bounds of its parameters, what it takes and what it gives."""
        signature = " ".join(self.lines[: self.signature()])
        return [it for it in re.findall(r"\b[A-Z]\w+", signature) if it not in LIBRARY]

    def signature(self) -> int:
        """How many lines stand before its clauses."""
        clauses = [at for at, it in enumerate(self.lines) if re.match(r"\s*(?:ensures|requires) ", it)]
        return clauses[0] if clauses else len(self.lines)


class Sources:
    """The sources of all crates."""

    def __init__(self, top: Path) -> None:
        """The sources of a repository."""
        self.top = top
        self.texts: dict[Path, str] = {}
        self.scopes: dict[Path, dict[str, Target]] = {}
        self.listed: dict[str, list[Path]] = {}
        self.homes: dict[tuple[Path, str], Target | None] = {}
        self.types: dict[tuple[str, str], Declared] = {}

    def text(self, path: Path) -> str:
        """The text of a source, read once."""
        if path not in self.texts:
            self.texts[path] = path.read_text(encoding="utf-8")
        return self.texts[path]

    def scope(self, path: Path) -> dict[str, Target]:
        """The names that the ghost imports of a source bring."""
        if path not in self.scopes:
            lines = imports(self.text(path).splitlines())
            self.scopes[path] = {word: target for line in lines for word, target in import_of(line)}
        return self.scopes[path]

    def files(self, crate: str) -> list[Path]:
        """The files of a crate in order, listed once."""
        if crate not in self.listed:
            self.listed[crate] = sorted((self.top / "crates" / crate / "src").rglob("*.rt"))
        return self.listed[crate]

    def calls(self, pattern: str, crates: Iterable[str]) -> list[Call]:
        """The public calls of some crates whose first lines fit a pattern, in the order of their files and lines."""
        found = []
        for crate, path in [(crate, path) for crate in sorted(crates) for path in self.files(crate)]:
            lines = self.text(path).splitlines()
            for at in [at for at, line in enumerate(lines) if re.match(pattern, line)]:
                upto = next(it for it in range(at, len(lines)) if lines[it].strip() in ("{", "{}"))
                name = re.split(r"[(<]", lines[at].split("fn ")[1])[0]
                found.append(Call(name, comment_above(lines, at), tuple(lines[at:upto]), self.scope(path), crate, path))
        return found

    def declared(self, target: Target) -> Declared:
        """The type, trait or constant that a target names, looked for once."""
        if (target.crate, target.name) not in self.types:
            self.types[target.crate, target.name] = self.found(target)
        return self.types[target.crate, target.name]

    def found(self, target: Target) -> Declared:
        """The same: in the file that the target tells, or else the only one of the crate."""
        begins = re.compile(rf"\s*(?:pub(?:\(crate\))? )?(?:struct|enum|trait|const|type) {re.escape(target.name)}\b")
        told = self.top / "crates" / target.crate / "src" / (target.module.replace(".", "/") + ".rt")
        found = []
        for path in self.files(target.crate):
            lines = self.text(path).splitlines()
            found += [(path, lines, at) for at, it in enumerate(lines) if begins.match(it)]
        there = [it for it in found if it[0] == told] or found
        if len(there) != 1:
            raise Failure(f"{target.crate}: {len(found)} types are named {target.name}, and not 1")
        path, lines, at = there[0]
        home = Target("type", target.crate, "", target.name)
        return Declared(home, comment_above(lines, at), tuple(block(lines, at)), model(lines, target.name), path)

    def type_named(self, path: Path, crate: str, name: str) -> Target | None:
        """Where a type or a trait leads that a file names, by its imports; None where it is the library's or a variant."""
        if name in LIBRARY:
            return None
        if (path, name) not in self.homes:
            self.homes[path, name] = self.home(path, crate, name)
        return self.homes[path, name]

    def home(self, path: Path, crate: str, name: str) -> Target | None:
        """The same, by the text of the file."""
        text = self.text(path)
        home = next((used for used in RUST_USE.findall(text) if re.search(rf"\b{name}\b", used)), None)
        if home is not None:
            first = home.strip().split("::")[0]
            crate = crate if first in ("crate", "super", "self") else first
        elif not re.search(rf"\b(?:struct|enum|trait) {name}\b", text):
            return None
        return Target("type", self.declaring(crate, name), "", name) if (self.top / "crates" / crate).is_dir() else None

    def declaring(self, crate: str, name: str) -> str:
        """The crate that declares what a crate's root file hands on from a lower one; the crate itself where it hands on
        nothing so."""
        roots = [self.text(path) for path in self.files(crate) if path.name == "lib.rt"]
        for lower, used in [it for root in roots for it in HANDED_ON.findall(root)]:
            if re.search(rf"\b{name}\b", used) and (self.top / "crates" / lower).is_dir():
                return self.declaring(lower, name)
        return crate


def imports(lines: list[str]) -> list[str]:
    """The ghost imports of a file, each in one line."""
    return [" ".join(it.split()) for it in re.findall(r"^\s*ghost use [^;]*;", "\n".join(lines), re.MULTILINE)]


def comment_above(lines: list[str], at: int) -> tuple[str, ...]:
    """The comment that stands above a line, without its attributes."""
    found: list[str] = []
    while at > 0 and re.match(r"\s*(///?|#\[)", lines[at - 1]):
        at -= 1
        if "//" in lines[at]:
            found.insert(0, re.sub(r"^\s*///? ?", "", lines[at]))
    return tuple(found)


def block(lines: list[str], at: int) -> list[str]:
    """The lines from one on up to where its bracket closes, or its `;`."""
    depth = 0
    for upto in range(at, len(lines)):
        line = lines[upto].split("//")[0].rstrip()
        depth += line.count("{") + line.count("(") - line.count("}") - line.count(")")
        if depth == 0 and line.endswith((";", "}")):
            return lines[at : upto + 1]
    raise Failure(f"no end: {lines[at]}")


def model(lines: list[str], name: str) -> str:
    """What contracts see in place of a type, where its file says so."""
    value = rf"^impl(?:<[^{{]*>)? Model for {name}\b.*?ghost Value = \{{ (.*?) \}};"
    match = re.search(value, "\n".join(lines), re.MULTILINE | re.DOTALL)
    return " ".join(match[1].split()) if match else ""
