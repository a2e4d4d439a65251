"""How pages lay out definitions and types: as they stand in their files, without words that say nothing to a reader.

`pub`, `abbrev` and `unfoldable` are left out; a comment of one line stands behind the line that it is of, where both fit; what
belongs to a definition is indented. A test compares the words with those of the files.
"""

from __future__ import annotations

import re
from typing import Iterable, Sequence

from definitions import Definition, Group
from reached import Item
from sources import Call, Declared

WIDE = 128
SILENT = re.compile(r"^(\s*)(?:abbrev |unfoldable )?(?:pub )?")
# A field of a record, or a variant or a field of a type, on one line, in whose type no value stands: a statement has its own;
# or a row of a table: an equation whose right side is one word, one text or a list of texts.
PLAIN = r"(?:[A-Zℕℤ]\w*|\([\w ]+ : [A-Zℕℤ]\w*\)|[()→ ])+"
SPELLED = r'codes "[^"]*"'
ROW = rf"\w+(?: (?:\w+|\(\w[\w ]*\)))+ = (?:\w+|{SPELLED}|(?:{SPELLED} ∷ )*\[\])"
ALONE = re.compile(rf"\s+(?:[\w' ]+ : {PLAIN}|\w+(?:: [\w<>, ]+)?,|\w+\([^{{}}]*\),|{ROW})")
# Definitions of at most this many lines stand below one another without an empty line between them.
SHORT = 5


def without_silent_words(line: str) -> str:
    """A line without the words at its front that only files and proofs take notice of."""
    return SILENT.sub(r"\1", line)


def margin_of(line: str) -> int:
    """How far a line is indented."""
    return len(line) - len(line.lstrip())


def with_comment(comment: Sequence[str], line: str, is_whole: bool, sign: str) -> list[str]:
    """A line with the comment that is of it: behind it where that is one line and both fit, and else above."""
    if len(comment) == 1 and is_whole and len(line) + len(sign) + len(comment[0]) + 3 <= WIDE:
        return [f"{line}  {sign} {comment[0]}"]
    return [*(f"{' ' * margin_of(line)}{sign} {it}".rstrip() for it in comment), line]


def with_comments(lines: Sequence[str], comment: Sequence[str], sign: str) -> list[str]:
    """Lines below their comment, each with the one that stands above it; what goes on in the next line is not whole."""
    found: list[str] = []
    above = list(comment)
    for at, line in enumerate(lines):
        if line.lstrip().startswith(sign):
            above.append(line.strip()[len(sign) :].lstrip("/").strip())
            continue
        following = next((it for it in lines[at + 1 :] if not it.lstrip().startswith(sign)), "")
        is_whole = line.endswith(("where", "{")) or margin_of(following) <= margin_of(line)
        found += with_comment(above, line, is_whole, sign)
        above = []
    return found


def laid_definition(definition: Definition) -> list[str]:
    """A definition: its comment, its type, and its equations, which are indented."""
    lines = [without_silent_words(it) for it in definition.lines]
    head = re.match(r"\s*(?:data|record) ", lines[0])
    margin = margin_of(lines[0])
    begins = f"{' ' * margin}{definition.target.name} "
    first = next((at for at, it in enumerate(lines) if at and it.startswith(begins)), len(lines))
    while first > 1 and first < len(lines) and lines[first - 1].startswith(f"{' ' * margin}--"):
        first -= 1
    if head:
        return packed(with_comments(lines, definition.comment, "--"), "--")
    signature = with_comments(lines[:first], definition.comment, "--")
    equations = [f"  {it}" for it in lines[first:] if not it.lstrip().startswith("unfolding ")]
    return signature + packed(with_comments(equations, (), "--"), "--")


def packed(lines: Sequence[str], sign: str) -> list[str]:
    """Lines in which members without a comment share lines: fields of a record, variants and fields of a type, or rows of a
    table."""
    found: list[str] = []
    joins = False
    for line, following in zip(lines, [*lines[1:], ""]):
        is_alone = sign not in line and bool(ALONE.fullmatch(line)) and margin_of(following) <= margin_of(line)
        if is_alone and joins and margin_of(found[-1]) == margin_of(line) and len(found[-1] + line.strip()) + 2 <= WIDE:
            found[-1] += f"{'' if line.endswith(',') else ';'} {line.strip()}"
        else:
            found.append(line)
        joins = is_alone
    return found


def laid_type(declared: Declared) -> list[str]:
    """A type or a trait: its comment, and its text or what contracts see of it."""
    lines = [without_silent_words(it) for it in declared.lines if not it.lstrip().startswith("#[") and it.strip()]
    if declared.seen:
        said = [f"// {it}".rstrip() for it in declared.comment]
        return [*said, re.split(r" ?[({;]", lines[0])[0] + f";  // a clause sees: {declared.seen}"]
    return packed(with_comments(lines, declared.comment, "//"), "//")


def laid_call(call: Call) -> list[str]:
    """A call with its clauses, as it stands in its source."""
    margin = margin_of(call.lines[0])
    return [*(f"/// {it}".rstrip() for it in call.comment), *(it[margin:] for it in call.lines if it.strip())]


def laid_items(groups: Iterable[Sequence[Item]]) -> tuple[list[str], dict[str, list[int]]]:
    """Groups of types and definitions in order, and by crate how many there are and how many lines they take."""
    found: list[str] = []
    sizes: dict[str, list[int]] = {}
    was_short = False
    for members in groups:
        lines = laid_group(members)
        is_short = len(lines) <= SHORT
        found += [""] if found and not (is_short and was_short) else []
        found += lines
        was_short = is_short
        size = sizes.setdefault(members[0].target.crate, [0, 0])
        size[0] += len(members)
        size[1] += len(lines)
    return found, sizes


def laid_group(members: Sequence[Item]) -> list[str]:
    """What stands together: one type, one definition, or those of a group below the lines round them."""
    found: list[str] = []
    groups: tuple[Group, ...] = ()
    for it in members:
        if isinstance(it, Declared):
            found += laid_type(it)
            continue
        for depth, group in enumerate(it.groups):
            if groups[depth : depth + 1] != (group,):
                found += with_comment(group.comment, without_silent_words(group.line), True, "--")
        groups = it.groups
        found += laid_definition(it)
    return found
