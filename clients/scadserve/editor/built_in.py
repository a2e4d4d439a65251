"""What is built in, and what is left out: the names, and what docs/OPENSCAD.md says of each."""

from __future__ import annotations

import os
import re
from functools import lru_cache
from typing import Iterator, NamedTuple

from ..source.details import COUNTS, PARAMETERS
from ..source.tokens import RESERVED
from ..top import TOP

DOCUMENT = os.path.join(TOP, "docs", "OPENSCAD.md")

FUNCTIONS = frozenset([*(it.decode() for it in COUNTS), "concat"])
MODULES = frozenset([*(it.decode() for it in PARAMETERS), "echo"])
KEYWORDS = frozenset(it.decode() for it in RESERVED)
SPECIAL = frozenset(["$fn", "$children"])
#: What the profile leaves out, as docs/LANGUAGE.md has it.
LEFT_OUT_FUNCTIONS = frozenset(
    "str chr ord sin cos tan asin acos atan atan2 sqrt exp ln log rands norm cross search lookup is_string is_function version "
    "version_num parent_module".split()
)
LEFT_OUT_MODULES = frozenset("sphere minkowski offset resize projection text surface import rotate_extrude".split())
LEFT_OUT = LEFT_OUT_FUNCTIONS | LEFT_OUT_MODULES | {"let", "each"}
ALL = FUNCTIONS | MODULES | KEYWORDS | SPECIAL | LEFT_OUT

_FORM = re.compile(r"`([^`]+)`")
_NAME = re.compile(r"\$?[A-Za-z_][A-Za-z0-9_]*")
_LINK = re.compile(r"\[([^]]+)\]\([^)]*\)")


class Entry(NamedTuple):
    """What the page says of a form: how it is written, and a line of it, which may be empty."""

    forms: tuple[str, ...]
    said: str


@lru_cache(maxsize=None)
def entries(document: str = DOCUMENT) -> dict[str, list[Entry]]:
    """The entries of the page by name. There are none where the page isn't there."""
    try:
        with open(document, encoding="utf-8") as it:
            page = it.read()
    except OSError:
        return {}
    found: dict[str, list[Entry]] = {}
    for name, entry in [*_of_cheat_sheet(page), *_of_what_is_missed(page)]:
        found.setdefault(name, []).append(entry)
    return found


def _of_cheat_sheet(page: str) -> Iterator[tuple[str, Entry]]:
    for forms, said in _rows(page, "Cheat sheet"):
        written = tuple(_FORM.findall(forms))
        for name in sorted({it for form in written for it in _names(form)}):
            of = tuple(it for it in written if name in _names(it))
            yield name, Entry(of, _plain(said))


def _of_what_is_missed(page: str) -> Iterator[tuple[str, Entry]]:
    """Of what is left out what is answered, and what is written instead."""
    for wrote, _, answer, instead in _rows(page, "What you will miss"):
        for form in _FORM.findall(wrote):
            name = _NAME.match(form)
            if name and name[0] in LEFT_OUT:
                yield name[0], Entry((), f"left out: {answer}. Instead: {_plain(instead)}")


def _names(form: str) -> set[str]:
    """The built-in names that a form is about: its first, and those words of the grammar that no name begins."""
    first = _NAME.match(form)
    return {it for it in ([first[0]] if first else []) + re.findall(r"\belse\b", form) if it in ALL}


def _rows(page: str, heading: str) -> Iterator[list[str]]:
    """The rows of the table of a section, without its head."""
    section = page.partition(f"\n## {heading}\n")[2].partition("\n## ")[0]
    for line in [it for it in section.splitlines() if it.startswith("|")][2:]:
        yield [it.strip() for it in re.split(r"(?<!\\)\|", line)[1:-1]]


def _plain(said: str) -> str:
    """A cell without links to other places of the page."""
    return _LINK.sub(r"\1", said).replace("\\|", "|")


def about(name: str, kind: str | None = None) -> str | None:
    """What is said about a built-in name, in Markdown; None where it is none."""
    if name not in ALL:
        return None
    found = entries().get(name, [])
    parameters = PARAMETERS.get(name.encode())
    is_module = kind != "function" and (name in MODULES or name in LEFT_OUT_MODULES)
    forms = [form for it in found for form in it.forms] or [name if name in KEYWORDS | SPECIAL else f"{name}(..)"]
    blocks = ["\n".join(["```openscad", *forms, "```"])]
    if parameters and is_module:
        blocks.append(f"parameters in order: {', '.join(f'`{it.decode()}`' for it in parameters)}")
    said = [it.said for it in found if it.said]
    if name in LEFT_OUT and not said:
        said = ["left out of this profile of OpenSCAD: NotInProfile. `--by-openscad` has OpenSCAD evaluate it"]
    return "\n\n".join([*blocks, *said])
