"""The forms of sources that OpenSCAD takes otherwise, as docs/differences.txt has them."""

from __future__ import annotations

import os
from dataclasses import dataclass, field
from typing import Iterator

from ..top import TOP

PAGE = os.path.join(TOP, "docs", "differences.txt")


@dataclass
class Row:
    """A source in a form: what OpenSCAD makes of it and what is made here, and where a note stands, as LINE:COLUMN."""

    source: str
    there: str = ""
    here: str = ""
    at: list[str] = field(default_factory=list)


@dataclass
class Form:
    """A form: its name, what differs, in a sentence, why it is so, and its rows."""

    name: str
    says: str = ""
    why: str = ""
    rows: list[Row] = field(default_factory=list)


def forms() -> list[Form]:
    """All forms, in order. Raises OSError."""
    with open(PAGE, encoding="utf-8") as it:
        return list(_read(it.read()))


def _read(text: str) -> Iterator[Form]:
    """The forms of a text: a line that begins with a word and goes on with what it says; blank lines and those of `#` are
    left out."""
    form: Form | None = None
    for line in text.splitlines():
        word, _, said = line.strip().partition(" ")
        if word == "form":
            if form is not None:
                yield form
            form = Form(said)
        elif form is None or not word or word == "#":
            continue
        elif word == "row":
            form.rows.append(Row(said))
        elif word == "at":
            form.rows[-1].at = said.split()
        elif word in ("there", "here"):
            setattr(form.rows[-1], word, said)
        elif word in ("says", "why"):
            setattr(form, word, f"{getattr(form, word)} {said}".lstrip())
        else:
            raise ValueError(f"{PAGE} has a line of {word!r}")
    if form is not None:
        yield form


def explained(name: str) -> str | None:
    """What is said about a form by its name; None where there is none. Raises OSError."""
    for it in forms():
        if it.name == name:
            rows = "".join(f"\n    {row.source}\n    OpenSCAD: {row.there}\n    here: {row.here}\n" for row in it.rows)
            return f"{it.name}: {it.says}.\n\n{it.why}\n{rows}"
    return None
