#!/usr/bin/env python3
"""Writes the tables of crates in docs/PROOFS.md from what each crate says of itself, and that of the forms in docs/OPENSCAD.md
that OpenSCAD takes otherwise from docs/differences.txt: ./tools/pages.py [--check]

A crate's row has the first sentence of what its root file says, and the crates stand in the layers of crates.txt, as
tools/house.py reads them. With --check nothing is written, and the status is 1 where the tables are out of date. A crate that
says nothing of itself is status 1 in any case.
"""

from __future__ import annotations

import sys
from pathlib import Path
from typing import Callable

from house import House, read, summary

TOP = Path(__file__).resolve().parent.parent
sys.path.insert(0, str(TOP / "clients"))

from scadserve.source.differences import forms  # noqa: E402



class Failure(Exception):
    """A crate without a word of its own, or a page without its marks."""


def about(top: Path, crate: str) -> str:
    """The first sentence that a crate says of itself, for a row of a table."""
    said = summary(top, crate).replace("|", "\\|")
    if not said:
        raise Failure(f"crates/{crate} says nothing of itself: its root file begins with no //! line")
    return said


def tables(house: House, top: Path) -> str:
    """The tables of all crates, one for each layer."""
    lines: list[str] = []
    for layer, (name, purpose) in enumerate(house.layers):
        rows = [f"| `{it.name}` | {about(top, it.name)} |" for it in house.of_layer(layer)]
        lines += [f"**{name.capitalize()}:** {purpose}.", "", "| Crate | What it is |", "|---|---|", *rows, ""]
    return "\n".join(["", *lines])


def differences() -> str:
    """The table of the forms that differ, each with its first source."""
    lines = ["| Form | What differs | Source | OpenSCAD | Here |", "|---|---|---|---|---|"]
    for it in forms():
        row = it.rows[0]
        lines.append(f"| {it.name} | {it.says} | `{row.source}` | {row.there} | {row.here} |")
    return "\n".join(["", *lines, "", ""])


#: Each page with the marks between which what is written stands, and what that is.
WRITTEN: tuple[tuple[str, str, str, Callable[[], str]], ...] = (
    (
        "docs/PROOFS.md",
        "<!-- The tables of crates, written by tools/pages.py: -->\n",
        "<!-- End of the tables. -->\n",
        lambda: tables(read(TOP), TOP),
    ),
    (
        "docs/OPENSCAD.md",
        "<!-- The forms that differ, written by tools/pages.py: -->\n",
        "<!-- End of the forms. -->\n",
        differences,
    ),
)


def renewed(name: str, page: str, begin: str, end: str, written: str) -> str:
    """The page with what is written between its marks as it is now."""
    before, found, rest = page.partition(begin)
    _, ended, behind = rest.partition(end)
    if not found or not ended:
        raise Failure(f"{name} lacks the marks between which its tables stand")
    return before + begin + written + end + behind


def main(words: list[str]) -> int:
    """Writes or checks the tables, and gives the status."""
    if words not in ([], ["--check"]):
        print(__doc__, file=sys.stderr)
        return 2
    try:
        return max([_written(bool(words), *it) for it in WRITTEN])
    except Failure as failure:
        print(failure)
        return 1


def _written(is_check: bool, name: str, begin: str, end: str, write: Callable[[], str]) -> int:
    """Writes or checks a page, and gives the status. Raises Failure."""
    path = TOP / name
    page = path.read_text(encoding="utf-8")
    text = renewed(name, page, begin, end, write())
    if text != page and is_check:
        print(f"{name} is out of date: write its tables by ./tools/pages.py")
        return 1
    path.write_text(text, encoding="utf-8")
    return 0


if __name__ == "__main__":
    sys.exit(main(sys.argv[1:]))
