#!/usr/bin/env python3
"""Keeps the table of docs/GATE.md that says what is proved again after ten kinds of change: ./tools/again.py [--check]

A change begins in the lowest crates that it touches, and `rt ci` then proves these again and all that stand on them, by
crates.txt. Where docs/gate-times.txt is there, which is what tools/gate-times.sh printed, the table has their minutes too. With
--check nothing is written, and the status is 1 where the table is out of date. So it is, with or without the word, where a
change begins in no crate, where the page has no place for the table, where the times lack a crate, or where a fault word or a
command proves more again than it may. The status is 2 at other words.
"""

from __future__ import annotations

import re
import sys
from pathlib import Path
from typing import Iterator, NamedTuple

from house import House, read

TOP = Path(__file__).resolve().parent.parent
TIMES = "docs/gate-times.txt"
MADE = re.compile(r"(<!-- made by tools/again\.py -->\n).*?(<!-- end -->)", re.DOTALL)
GEOMETRY = ("planes", "trees", "solids", "boundary")


class Change(NamedTuple):
    """A kind of change: the lowest crates that it touches, how many crates it may prove again where that is bounded, and the
    layers of which it may prove none."""

    name: str
    begins: tuple[str, ...]
    most: int | None = None
    spares: tuple[str, ...] = ()


CHANGES = (
    Change("a fault word", ("text_place",), 47, (*GEOMETRY, "memo")),
    Change("a reply", ("reply_text",), 12, (*GEOMETRY, "shapes", "memo")),
    Change("a command", ("script_reader",), 12, (*GEOMETRY, "shapes")),
    Change("a built-in function", ("scad_builtin",)),
    Change("a module", ("scad_modules",)),
    Change("a primitive", ("primitives",)),
    Change("a limit of an export", ("export_limits",)),
    Change("a word of the command line", ("run_words",)),
    Change("a rule of evaluation", ("scad_func",)),
    Change("a cut of a polygon", ("plane_polygon", "plane_table")),
)


def proved_again(house: House, change: Change) -> list[str]:
    """The crates that are proved again, in the order of crates.txt."""
    begins = {*change.begins}
    return [it.name for it in house.crates.values() if it.name in begins or begins & {*house.reached(it)}]


def where(house: House, names: list[str]) -> str:
    """Crates by their layers, lowest first: the layer's name where all of its crates are among them."""
    found = []
    for layer, (name, _) in enumerate(house.layers):
        there = [it.name for it in house.of_layer(layer)]
        own = [it for it in there if it in names]
        if own:
            found.append(f"all of *{name}*" if own == there and len(own) > 1 else ", ".join(own))
    return "; ".join(found)


def times(top: Path) -> dict[str, float]:
    """The minutes of each crate's proofs, tests and wrong bodies, where their times are kept."""
    file = top / TIMES
    lines = file.read_text(encoding="utf-8").splitlines() if file.exists() else []
    rows = [re.fullmatch(r"([a-z_]+) +(\d+) +(\d+) +(\d+)", it) for it in lines]
    return {row[1]: sum(map(int, row.groups()[1:])) / 60 for row in rows if row}


def table(house: House, minutes: dict[str, float]) -> str:
    """The table, a row for each kind of change."""
    known = " | Minutes" if minutes else ""
    lines = [f"| Change | It begins in | Crates{known} | Which these are |", "|---|---|---|---|" + "---|" * bool(minutes)]
    for change in CHANGES:
        names = proved_again(house, change)
        took = f" | {sum(minutes.get(it, 0) for it in names):.0f}" if minutes else ""
        begins = ", ".join(f"`{it}`" for it in change.begins)
        lines.append(f"| {change.name} | {begins} | {len(names)}{took} | {where(house, names)} |")
    return "\n".join(lines) + "\n"


def faults(house: House, minutes: dict[str, float]) -> Iterator[str]:
    """What is wrong with the changes by the house as it is."""
    for change in CHANGES:
        for name in change.begins:
            if name not in house.crates:
                yield f"tools/again.py: {change.name} begins in {name}, which is no crate"
        names = proved_again(house, change)
        if change.most is not None and len(names) > change.most:
            yield f"crates.txt: {change.name} proves {len(names)} crates again, and may prove {change.most}"
        for name in names:
            layer = house.layers[house.crates[name].layer][0]
            if layer in change.spares:
                yield f"crates.txt: {change.name} proves {name} again, which is of {layer}"
    for name in house.crates if minutes else ():
        if name not in minutes:
            yield f"{TIMES}: it has no time of {name}"


def main(words: list[str], top: Path = TOP) -> int:
    if words not in ([], ["--check"]):
        print(__doc__, file=sys.stderr)
        return 2
    house, minutes = read(top), times(top)
    file = top / "docs" / "GATE.md"
    page = file.read_text(encoding="utf-8")
    anew = MADE.sub(lambda match: match[1] + table(house, minutes) + match[2], page)
    found = [*faults(house, minutes)]
    if not MADE.search(page):
        found.append("docs/GATE.md: it has no place for the table")
    if anew != page and words:
        found.append("docs/GATE.md: the table is out of date: tools/again.py")
    elif anew != page:
        file.write_text(anew, encoding="utf-8")
    for it in found:
        print(it)
    return 1 if found else 0


if __name__ == "__main__":
    sys.exit(main(sys.argv[1:]))
