#!/usr/bin/env python3
"""Keeps the rooms of the Python package in their order: ./tools/rooms.py

A room is a folder of `clients/scadserve`, or a module beside these. `ROOMS` has for each room the rooms below it that its
modules may import; every import counts, also one inside a function and one for types alone. Each fault is a line on standard
output, and then the status is 1:

- a module that imports from a room that its own may not import;
- a room that the table lacks, and a room of the table that is not there;
- a room that may import one which the table doesn't list before it, so that no imports go in a circle;
- a room that may import one and never does.
"""

from __future__ import annotations

import ast
import sys
from pathlib import Path
from typing import Iterator, Mapping, Sequence

PACKAGE = Path(__file__).resolve().parent.parent / "clients" / "scadserve"
#: The rooms, the lowest first, with the rooms that each may import.
ROOMS: Mapping[str, Sequence[str]] = {
    "top": (),
    "version": (),
    "files": (),
    "ending": ("files",),
    "solid": (),
    "view": ("solid",),
    "server": ("top",),
    "source": ("top", "files", "server"),
    "openscad": ("top", "source"),
    "tiles": ("files", "solid", "server", "openscad"),
    "calls": ("version", "files", "ending", "solid", "server", "source", "openscad", "tiles"),
    "solving": ("solid", "server", "source", "openscad", "calls"),
    "live": ("version", "files", "ending", "solid", "view", "server", "source", "openscad", "calls"),
    "editor": ("top", "version", "files", "server", "source"),
    "tools": (
        "top",
        "version",
        "files",
        "ending",
        "solid",
        "view",
        "server",
        "source",
        "openscad",
        "tiles",
        "calls",
        "live",
        "editor",
    ),
    "__init__": ("server", "source", "solving"),
}


def room_of(module: Path) -> str:
    """The room of a module, whose path is one inside the package."""
    return module.parts[0] if len(module.parts) > 1 else module.stem


def imported(module: Path, text: str) -> Iterator[tuple[int, str]]:
    """The other rooms that a module imports from, each with the line."""
    folder = ("scadserve", *module.parts[:-1])
    for node in ast.walk(ast.parse(text)):
        if isinstance(node, ast.Import):
            names = [it.name.split(".") for it in node.names]
        elif isinstance(node, ast.ImportFrom):
            base = [*folder[: len(folder) + 1 - node.level]] if node.level else []
            whole = [*base, *(node.module or "").split(".")] if node.module else base
            names = [[*whole, it.name] for it in node.names]
        else:
            continue
        for name in names:
            if len(name) > 1 and name[0] == "scadserve" and name[1] != room_of(module):
                yield node.lineno, name[1]


def faults(package: Path, rooms: Mapping[str, Sequence[str]]) -> Iterator[str]:
    """What is wrong with a package by a table of rooms."""
    below: list[str] = []
    for room, may in rooms.items():
        for name in may:
            if name not in below:
                yield f"{room} may import {name}, which the table doesn't list before it"
        below.append(room)
    used: set[tuple[str, str]] = set()
    there: set[str] = set()
    for file in sorted(package.rglob("*.py")):
        module = file.relative_to(package)
        room = room_of(module)
        there.add(room)
        for line, name in imported(module, file.read_text(encoding="utf-8")):
            used.add((room, name))
            if name not in rooms.get(room, ()):
                yield f"{module}:{line}: {room} may not import {name}"
    for room in sorted(there.symmetric_difference(rooms)):
        yield f"{room} is {'not in the table' if room in there else 'in the table, and not there'}"
    for room, may in rooms.items():
        for name in may:
            if room in there and (room, name) not in used:
                yield f"{room} may import {name}, and never does"


def main() -> int:
    """The status, with the faults printed."""
    found = [*faults(PACKAGE, ROOMS)]
    for fault in found:
        print(fault)
    return 1 if found else 0


if __name__ == "__main__":
    sys.exit(main())
