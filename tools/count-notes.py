#!/usr/bin/env python3
"""Counts the notes of sources that OpenSCAD and the program both make solids of, and those that are false: tools/count-notes.py
[FILE ..]

Without a FILE it takes the examples and the library that OpenSCAD ships. A note is false where both solids have one volume and
one box. What isn't a program, or has a fault or a solid on one side alone, is counted by its notes too, which nobody can tell
false from true. Each note is printed. The status is 0 where at most one source in a hundred has a false note, and 2 where
OpenSCAD or a file is missing.
"""

from __future__ import annotations

import glob
import os
import shutil
import subprocess
import sys
import tempfile
from pathlib import Path

TOP = os.path.dirname(os.path.dirname(os.path.realpath(__file__)))
sys.path.insert(0, os.path.join(TOP, "clients"))

from scadserve import Solid, solve  # noqa: E402
from scadserve.source.notes import Note, notes_of  # noqa: E402
from scadserve.source.reading import read_source  # noqa: E402
from scadserve.source.sources import Refused  # noqa: E402
from tests.against_openscad import of_off  # noqa: E402

SHIPPED = "/usr/share/openscad"
FOLDERS = [f"{SHIPPED}/libraries"]
# A length that OpenSCAD's six digits leave open, as a share.
_SHARE = 1e-5


def notes(file: str) -> list[Note] | None:
    """The notes of a source; None where it can't be read."""
    try:
        return notes_of(read_source(file, (), FOLDERS))
    except (OSError, Refused):
        return None


def is_same(file: str, ours: Solid) -> bool | None:
    """Whether OpenSCAD's solid has the same volume and box; None where it makes none."""
    with tempfile.TemporaryDirectory() as folder:
        out = os.path.join(folder, "part.off")
        subprocess.run(["openscad", "-o", out, file], capture_output=True, check=False, timeout=600)
        if not os.path.exists(out):
            return None if ours.faces else True
        with open(out, encoding="ascii") as it:
            theirs = of_off(it.read())
    if ours.box is None:
        return not theirs.triangles
    size = max(abs(end) for axis in theirs.box() for end in axis) + 1
    ends = [(float(low), float(high)) for low, high in zip(*ours.box)]
    is_box = all(abs(a - b) <= size * _SHARE for own, other in zip(ends, theirs.box()) for a, b in zip(own, other))
    return is_box and abs(float(ours.volume) - theirs.volume()) <= theirs.surface() * size * _SHARE


def main(words: list[str]) -> int:
    files = words or sorted(glob.glob(f"{SHIPPED}/**/*.scad", recursive=True))
    if not files or not shutil.which("openscad") or not all(map(os.path.exists, files)):
        print(__doc__, file=sys.stderr)
        return 2
    found = {file: notes(file) for file in files}
    read = [file for file, it in found.items() if it is not None]
    solids = [it for it in zip(read, solve(map(Path, read), folders=FOLDERS)) if isinstance(it[1], Solid)]
    compared, false = 0, 0
    for file, solid in solids:
        same = is_same(file, solid)
        compared += same is not None
        false += bool(same and found[file])
        print(f"{file}: {len(found[file] or [])} notes, {'the same solid' if same else 'another solid, or none, there'}")
    for it in (note for file in read for note in found[file] or []):
        print(it.told(), end="")
    count = sum(bool(found[file]) for file in read)
    print(f"{len(files)} sources, {len(read)} read, {count} with notes; {compared} solids on both sides, {false} with a false "
          f"note")
    return 0 if 100 * false <= max(compared, 1) else 1


if __name__ == "__main__":
    sys.exit(main(sys.argv[1:]))
