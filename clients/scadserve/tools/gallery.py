"""Makes the gallery again: from each source in `gallery/` its 4OFF text, its picture, its page to turn and its part of
docs/GALLERY.md.

    tools/gallery.sh              runs the sources by scad2off, and writes what they give
    tools/gallery.sh --compare    writes nothing, and says which files are not what they give
    tools/gallery.sh --kept       takes the kept texts in place of a run; with --compare too

The status is 0 where all was written or is as it was made, 1 where a part or a file differs, and 2 at faulty words or files.
"""

from __future__ import annotations

import argparse
import os
import re
import subprocess
import sys
import tempfile
from dataclasses import dataclass
from typing import Mapping, Sequence

from ..files import read_file, say, write_file
from ..openscad import front
from ..openscad import reader
from ..openscad.conversion import Wanted, converted
from ..solid import closing
from ..solid import fouroff
from ..solid.measures import box, shown, volume
from ..solid.merging import merged
from ..solid.meshes import mesh
from ..solid.surface import surface_of
from ..source.lengths import MILLIMETRE
from ..top import TOP
from ..view.drawing import VIEW, Camera, drawing
from ..view.page import page as turning_page
from ..view.page import Shown

#: The parts in the order of the page, with the azimuth and the elevation of the viewer in degrees.
PARTS: Mapping[str, tuple[float, float]] = {
    "bracket": VIEW,
    "plate": VIEW,
    "cups": VIEW,
    "dovetail": VIEW,
    "burr": VIEW,
    "house": VIEW,
    "heatsink": VIEW,
    "cabinet": VIEW,
    "brick": VIEW,
    "stair": VIEW,
    "hopper": VIEW,
    "menger": VIEW,
    "star": VIEW,
    "pulley": VIEW,
    "ring": VIEW,
    "enclosure": VIEW,
    "nut": VIEW,
    "bowl": VIEW,
}
#: Those of them that OpenSCAD's front end evaluates: their sources are made of those in `gallery/openscad/`.
ROUND = ("pulley", "ring", "enclosure", "nut", "bowl")
WIDTH = 480  # pixels
PAGE = "docs/GALLERY.md"
_INTRODUCTION = """# Gallery

{count} parts with their sources. `scad2off gallery/NAME.scad -o gallery/NAME.4off` made each part, and
`off2svg gallery/NAME.4off -o gallery/NAME.svg` made its picture. `off2html gallery/NAME.4off -o gallery/NAME.html` made a page
that turns the part by mouse, touch or keys and shows its corners. Triangles are those of `off2stl`. Boxes and volumes are
exact, in units and cubic units; a test compares them with values computed by hand. The last {rounds} are round: OpenSCAD
evaluates the files in `gallery/openscad/`, and `csg2scad` makes `gallery/NAME.scad` of the result. `tools/gallery.sh` makes all
files again, including this page, and `tools/gallery.sh --compare` compares them.

| Part | Faces | Triangles | Box | Volume |
|---|---|---|---|---|
"""


class BadText(ValueError):
    """A part's text is no 4OFF text."""


@dataclass(frozen=True)
class Entry:
    """A part of the gallery: its text, its picture, its page, what its source says of it, and what is counted."""

    name: str
    about: str
    text: bytes
    picture: str
    to_turn: bytes
    #: Faces, triangles, box and volume, as they are printed.
    facts: tuple[str, str, str, str]


def entry(name: str, source: bytes, text: bytes) -> Entry:
    """What the page shows of a part with this source and this 4OFF text; the first line of the source is a comment."""
    about = re.match(r"// (.+)", source.decode("ascii"))
    boundary = fouroff.read(text)
    rings = closing.close(boundary)
    sides = " x ".join(shown(high - low) for low, high in box(boundary))
    triangles = len(mesh(name, merged(surface_of(boundary, rings)), MILLIMETRE, "stl").triangles)
    inside = volume(boundary)
    return Entry(
        name,
        about[1] if about else "",
        text,
        drawing(boundary, rings, Camera(*PARTS[name]), WIDTH, name),
        turning_page(Shown(name, boundary, rings, inside, PARTS[name])),
        (str(len(boundary.faces)), str(triangles), sides, shown(*inside)),
    )


def page(entries: Sequence[Entry]) -> str:
    """The text of docs/GALLERY.md."""
    text = _INTRODUCTION.format(count=len(entries), rounds=len(ROUND))
    text += "".join(f"| [{it.name}](#{it.name}) | {' | '.join(it.facts)} |\n" for it in entries)
    for it in entries:
        faces, triangles, _, cubic = it.facts
        text += f"\n## {it.name}\n\n{it.about}\n\n![{it.name}](../gallery/{it.name}.svg)\n\n"
        origin = f"[OpenSCAD source](../gallery/openscad/{it.name}.scad), " if it.name in ROUND else ""
        text += f"[page to turn](../gallery/{it.name}.html), {origin}[source](../gallery/{it.name}.scad),"
        text += f" [4OFF](../gallery/{it.name}.4off): {faces} faces, {triangles} triangles, volume {cubic}\n"
    return text


def converted_sources() -> dict[str, bytes]:
    """The evaluated forms of the round parts, by OpenSCAD where it is installed and else as they are kept, and the sources that
    come of these, by their places in the project. Raises BadText."""
    files = {}
    for name in ROUND:
        place, kept = f"gallery/openscad/{name}.scad", f"gallery/openscad/{name}.csg"
        source = read_file(f"{TOP}/{place}")
        try:
            csg = front.evaluated(f"{TOP}/{place}")[0] if front.program() else read_file(f"{TOP}/{kept}").decode("ascii")
            found = converted(reader.read(csg), Wanted(), front.Front(f"{TOP}/gallery/openscad"))
        except reader.CsgFault as fault:
            raise BadText(f"{kept}:{fault}") from fault
        except front.NotEvaluated as fault:
            raise BadText(f"{place}: {str(fault).strip()}") from fault
        files[kept] = csg.encode("ascii")
        files[f"gallery/{name}.scad"] = source.splitlines(keepends=True)[0] + found.text
    return files


def made(texts: Mapping[str, bytes]) -> dict[str, bytes]:
    """The bytes of each file of the gallery but its sources, by its place in the project. Raises BadText."""
    sources = converted_sources()
    entries = []
    for name in PARTS:
        place = f"gallery/{name}.scad"
        try:
            entries.append(entry(name, sources[place] if name in ROUND else read_file(f"{TOP}/{place}"), texts[name]))
        except fouroff.Malformed as fault:
            raise BadText(f"gallery/{name}.4off:{fault}") from fault
    files = {PAGE: page(entries).encode("ascii"), **sources}
    for it in entries:
        files[f"gallery/{it.name}.4off"] = it.text
        files[f"gallery/{it.name}.svg"] = it.picture.encode("ascii")
        files[f"gallery/{it.name}.html"] = it.to_turn
    return files


def differences(files: Mapping[str, bytes]) -> list[str]:
    """The files whose bytes are not these, and what lies in `gallery/` beside them and the sources of parts."""
    differing = []
    for place, data in files.items():
        try:
            if read_file(f"{TOP}/{place}") != data:
                differing.append(f"{place} differs from what is made")
        except OSError as error:
            differing.append(f"{place}: {error.strerror}")
    known = {*files, *(f"gallery/{name}.scad" for name in PARTS), *(f"gallery/openscad/{name}.scad" for name in ROUND)}
    there = [f"gallery/{it}" for it in os.listdir(f"{TOP}/gallery") if it != "openscad"]
    there += [f"gallery/openscad/{it}" for it in os.listdir(f"{TOP}/gallery/openscad")]
    return differing + [f"{it} is not made" for it in sorted(there) if it not in known]


def run_texts() -> dict[str, bytes]:
    """The 4OFF texts that scad2off makes of the sources. Raises CalledProcessError where one has a fault."""
    with tempfile.TemporaryDirectory() as folder:
        of_round = converted_sources()
        sources = [f"{TOP}/gallery/{name}.scad" for name in PARTS if name not in ROUND]
        for name in ROUND:
            sources.append(f"{folder}/{name}.scad")
            write_file(sources[-1], of_round[f"gallery/{name}.scad"])
        subprocess.run([f"{TOP}/bin/scad2off", "-d", folder, *sources], check=True)
        return {name: read_file(f"{folder}/{name}.4off") for name in PARTS}


def kept_texts() -> dict[str, bytes]:
    """The 4OFF texts that are kept beside the sources."""
    return {name: read_file(f"{TOP}/gallery/{name}.4off") for name in PARTS}


def main(words: Sequence[str]) -> int:
    """Makes or compares the gallery as the words say; gives the status."""
    parser = argparse.ArgumentParser(prog="tools/gallery.sh", description="Makes the gallery again.", allow_abbrev=False)
    parser.add_argument("--compare", action="store_true", help="write nothing, and say what differs")
    parser.add_argument("--kept", action="store_true", help="take the kept 4OFF texts in place of a run of the sources")
    asked = parser.parse_args(words)
    try:
        files = made(kept_texts() if asked.kept else run_texts())
        if asked.compare:
            differing = differences(files)
            say("".join(f"{it}\n" for it in differing))
            print(f"{len(files)} files compared, {len(differing)} differ")
            return 1 if differing else 0
        for place, data in files.items():
            write_file(f"{TOP}/{place}", data)
    except subprocess.CalledProcessError as error:
        say(f"scad2off ended with status {error.returncode}\n")
        return 1
    except (OSError, BadText) as error:
        say(f"{error}\n")
        return 2
    print(f"{len(files)} files made")
    return 0


if __name__ == "__main__":
    sys.exit(main(sys.argv[1:]))
