#!/usr/bin/env python3
"""Compares what `scad2off --by-openscad` gives with what OpenSCAD makes of the same sources: box, volume, points, closed
meshes.

    tools/compare-openscad.py [--kept DIR] [--jobs N] [--longest SECONDS] [--solids] [FILE.scad | DIR ..]

Without a FILE it takes bench/openscad and the examples that OpenSCAD ships, and of a folder all sources in it. A row of a table
is printed for each: whether it passes, how many seconds both took (ours by the clock and of all processors, OpenSCAD's of its
one), of how many tiles ours is made, the step of its grid, how far a point may be off, also as a share of the part's size, what
OpenSCAD makes of it, and what stops it or differs. Where OpenSCAD makes no solid, a refusal passes; what it makes of a plan is
that of `linear_extrude(1)`. DIR keeps OpenSCAD's meshes, which may take minutes. N is the number of runs of the server side by
side. A program that takes more SECONDS of a processor (600) is ended. With `--solids` ours is made only where OpenSCAD makes a
solid with a closed mesh, and says no error.

The last lines count how many pass, how many were made of which nothing but rounding to the grid moves a point, of how many
OpenSCAD makes a solid with a closed mesh, and how many of these pass with no point off by more than a thousandth of their size.
The status is 0 where nothing differs, 1 where something does, and 2 where openscad, admesh or a file is missing.
"""

import argparse
import glob
import math
import os
import re
import resource
import shutil
import subprocess
import sys
import tempfile
import time
from collections import Counter
from typing import NamedTuple

TOP = os.path.dirname(os.path.dirname(os.path.realpath(__file__)))
sys.path.insert(0, os.path.join(TOP, "clients"))

from fractions import Fraction  # noqa: E402

from scadserve.openscad import front, reader  # noqa: E402
from tests.against_openscad import differences, of_4off, of_off  # noqa: E402

EXAMPLES = "/usr/share/openscad/examples/*/*.scad"


class Row(NamedTuple):
    """What is found of a source: its row, whether it passes, what OpenSCAD makes of it, whether it passes within a thousandth
    of its size, and whether nothing but rounding moves a point, or None where none is made."""

    cells: list[str]
    passes: bool | None
    made: str
    is_fine: bool = False
    is_rounded: bool | None = None


def spent():
    """The processor seconds of all programs that have ended."""
    used = resource.getrusage(resource.RUSAGE_CHILDREN)
    return used.ru_utime + used.ru_stime


def timed(words, longest):
    """How many processor seconds a program takes, its status and what it says on standard error and output. It is ended after
    this many of them, however busy the machine is."""
    began = spent()
    done = subprocess.run(
        words, stdin=subprocess.DEVNULL, stdout=subprocess.PIPE, stderr=subprocess.PIPE, check=False,
        preexec_fn=lambda: resource.setrlimit(resource.RLIMIT_CPU, (longest, longest)),
    )  # fmt: skip
    return spent() - began, done.returncode, done.stderr.decode("utf-8", "replace"), done.stdout.decode("utf-8", "replace")


def evaluated_form(file):
    """The evaluated form of a source, with whole names of the files that it imports."""
    nodes = reader.read(front.evaluated(file)[0])
    names = {str(it.arguments["file"]) for node in nodes for it in node.all() if "file" in it.arguments}
    return reader.printed(nodes, {it: os.path.join(os.path.dirname(os.path.abspath(file)), it) for it in names})


def theirs(file, base, longest):
    """OpenSCAD's mesh of a source as a text, "" where it makes none, and how long it takes; whether the source is a plan, and
    whether OpenSCAD says an error."""
    if not os.path.exists(base + ".time"):
        took, status, said, _ = timed(["openscad", "--render", "-o", base + ".off", file], longest)
        is_plan = status != 0 and "not a 3D object" in said
        if is_plan:
            wrapped = base + "-plan.scad"
            with open(wrapped, "w", encoding="utf-8") as it:
                it.write(f"linear_extrude(1) {{ {evaluated_form(file)} }}\n")
            took, status, said, _ = timed(["openscad", "--render", "-o", base + ".off", wrapped], longest)
        with open(base + ".time", "w", encoding="utf-8") as it:
            it.write(f"{took:.2f} {int(is_plan)} {int('ERROR' in said)}")
    with open(base + ".time", encoding="utf-8") as it:
        took, is_plan, is_wrong = map(float, it.read().split())
    mesh = ""
    if os.path.exists(base + ".off"):
        with open(base + ".off", encoding="utf-8") as it:
            mesh = it.read()
    return mesh, took, bool(is_plan), bool(is_wrong)


def ours(file, folder, asked):
    """Our text of a source, None where it is refused, how long it takes by the clock and of processors, and what is said."""
    out = os.path.join(folder, "part.4off")
    began = time.monotonic()
    jobs = ["--jobs", str(asked.jobs)] if asked.jobs else []
    took, status, said, _ = timed([f"{TOP}/bin/scad2off", "--by-openscad", *jobs, file, "-o", out], asked.longest)
    by_clock = time.monotonic() - began
    if status != 0:
        return None, by_clock, took, said
    with open(out, "rb") as it:
        return it.read(), by_clock, took, said


class Grid(NamedTuple):
    """The unit and the step of the grid of a part, how far a point may be off, and whether nothing but rounding moves one."""

    unit: float
    step: str
    off: float
    is_rounded: bool


def grid_of(said, size):
    """The grid of a part of a size, of what the last conversion said."""
    said = said[said.rindex(": on a grid of ") :]
    unit = Fraction(re.search(r": on a grid of ([\d/]+)", said)[1])
    finer = re.search(r"its tiles have steps of ([\d/]+)", said)
    found = [re.search(pattern, said) for pattern in (r"moved by ([\d.e+-]+)", r"off by more than ([\d.e+-]+)")]
    # (two digits are told, corners that have not moved are within a fiftieth of a step, and OpenSCAD's meshes have six digits)
    off = sum(float(it[1]) * 1.06 for it in found if it) + float(unit) * 0.03 + min(1e-4, 1e-5 * size)
    return Grid(float(unit), finer[1] if finer else str(unit), off, found[1] is None)


def is_closed(text, folder):
    """Whether admesh finds the mesh closed, and mends nothing."""
    source, mesh = os.path.join(folder, "part.4off"), os.path.join(folder, "part.stl")
    with open(source, "wb") as it:
        it.write(text)
    timed([f"{TOP}/bin/off2stl", source, "-o", mesh], resource.RLIM_INFINITY)
    said = timed(["admesh", mesh], resource.RLIM_INFINITY)[3]
    return bool(re.search(r"Total disconnected facets +: +0 +0\n", said)) and bool(re.search(r"Facets added +: +0\n", said))


def meets_itself(mesh):
    """Whether each edge of a mesh is met as often one way as the other."""
    used = Counter(edge for a, b, c in mesh.triangles for edge in ((a, b), (b, c), (c, a)))
    return all(times == used[q, p] for (p, q), times in used.items() if p != q)


def compared(file, base, asked):
    """What is found of a source, of which what is kept begins with `base`."""
    name = os.path.splitext(os.path.basename(file))[0]
    with tempfile.TemporaryDirectory() as folder:
        mesh, their_time, is_plan, is_wrong = theirs(file, base, asked.longest)
        body = of_off(mesh) if mesh else None
        made = "nothing"
        if body and body.volume():
            made = "error" if is_wrong else ("closed" if meets_itself(body) else "open") + " plan" * is_plan
        if asked.solids and made != "closed":
            return Row([name, "", "", "", f"{their_time:.1f}", "", "", "", made, ""], None, made)
        text, by_clock, our_time, said = ours(base + "-plan.scad" if is_plan else file, folder, asked)
        size = math.dist(*zip(*body.box())) if body else 1
        grid = None if text is None else grid_of(said, size)
        what, off, passes, is_fine = "", "", False, False
        if text is None:
            refusal = re.search(r"error: (.+)", said)
            what = refusal[1] if refusal else said.strip()[-100:]
            passes = not body
        elif not body:
            what = f"OpenSCAD makes no solid within {asked.longest} s of a processor"
        else:
            our_body = of_4off(text, grid.unit)
            found = differences(our_body, body, grid.off)
            found += [] if is_closed(text, folder) else ["admesh finds it open"]
            off, what, passes = f"{grid.off:.2g} (1/{size / grid.off:.0f})", "; ".join(found), not found
            is_fine = passes and grid.off * 1000 <= size
    tiles = re.search(r"made of (\d+) tiles", said)
    cells = [
        name + (" (1 high)" if is_plan else ""), "yes" if passes else "no", f"{by_clock:.1f}", f"{our_time:.1f}",
        f"{their_time:.1f}", tiles[1] if tiles else "", grid.step if grid else "", off, made, what,
    ]  # fmt: skip
    return Row(cells, passes, made, is_fine, grid.is_rounded if grid else None)


def sources_of(asked):
    """The files that are asked for, of folders all sources in them, each once however many links lead to it."""
    found = []
    for it in asked:
        found += sorted(glob.glob(f"{glob.escape(it)}/**/*.scad", recursive=True)) if os.path.isdir(it) else [it]
    once = {}
    for it in found:
        once.setdefault(os.path.realpath(it), os.path.abspath(it))
    return list(once.values())


def main():
    parser = argparse.ArgumentParser(description="Compares --by-openscad with OpenSCAD.", allow_abbrev=False)
    parser.add_argument("--kept", metavar="DIR", help="where OpenSCAD's meshes are kept")
    parser.add_argument("--jobs", type=int, metavar="N", help="how many tiles of a part are made at the same time")
    parser.add_argument("--longest", type=int, default=600, metavar="SECONDS", help="how long a program may take")
    parser.add_argument("--solids", action="store_true", help="make only those that are closed solids by OpenSCAD")
    parser.add_argument("files", nargs="*", metavar="FILE.scad", help="a source, or a folder of sources")
    asked = parser.parse_args()
    files = sources_of(asked.files) or sorted(glob.glob(f"{TOP}/bench/openscad/*.scad")) + sorted(glob.glob(EXAMPLES))
    missing = [it for it in ("openscad", "admesh") if not shutil.which(it)] + [it for it in files if not os.path.exists(it)]
    if missing:
        print(f"not there: {', '.join(missing)}", file=sys.stderr)
        return 2
    heads = ["Source", "Passes", "s", "s of processors", "s, OpenSCAD", "Tiles", "Step", "Off by at most", "OpenSCAD's"]
    heads.append("Otherwise")
    print(f"| {' | '.join(heads)} |\n{'|---' * len(heads)}|", flush=True)
    rows = []
    with tempfile.TemporaryDirectory() as folder:
        kept = os.path.abspath(asked.kept) if asked.kept else folder
        os.makedirs(kept, exist_ok=True)
        common = os.path.commonpath([os.path.dirname(it) for it in files])
        for file in files:
            base = os.path.join(kept, os.path.splitext(os.path.relpath(file, common))[0].replace(os.sep, "-"))
            rows.append(compared(file, base, asked))
            print(f"| {' | '.join(rows[-1].cells)} |", flush=True)
    compared_ones = [it for it in rows if it.passes is not None]
    print(f"{sum(it.passes for it in compared_ones)} of {len(compared_ones)} pass")
    made_ones = [it.is_rounded for it in rows if it.is_rounded is not None]
    print(f"of {sum(made_ones)} of {len(made_ones)} that were made, only rounding to the grid moves a point")
    for kind, name in (("closed", "solid"), ("closed plan", "solid, of a plan that is made 1 high,")):
        those = [it for it in rows if it.made == kind]
        fine = sum(it.is_fine for it in those)
        print(f"{fine} of {len(those)} of which OpenSCAD makes a closed {name} pass within a thousandth")
    return 0 if all(it.passes for it in compared_ones) else 1


if __name__ == "__main__":
    sys.exit(main())
