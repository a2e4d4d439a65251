#!/usr/bin/env python3
"""Compares the parts of bench/maker with what OpenSCAD makes of them: volume and box.

    bench/maker.py [NAME ..]            the solids of these parts, or of all, beside what bench/maker/openscad.txt keeps
    bench/maker.py --openscad [NAME ..] runs OpenSCAD too, and says where the kept numbers aren't those of its STL
    bench/maker.py --keep [NAME ..]     runs OpenSCAD, and keeps the numbers of its STL

A row is printed for each part: whether it passes, the way that it goes, its volume and OpenSCAD's, and seconds by the clock.
The parts of NATIVE are sources in whole numbers: their boxes are OpenSCAD's and so are their volumes, to what the digits of its
STL leave open. The others go by --by-openscad, and are within a thousandth. The status is 0 where all pass, else 1. """

from __future__ import annotations

import argparse
import os
import re
import subprocess
import sys
import tempfile
import time
from decimal import Decimal
from fractions import Fraction
from typing import Iterable, NamedTuple

TOP = os.path.dirname(os.path.dirname(os.path.realpath(__file__)))
sys.path.insert(0, os.path.join(TOP, "clients"))

from scadserve.solid import fouroff  # noqa: E402
from scadserve.solid.measures import box, volume  # noqa: E402
from scadserve.openscad.included import units_said  # noqa: E402
from scadserve.source.lengths import MILLIMETRE  # noqa: E402
from scadserve.source.units import unit_said  # noqa: E402
from scadserve.top import LIBRARY  # noqa: E402

NATIVE = ("enclosure", "bracket", "stand", "hinge", "clip")
BY_OPENSCAD = ("gear", "knob", "honeycomb", "label", "vase")
PARTS = NATIVE + BY_OPENSCAD
FOLDER = os.path.join(TOP, "bench", "maker")
KEPT = os.path.join(FOLDER, "openscad.txt")
#: How far a part that OpenSCAD evaluates may be off.
SHARE = Fraction(1, 1000)

Ends = tuple[tuple[Fraction, Fraction], ...]
Point = tuple[Fraction, Fraction, Fraction]


class Measured(NamedTuple):
    """The volume of a part, how far that is off at most, since digits end, and the least and the greatest x, y and z."""

    volume: Fraction
    within: Fraction
    ends: Ends


def source_of(name: str) -> str:
    """The file of a part."""
    return os.path.join(FOLDER, f"{name}.scad")


def by_openscad(name: str) -> Measured:
    """What OpenSCAD's own STL of a part measures."""
    with tempfile.TemporaryDirectory() as folder:
        out = os.path.join(folder, "part.stl")
        how = {**os.environ, "OPENSCADPATH": LIBRARY}
        subprocess.run(["openscad", "-o", out, source_of(name)], env=how, capture_output=True, check=True)
        with open(out, encoding="ascii") as it:
            return of_stl(it.read())


def of_stl(text: str) -> Measured:
    """What an STL in ASCII measures, exactly, and how far its digits leave the volume open."""
    words = [line.split()[1:] for line in text.splitlines() if line.split()[:1] == ["vertex"]]
    points: list[Point] = [(Fraction(x), Fraction(y), Fraction(z)) for x, y, z in words]
    rounding = [max(map(_left_open, it)) for it in points]
    total, within = Fraction(0), Fraction(0)
    for at in range(0, len(points), 3):
        a, b, c = points[at : at + 3]
        total += sum(x * y for x, y in zip(a, _cross(b, c)))
        across = _cross(tuple(p - q for p, q in zip(b, a)), tuple(p - q for p, q in zip(c, a)))
        # (the area is at most half the sum of the sizes, and a corner is off by at most that along each axis)
        within += sum(map(abs, across)) / 2 * 3 * max(rounding[at : at + 3])
    return Measured(total / 6, within, tuple((min(axis), max(axis)) for axis in zip(*points)))


def _left_open(number: Fraction) -> Fraction:
    """How far a number may be off that is printed with six digits; a whole number is taken for what it says."""
    return Fraction(0) if number.denominator == 1 else Fraction(10) ** (Decimal(float(number)).adjusted() - 5) / 2


def _cross(a: Iterable[Fraction], b: Iterable[Fraction]) -> tuple[Fraction, ...]:
    (u, v, w), (x, y, z) = a, b
    return (v * z - w * y, w * x - u * z, u * y - v * x)


def ours(name: str, folder: str) -> tuple[Measured | None, str]:
    """What our solid of a part measures, in the lengths of its source, None where there is none; and what is said about it."""
    out = os.path.join(folder, f"{name}.4off")
    words = [os.path.join(TOP, "bin", "scad2off"), source_of(name), "-o", out]
    done = subprocess.run([*words, *(["--by-openscad"] if name in BY_OPENSCAD else [])], capture_output=True, check=False)
    said = done.stderr.decode()
    if done.returncode:
        return None, said
    # (a length of the text, in those of the source: that of --by-openscad is told in millimetres)
    unit = unit_said(units_said(source_of(name))) or MILLIMETRE
    told = re.search(r"off2stl --unit (\S+)", said)
    length = Fraction(told[1]) / unit if told else MILLIMETRE
    with open(out, "rb") as it:
        boundary = fouroff.read(it.read())
    found = volume(boundary)
    ends = tuple((low * length, high * length) for low, high in box(boundary))
    return Measured(found.value * length**3, Fraction(0 if found.exact else 1, 10**9), ends), said


def differences(name: str, our: Measured, their: Measured) -> list[str]:
    """What of a part is otherwise than OpenSCAD's, by more than it may be."""
    is_native = name in NATIVE
    off = our.within + their.within if is_native else SHARE * abs(their.volume)
    found = []
    if abs(our.volume - their.volume) > off:
        found.append(f"volume {float(our.volume):.9g}, and {float(their.volume):.9g} there")
    for axis, (low, high), (their_low, their_high) in zip("xyz", our.ends, their.ends):
        most = [_left_open(it) if is_native else SHARE * (their_high - their_low) for it in (their_low, their_high)]
        if abs(low - their_low) > most[0] or abs(high - their_high) > most[1]:
            found.append(
                f"{axis} from {float(low):g} to {float(high):g}, and from {float(their_low):g} to {float(their_high):g} there"
            )
    return found


def kept() -> dict[str, Measured]:
    """The kept numbers, by part."""
    found = {}
    with open(KEPT, encoding="ascii") as it:
        for line in it:
            if not line.startswith("#"):
                name, total, within, *ends = line.split()
                numbers = [Fraction(number) for number in ends]
                found[name] = Measured(Fraction(total), Fraction(within), tuple(zip(numbers[::2], numbers[1::2])))
    return found


def keep(measured: dict[str, Measured]) -> None:
    """Writes the kept numbers."""
    with open(KEPT, "w", encoding="ascii") as it:
        it.write("# Of the STL that OpenSCAD 2021.01 writes: part, volume, how far its digits leave that open, x, y and z from "
                 "and to.\n")
        for name in PARTS:
            if name in measured:
                total, within, ends = measured[name]
                it.write(
                    " ".join(
                        [name, str(total), f"{float(within):.3g}", *(f"{float(end):.6g}" for axis in ends for end in axis)]
                    ) + "\n"
                )


def main() -> int:
    words = argparse.ArgumentParser(description=__doc__, formatter_class=argparse.RawDescriptionHelpFormatter)
    words.add_argument("names", nargs="*", metavar="NAME", choices=[[], *PARTS])
    words.add_argument("--openscad", action="store_true")
    words.add_argument("--keep", action="store_true")
    asked = words.parse_args()
    known = kept() if os.path.exists(KEPT) else {}
    is_good = True
    print("| Part | Way | Passes | Volume | OpenSCAD's | s | s, OpenSCAD |\n|---|---|---|---|---|---|---|")
    with tempfile.TemporaryDirectory() as folder:
        for name in asked.names or PARTS:
            their_time = ""
            if asked.openscad or asked.keep:
                began = time.monotonic()
                theirs = by_openscad(name)
                their_time = f"{time.monotonic() - began:.1f}"
                if asked.openscad and theirs.volume != known[name].volume:
                    print(f"{name}: kept is another volume, {float(known[name].volume):.9g}")
                    is_good = False
                known[name] = theirs
                if asked.keep:
                    keep(known)
            began = time.monotonic()
            our, said = ours(name, folder)
            took = time.monotonic() - began
            found = [said] if our is None else differences(name, our, known[name])
            is_good &= not found
            shown = "" if our is None else f"{float(our.volume):.9g}"
            way = "whole numbers" if name in NATIVE else "--by-openscad"
            print(f"| {name} | {way} | {'; '.join(found) or 'yes'} | {shown} | {float(known[name].volume):.9g} | {took:.1f} | "
                  f"{their_time} |", flush=True)
    return 0 if is_good else 1


if __name__ == "__main__":
    sys.exit(main())
