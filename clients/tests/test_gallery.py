"""The gallery is as its sources make it, and its volumes are those worked out by hand."""

import contextlib
import io
import math
import os
import re
import shutil
import subprocess
import tempfile
import unittest
from fractions import Fraction
from unittest import mock

from scadserve.solid import closing
from scadserve.tools import gallery
from scadserve.solid.fouroff import read
from scadserve.solid.measures import Volume, box, shown, volume
from tests import solids
from tests.calls import PROGRAM, TOP, needs_program

# Edges times edges times heights, as the sources have them; what overlaps is taken off once.
ANGLE = 20 * 12 * 2 + 2 * 12 * 16 - 2 * 12 * 2 + 8 * 8 * 2 // 2
OCTAGON = 6 * 6 - 4 * 2 * 2 // 2
TAIL = (8 + 12) * 8 * 10 // 2
BOARD, SLOT = 120 * 80 * 20, 22 * 20
WALLS = 20 * 14 * 10 - 18 * 12 * 9 - 4 * 1 * 6 - 2 * (3 * 1 * 3) - 2 * (1 * 3 * 3)
ROOF = 16 * 6 * 22 // 2
# The roof rises by 3/4: the chimney, from 2 to 4, leaves it at heights from 9/4 to 15/4, of 8.
CHIMNEY = 2 * 2 * (8 - 3)
DRAWER = 34 * 28 * 10 - 30 * 24 * 8 + 6 * 2 * 2
BRICK_SHELL = 318 * 158 * 96 - 288 * 128 * 86
STUD = (48 * 48 - 2 * 14 * 14) * 18
TUBE = ((66 * 66 - 2 * 19 * 19) - (48 * 48 - 2 * 14 * 14)) * 86
# A quarter of the stair has five triangles from the axis to the rim, less a quarter of the core; 4 high each.
STEPS = Fraction(175 + 220 + 175 + 220 + 175, 2) - Fraction(15 + 7 + 15, 2)


def funnel(narrow: int, wide: int) -> int:
    """The volume of a hopper's hull: a frustum, 30 high, and a rim, 4 high."""
    return 30 * (narrow**2 + narrow * wide + wide**2) // 3 + 4 * wide**2


#: Volume and box of each part, by hand.
BY_HAND = {
    "bracket": (ANGLE - 4 * 4 * 2 - 2 * 4 * 3, (20, 12, 16)),
    "plate": (60 * 40 * 4 - 4 * OCTAGON * 4 - 20 * 8 * 4, (60, 40, 4)),
    # Sizes 4, 6, 8 and 10 with walls of 1, at half their squares: from 8 to 50 + 10.
    "cups": (sum(size**3 - (size - 2) ** 2 * (size - 1) for size in (4, 6, 8, 10)), (52, 10, 10)),
    # What the one has more, the other has less.
    "dovetail": (2 * 30 * 24 * 10 + TAIL - TAIL, (30, 24 + 8 + 8 + 24, 10)),
    # Twice two boards with a slot of 82 and one whose slot goes from -41 to its end at 60: apart, since nothing is lost.
    "burr": (2 * (3 * BOARD - (82 + 82 + 101) * SLOT), (60 + 360, 90 + 90, 120)),
    "house": (WALLS + ROOF + CHIMNEY, (22, 16, 18)),
    "heatsink": (40 * 40 * 4 + 64 * 3 * 3 * 16, (40, 40, 20)),
    # The lowest drawer stands out by 16, and its handle by 2 more.
    "cabinet": (40 * 30 * 44 - 3 * 36 * 28 * 12 + 3 * DRAWER, (40, 30 + 18, 44)),
    "brick": (BRICK_SHELL + 8 * STUD + 3 * TUBE, (318, 158, 96 + 18)),
    # The core is a quarter four times, 80 high.
    "stair": (4 * STEPS * 4 + 2 * (15 + 7 + 15) * 80, (50, 50, 80)),
    "hopper": (funnel(10, 40) - funnel(6, 36) + 12 * (10**2 - 6**2), (40, 40, 34 + 12)),
    # Of 27 cubes 20 are left, and so of each of these.
    "menger": (20 * 20, (9, 9, 9)),
    # Two tetrahedra of a third of the cube have an octahedron of a sixth in common.
    "star": (12**3 // 3 + 12**3 // 3 - 12**3 // 6, (12, 12, 12)),
}


def polygon(corners: int) -> float:
    """The area of a regular polygon on a circle of the radius 1."""
    return corners / 2 * math.sin(2 * math.pi / corners)


def stack(corners: int, profile) -> float:
    """The volume of frustums over regular polygons, whose radii and heights are the profile's."""
    return polygon(corners) * sum((z - y) * (q * q + q * r + r * r) / 3 for (q, y), (r, z) in zip(profile, profile[1:]))


def rounded(wide: float, deep: float, radius: float) -> float:
    """The area of a rectangle whose corners are quarters of a regular polygon of 24 corners."""
    return wide * deep - (4 - polygon(24)) * radius**2


def half_ball(radius: float) -> float:
    """The volume of the lower half of a ball of 24 corners and 12 rings: from the lowest ring to the middle."""
    angles = [math.radians(15 * it + 7.5) for it in range(6)]
    rings = [(radius * math.sin(it), -radius * math.cos(it)) for it in angles]
    return stack(24, [*rings, (rings[-1][0], 0)])


GROOVE = [(14, 0), (14, 1.5), (10.2, 4.5), (14, 7.5), (14, 9)]
BORE = [(3.8, 0), (3.2, 0.6), (3.2, 4.6), (3.8, 5.2)]
SLOT_24 = 12 * 1.8 * 7.2
#: Volume, box and about the surface of each round part, by the formulas of regular polygons, in OpenSCAD's lengths.
ROUND = {
    "pulley": (stack(48, GROOVE) - stack(48, [(2.5, 0), (2.5, 9)]), (28, 28, 9), 2200),
    # (what goes round an axis has the volume of its shape times the way of its middle, here along chords)
    "ring": (2 * polygon(24) * 12.5 * polygon(12) * 3.2**2, (31.4, 31.4, 6.4), 1600),
    "enclosure": (rounded(62.4, 41.8, 4) * 23.5 - rounded(58.8, 38.2, 2.2) * 21.7 - SLOT_24, (62.4, 41.8, 23.5), 15000),
    "nut": (polygon(6) * 5.75**2 * 5.2 - stack(24, BORE), (11.5, 11.5 * math.sqrt(3) / 2, 5.2), 400),
    "bowl": (
        half_ball(20) - half_ball(18.4), (40 * math.cos(math.radians(7.5)), 40 * math.cos(math.radians(7.5)), 19.83), 5000
    ),
}


class Parts(unittest.TestCase):
    def test_the_parts_are_those_with_sources(self):
        names = sorted(name[: -len(".scad")] for name in os.listdir(f"{TOP}/gallery") if name.endswith(".scad"))
        self.assertEqual(names, sorted(gallery.PARTS))
        self.assertEqual(names, sorted([*BY_HAND, *ROUND]))
        self.assertEqual(names, sorted(solids.gallery()))

    def test_volumes_and_boxes_by_hand(self):
        for name, (expected, sides) in BY_HAND.items():
            with self.subTest(name):
                boundary = read(solids.gallery()[name])
                self.assertEqual(volume(boundary), Volume(Fraction(expected), True))
                self.assertEqual(tuple(high - low for low, high in box(boundary)), sides)

    def test_round_parts_are_as_large_as_their_own_lengths_say(self):
        for name, (expected, sides, surface) in ROUND.items():
            with self.subTest(name):
                boundary = read(solids.gallery()[name])
                with open(f"{TOP}/gallery/{name}.scad", encoding="ascii") as source:
                    unit = Fraction(re.search("^// unit: (.+)$", source.read(), re.MULTILINE)[1])
                # (a corner is moved by less than a step of the grid)
                self.assertAlmostEqual(float(volume(boundary).value * unit**3), expected, delta=surface * unit)
                for (low, high), side in zip(box(boundary), sides):
                    self.assertAlmostEqual(float((high - low) * unit), side, delta=float(unit))

    def test_none_touches_itself(self):
        for name, text in solids.gallery().items():
            with self.subTest(name):
                rings = closing.close(read(text))
                self.assertEqual((closing.shared_edges(closing.ways(rings)), closing.touching_corners(rings)), (0, 0))

    def test_each_source_says_what_it_is(self):
        for name in gallery.PARTS:
            with open(f"{TOP}/gallery/{name}.scad", "rb") as source:
                self.assertRegex(source.readline(), rb"\A// [A-Z].*[.:0-9]")


class Made(unittest.TestCase):
    @classmethod
    def setUpClass(cls):
        cls.files = gallery.made(gallery.kept_texts())

    def test_all_files_are_as_they_are_made(self):
        self.assertEqual(gallery.differences(self.files), [])

    @needs_program
    @mock.patch.dict(os.environ, {"SCADSERVE": PROGRAM})
    def test_the_program_makes_the_texts(self):
        self.assertEqual(gallery.run_texts(), gallery.kept_texts())

    def test_what_differs_is_told(self):
        place = "gallery/bracket.svg"
        files = dict(self.files)
        self.assertEqual(gallery.differences({**files, place: b""}), [place + " differs from what is made"])
        self.assertEqual(gallery.differences({**files, "gallery/none": b""}), ["gallery/none: No such file or directory"])
        del files[place]
        self.assertEqual(gallery.differences(files), [place + " is not made"])

    def test_the_script(self):
        done = subprocess.run([f"{TOP}/tools/gallery.sh", "--kept", "--compare"], stdout=subprocess.PIPE, check=False)
        self.assertEqual((done.returncode, done.stdout), (0, b"65 files compared, 0 differ\n"))

    def test_faults(self):
        with tempfile.TemporaryDirectory() as top, mock.patch("scadserve.tools.gallery.TOP", top):
            for words, status in ((["--kept"], 2), ([], 2)):
                with contextlib.redirect_stderr(io.TextIOWrapper(io.BytesIO())) as error:
                    self.assertEqual(gallery.main(words), status)
                    self.assertEqual(error.buffer.getvalue().count(b"\n"), 1)
            shutil.copytree(f"{TOP}/gallery", f"{top}/gallery")
            with open(f"{top}/gallery/star.4off", "wb") as file:
                file.write(b"4OFF\n")
            with contextlib.redirect_stderr(io.TextIOWrapper(io.BytesIO())) as error:
                self.assertEqual(gallery.main(["--kept"]), 2)
                self.assertEqual(error.buffer.getvalue(), b"gallery/star.4off:2: the second line is not 'VERTICES FACES 0'\n")


class Numbers(unittest.TestCase):
    def test_shown(self):
        for number, text in (
            (Fraction(0), "0"),
            (Fraction(-6), "-6"),
            (Fraction(1000), "1000"),
            (Fraction(5, 2), "2.5"),
            (Fraction(-1, 20), "-0.05"),
            (Fraction(1, 10**12), "0.000000000001"),
            (Fraction(1, 10**13), "1/10000000000000"),
            (Fraction(25, 27), "25/27"),
            (Fraction(1, 3**300), f"about {1 / 3**300:.12g}"),
        ):
            self.assertEqual(shown(number), text)
        self.assertEqual(shown(Fraction(1, 2), False), "about 0.5")


if __name__ == "__main__":
    unittest.main()
