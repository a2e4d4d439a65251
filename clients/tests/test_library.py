"""library/round.scad: found by each tool, with whole coordinates by radius, and the same solids by OpenSCAD."""

import math
import os
import subprocess
import sys
import unittest

from scadserve import Fault, Solid, solve
from tests.calls import PROGRAM, TOP, Calls, needs_program
from tests.needs import needs

needs_openscad = needs("openscad")
LIBRARY = os.path.join(TOP, "library")
#: The least radius by the number of corners.
LEAST = {8: 3, 12: 4, 16: 7, 20: 12}
# Each module of the library, side by side.
SCENE = [
    "prism(15, 5, 20);",
    "prism(8, 3, 16);",
    "ring(13, 12, 20, 20);",
    "taper(16, 12, 20, 20);",
    "taper(13, 0, 5, 20);",
    "taper(0, 12, 5, 16);",
    "plate([40, 30, 4], 8, 16);",
    "plate([25, 25, 4], 12);",
    "fillet(5, 6);",
    "along_x(20) disc(5);",
    "along_y(20) disc(3, 8);",
    "along_z(20) rounded([30, 20], 4);",
]
STAND_IN = """#!{python}
import os, sys
print("ECHO: " + os.environ["OPENSCADPATH"], file=sys.stderr)
with open(sys.argv[sys.argv.index("-o") + 1], "w") as file:
    file.write("cube(size = [1, 1, 1], center = false);")
"""


def nearest(number):
    """A number rounded, a half away from 0; those of this test are no nearer to a half than by a part in 10^6, or halves."""
    return int(math.copysign(math.floor(abs(round(number, 6)) + 0.5), number))


def circle(radius, corners):
    """The corners of OpenSCAD's circle, rounded."""
    turns = [2 * math.pi * it / corners for it in range(corners)]
    return [(nearest(radius * math.cos(it)), nearest(radius * math.sin(it))) for it in turns]


def area(loop):
    """The area in a loop, by the shoelace formula."""
    return sum(x * v - u * y for (x, y), (u, v) in zip(loop, [*loop[1:], loop[0]])) / 2


class Found(Calls):
    def sent(self, *words, environment=None):
        """The library's first module as it is sent, or nothing."""
        status, _, said = self.call(*words, environment=environment)
        self.assertEqual(status, 0, said)
        return [it for it in self.runs()[-1][1].decode().splitlines() if "module " in it]

    def test_it_is_found_behind_all_other_folders(self):
        for name in ("part.scad", "named/part.scad", "path/part.scad"):
            os.makedirs(os.path.dirname(self.path(name)), exist_ok=True)
            self.write(name, "use <round.scad>\n")
        self.assertIn("module prism(r, h, corners = 12) ", "".join(self.sent("part.scad")))
        for folder, words, environment in (
            ("path", (), {"OPENSCADPATH": "path"}), ("named", ("-I", "named"), {"OPENSCADPATH": "path"})
        ):
            self.write(f"{folder}/round.scad", f"module {folder}() cube(1);\n")
            sent = self.sent(*words, "part.scad", environment=environment)
            self.assertEqual(len(sent), 1)
            self.assertIn(f"module {folder}() cube(1);", sent[0])

    def test_openscad_is_told_of_it_behind_all_other_folders(self):
        place = self.path(self.write("openscad", STAND_IN.format(python=sys.executable)))
        os.chmod(place, 0o755)
        self.write("part.scad", "use <round.scad>\n")
        environment = {"OPENSCAD": place, "OPENSCADPATH": "path", "HOME": "/home/of/a/maker"}
        status, _, said = self.call("--by-openscad", "-I", "/named", "part.scad", environment=environment)
        self.assertEqual(status, 0, said)
        path = f"/named:path:/home/of/a/maker/.local/share/OpenSCAD/libraries:{LIBRARY}"
        self.assertEqual(said.decode().splitlines()[0], f"ECHO: {path}")

    def test_it_is_read_where_it_is_included(self):
        self.assertIn(
            "module plate(size, r, corners = 12) ", "".join(self.sent(self.write("part.scad", "include <round.scad>\n")))
        )


@needs_program
class Corners(unittest.TestCase):
    def solved(self, *shapes):
        """What each shape by the library is."""
        return solve([f"use <round.scad>\n{it}" for it in shapes], server=PROGRAM)

    def test_a_prism_has_the_corners_of_openscads_cylinder_rounded(self):
        wanted = [
            (corners, radius) for corners, least in LEAST.items() for radius in (*range(least, 26), 65, 99, 1000, 2047, 4095)
        ]
        for (corners, radius), it in zip(
            wanted, self.solved(*(f"prism({radius}, 2, {corners});" for corners, radius in wanted))
        ):
            with self.subTest(corners=corners, radius=radius):
                self.assertIsInstance(it, Solid)
                loop = circle(radius, corners)
                self.assertEqual(len(set(loop)), corners)
                self.assertEqual(it.volume, 2 * area(loop))
                found = {tuple(map(int, point)) for face in it.faces for point in face}
                # (a corner on a straight side is none of the solid)
                self.assertLessEqual(found, {(x, y, z) for x, y in loop for z in (0, 2)})

    def test_a_smaller_radius_fails(self):
        for (corners, least), it in zip(
            LEAST.items(), self.solved(*(f"prism({least - 1}, 2, {corners});" for corners, least in LEAST.items()))
        ):
            self.assertIsInstance(it, Fault)
            self.assertEqual((it.word, os.path.basename(it.file)), ("AssertFailed", "round.scad"), corners)
        [it] = self.solved("prism(20, 2, 10);")
        self.assertIn("corners is 8, 12, 16 or 20", it.message)

    def test_volumes_by_hand(self):
        ten, eight, four = (area(circle(radius, 12)) for radius in (10, 8, 4))
        quarter = area(circle(5, 12)) / 4
        cases = {
            "ring(10, 8, 3);": 3 * (ten - eight),
            # A cone is a third of a prism, and a prism is one that tapers by nothing.
            "taper(10, 0, 6);": ten * 2,
            "taper(0, 8, 6);": eight * 2,
            "taper(10, 10, 6);": ten * 6,
            # A rectangle without its corners' squares, with a circle's quarters there.
            "plate([30, 20, 2], 4);": 2 * (30 * 20 - 4 * 4**2 + four),
            "fillet(5, 3);": 3 * (5 * 5 - quarter),
            "along_y(7) disc(10);": 7 * ten,
        }
        for (shape, volume), it in zip(cases.items(), self.solved(*cases)):
            self.assertEqual(it.volume, volume, shape)


@needs_program
@needs_openscad
class BesideOpenscad(Calls):
    def test_each_module_is_the_same_solid_there(self):
        lines = [f"translate([{60 * at}, 0, 0]) {shape}\n" for at, shape in enumerate(SCENE)]
        self.write("scene.scad", "use <round.scad>\n" + "".join(lines))
        path = {**os.environ, "OPENSCADPATH": LIBRARY}
        subprocess.run(
            ["openscad", "-o", "scene.off", "scene.scad"], cwd=self.folder, env=path, capture_output=True, check=True
        )
        with open(self.path("scene.off"), encoding="ascii") as it:
            words = it.read().split("\n")
        corners = int(words[1].split()[0]) if words[0] == "OFF" else int(words[0].split()[1])
        first = 2 if words[0] == "OFF" else 1
        theirs = {tuple(map(float, it.split()[:3])) for it in words[first:] if len(it.split()) == 3}
        self.assertEqual(len(theirs), corners)
        [ours] = solve(["use <round.scad>\n" + "".join(lines)], server=PROGRAM)
        self.assertIsInstance(ours, Solid)
        self.assertEqual({tuple(map(float, point)) for it in ours.triangles for point in it}, theirs)


if __name__ == "__main__":
    unittest.main()
