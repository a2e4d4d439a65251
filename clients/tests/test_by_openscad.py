"""`--by-openscad`: what comes of OpenSCAD's front end, compared with what OpenSCAD itself makes of a few parts."""

import os
import re
import subprocess
import sys
import tempfile
import unittest
from fractions import Fraction

from scadserve.solid import fouroff
from scadserve.openscad import front
from scadserve.openscad.conversion import Wanted, converted
from scadserve.openscad.reader import CsgFault, read
from scadserve.solid.measures import box
from tests.against_openscad import differences, of_4off, of_off
from tests.calls import PROGRAM, TOP, Calls, needs_program
from tests.needs import needs

needs_openscad = needs("openscad")
SCAD2STL = os.path.join(TOP, "bin", "scad2stl")

# Says that it made a solid of nothing, by writing an evaluated form without one.
STAND_IN = """#!{python}
import sys
words = sys.argv[1:]
print("ECHO: \\"by the stand-in\\"", file=sys.stderr)
{error}
with open(words[words.index("-o") + 1], "w") as file:
    file.write({text!r})
"""


class Front(Calls):
    """With a stand-in for OpenSCAD, and one for the server."""

    def stand_in(self, text, error=""):
        place = self.path(self.write("openscad", STAND_IN.format(python=sys.executable, text=text, error=error)))
        os.chmod(place, 0o755)
        return {"OPENSCAD": place}

    def test_what_it_evaluates_is_sent_and_what_it_says_comes_through(self):
        self.write("part.scad", "// A small box.\n// of mine\ncube(0.5);\n")
        openscad = self.stand_in("cube(size = [0.5, 0.5, 0.5], center = false);\n")
        status, _, said = self.call("--by-openscad", "part.scad", environment=openscad)
        self.assertEqual(
            said.decode().splitlines(),
            [
                'ECHO: "by the stand-in"',
                "part.scad: on a grid of 1/1000: no corner moved",
                "part.scad: a unit of its text is 0.001 mm, so make its mesh by off2stl --unit 1/1000",
            ],
        )
        [(_, script)] = self.runs()
        self.assertEqual(
            [line.partition(" ")[2] for line in script.decode().splitlines() if " put " in line],
            ["put 1 // unit: 1/1000", "put 2 translate([0, 0, 0]) cube([500, 500, 500]);"],
        )

    def test_the_unit_of_the_source_is_that_of_its_mesh(self):
        """A grid of 1/1000, on which the stand-in for the server makes a box of one step."""
        openscad = self.stand_in("cube(size = [1, 1, 1], center = false);\n")
        for source, words, unit, side, step in (
            ("cube(1);\n", (), "1", "0.001", "1/1000"),
            ("// unit: 1/10\ncube(1);\n", (), "0.1", "0.0001", "1/10000"),
            ("/* Unit: 2 */\ncube(1);\n", (), "2", "0.002", "1/500"),
            ("// unit: nonsense\ncube(1);\n", ("--unit", "1e1"), "10", "0.01", None),
        ):
            with self.subTest(source):
                self.write("part.scad", source)
                status, _, said = self.call(
                    "--by-openscad", *words, "part.scad", "-o", "a.stl", tool=SCAD2STL, environment=openscad
                )
                self.assertEqual(status, 0, said)
                lines = said.decode().splitlines()
                self.assertIn(f"; unit {unit} mm; box {side} x {side} x {side}; volume ", lines[-1])
                self.assertNotIn("unit", "".join(lines[:-1]))
                if step is not None:
                    said = self.call("--by-openscad", "part.scad", "-o", "a.4off", environment=openscad)[2].decode()
                    self.assertTrue(said.endswith(f", so make its mesh by off2stl --unit {step}\n"), said)

    def test_a_unit_is_read_of_what_is_included_and_told_before_openscad_runs(self):
        self.write("lib.scad", "// unit: 1/10\n")
        self.write("part.scad", "include <lib.scad>\ninclude <not/there.scad>\n// unit: 1/5\n")
        for tool in (SCAD2STL, None):
            status, _, said = self.call(
                "--by-openscad",
                "part.scad",
                "-o",
                "a",
                *(["--format", "stl"] if tool else []),
                tool=tool,
                environment={"OPENSCAD": "none"},
            )
            self.assertEqual(
                (status, said.decode().splitlines()[0]),
                (1, "part.scad:3:1: error: BadUnit: lib.scad:1 says another unit, 1/10"),
            )

    def test_an_error_of_openscad_is_one_here_though_it_ends_well(self):
        self.write("part.scad", "cube(1);\nassert(false);\n")
        openscad = self.stand_in(
            "cube(size = [1, 1, 1], center = false);\n", 'print("ERROR: Assertion failed", file=sys.stderr)'
        )
        status, out, said = self.call("--by-openscad", "part.scad", environment=openscad)
        self.assertEqual((status, out, self.runs()), (1, b"", []))
        self.assertIn("ERROR: Assertion failed\n", said.decode())
        self.assertIn("part.scad", said.decode())

    def test_what_cant_be_converted_is_refused_with_its_place(self):
        self.write("part.scad", "wedge();\n")
        status, out, said = self.call(
            "--by-openscad", "part.scad", environment=self.stand_in("group() {\n\twedge(h = 1);\n}\n")
        )
        self.assertEqual((status, out, self.runs()), (1, b"", []))
        told = "part.scad: error: UnknownModule: node 2, wedge is not a node that is known here\n    cure: "
        self.assertIn(told, said.decode())

    def test_a_missing_openscad_is_told(self):
        self.write("part.scad", "cube(1);\n")
        status, _, said = self.call("--by-openscad", "part.scad", environment={"OPENSCAD": self.path("none")})
        self.assertEqual((status, said.count(b"\n")), (2, 1))
        self.assertIn("it is not installed", said.decode())

    def test_words_that_contradict_one_another(self):
        self.write("part.scad", "cube(1);\n")
        for words, said in (
            (["--exact"], "--exact is for --by-openscad"),
            (["--by-openscad", "--half"], "--half can't be given with it"),
        ):
            status, _, error = self.call(*words, "part.scad")
            self.assertEqual((status, error.count(b"\n")), (2, 1))
            self.assertIn(said, error.decode())
        status, _, error = self.call("--by-openscad", "-")
        self.assertEqual(status, 2)
        self.assertIn("OpenSCAD reads only files", error.decode())


@needs_openscad
class Rendered(unittest.TestCase):
    """With OpenSCAD, and no server."""

    def told(self, text):
        return converted(read(text), Wanted(), front.Front("."))

    def test_an_offset_is_rendered(self):
        # (a square of 10 and 1 round it: its corners stay with delta)
        [outline] = front.Front(".").flat(read("offset(delta = 1, $fn = 0) { square(size = [10, 10], center = false); }")[0])
        self.assertEqual(sorted(outline), [(-1, -1), (-1, 11), (11, -1), (11, 11)])

    def test_an_outline_that_crosses_itself_is_what_openscad_makes_of_it(self):
        # (a bow of two triangles, each of 4 * 2 / 2)
        text = (
            "linear_extrude(height = 1) { polygon(points = [[0, 0], [4, 4], [4, 0], [0, 4]], paths = undef, convexity = 1); "
            "}"
        )
        self.assertEqual(self.told(text).text.count(b"linear_extrude"), 2)

    def test_what_it_cant_render_is_refused(self):
        with self.assertRaises(CsgFault) as caught:
            self.told('linear_extrude(height = 1) { import(file = "none.dxf"); }')
        self.assertIn(caught.exception.word, ("NotInProfile", "Empty"))


@needs_openscad
class NoSolid(unittest.TestCase):
    """What is flat, or nothing: OpenSCAD exports no solid of it, and we make none."""

    SHIPPED = "/usr/share/openscad/examples"

    def assert_none(self, file, theirs, word, ours):
        with tempfile.TemporaryDirectory() as folder:
            out = os.path.join(folder, "part.off")
            done = subprocess.run(["openscad", "-o", out, file], capture_output=True, text=True, check=False)
            self.assertEqual((done.returncode, os.path.exists(out)), (1, False))
            self.assertIn(theirs, done.stderr)
        with self.assertRaises(CsgFault) as caught:
            converted(read(front.evaluated(file)[0]), Wanted(), front.Front(os.path.dirname(file)))
        self.assertEqual(caught.exception.word, word)
        self.assertIn(ours, caught.exception.said)

    def assert_flat(self, file):
        said = "the design is flat, which OpenSCAD makes no solid of either: --flat 1 makes it 1 high"
        self.assert_none(file, "Current top level object is not a 3D object.", "WrongDimension", said)

    def assert_empty(self, file):
        self.assert_none(file, "Current top level object is empty.", "Empty", "this design makes no solid at all")

    def test_plans_and_nothing(self):
        with tempfile.TemporaryDirectory() as folder:
            file = os.path.join(folder, "part.scad")
            for source, check in (
                ("square(3);", self.assert_flat),
                ("translate([1, 2, 3]) difference() { circle(3); square(1); }", self.assert_flat),
                ('echo("nothing");', self.assert_empty),
                ("*cube(1); %cube(2);", self.assert_empty),
            ):
                with open(file, "w", encoding="ascii") as it:
                    it.write(source)
                check(file)

    def test_those_of_the_shipped_examples(self):
        if not os.path.isdir(self.SHIPPED):
            self.skipTest("OpenSCAD's examples are not there")
        self.assert_empty(f"{self.SHIPPED}/Functions/echo.scad")
        for name in (
            "Functions/list_comprehensions",
            "Functions/polygon_areas",
            "Functions/recursion",
            "Advanced/module_recursion",
            "Old/example015",
        ):
            self.assert_flat(f"{self.SHIPPED}/{name}.scad")


@needs_openscad
@needs_program
class Compared(Calls):
    """With OpenSCAD and the program: small parts of which each is quick."""

    def setUp(self):
        super().setUp()
        self.environment["SCADSERVE"] = PROGRAM

    def assert_same(self, source):
        self.write("part.scad", source)
        status, _, said = self.call("--by-openscad", "part.scad", "-o", "part.4off")
        self.assertEqual(status, 0, said)
        with open(self.path("part.4off"), "rb") as file:
            text = file.read()
        told = said.decode()
        unit = Fraction(re.search(": on a grid of (.*?):", told)[1])
        subprocess.run(["openscad", "-o", self.path("part.off"), self.path("part.scad")], capture_output=True, check=True)
        with open(self.path("part.off"), encoding="ascii") as file:
            mesh = of_off(file.read())
        # (a step of the grid, since none of these parts has corners left out)
        self.assertNotIn("fewer", told)
        self.assertEqual(differences(of_4off(text, float(unit)), mesh, float(unit)), [])
        return fouroff.read(text), unit

    def test_decimals_and_holes(self):
        boundary, unit = self.assert_same(
            "difference() { cube([20.5, 10, 2.5]); translate([5, 5, -1]) cylinder(h = 5, d = 3.2, $fn = 16); }"
        )
        self.assertEqual(
            [(low * unit, high * unit) for low, high in box(boundary)], [(0, Fraction(41, 2)), (0, 10), (0, Fraction(5, 2))]
        )

    def test_a_profile_round_an_axis_and_one_turned_on_the_way(self):
        self.assert_same("rotate_extrude($fn = 12) translate([5, 0]) polygon([[0, 0], [3, 0], [1, 2], [3, 4], [0, 4]]);")
        self.assert_same("rotate_extrude(angle = 200, $fn = 12) translate([5, 0]) square([2, 3]);")
        self.assert_same(
            "linear_extrude(height = 6, twist = 60, slices = 3) difference() { square(8, center = true); square(3); }"
        )

    def test_sides_that_are_hollow_on_the_way(self):
        self.assert_same("linear_extrude(height = 6, twist = 60, slices = 2) translate([3, 1]) square([4, 2]);")
        self.assert_same("linear_extrude(height = 3, scale = [0.5, 1.5]) translate([1, 1]) square([4, 3]);")

    def test_a_thread_keeps_its_slices(self):
        # (by tiles, since 48 slices that turn have 24 sides each)
        self.assert_same("linear_extrude(height = 10, twist = 720, slices = 48) translate([0.6, 0]) circle(5, $fn = 24);")

    def test_texts_and_slanted_parts(self):
        self.assert_same(
            'rotate([30, 20, 10]) difference() { cube([9, 6, 3]); translate([2, 2, -1]) cylinder(h = 9, r = 1.5, $fn = 8); }'
        )
        self.assert_same('linear_extrude(2) text("L", size = 8);')

    def test_lengths_of_a_mesh_are_openscads(self):
        self.write("part.scad", "cube([2.5, 1, 1]);\n")
        status, _, said = self.call("--by-openscad", "part.scad", "-o", "part.stl", tool=SCAD2STL)
        self.assertEqual(status, 0, said)
        self.assertIn(b"box 2.5 x 1 x 1; volume 2.5", said)
        status, _, said = self.call("--by-openscad", "--unit", "2", "part.scad", "-o", "part.stl", tool=SCAD2STL)
        self.assertIn(b"box 5 x 2 x 2; volume 20", said)


if __name__ == "__main__":
    unittest.main()
