"""Small sources by `--by-openscad`, each compared with what OpenSCAD itself exports, or makes nothing of."""

import os
import re
import shutil
import subprocess
import unittest
from concurrent.futures import ThreadPoolExecutor

from tests.against_openscad import of_off
from tests.calls import PROGRAM, TOP, Calls, needs_program

needs_openscad = unittest.skipUnless(shutil.which("openscad"), "OpenSCAD is not installed")
SCAD2STL = os.path.join(TOP, "bin", "scad2stl")
TETRAHEDRON = "polyhedron([[0, 0, 0], [3, 0, 0], [0, 3, 0], [0, 0, 3]], {});"
INWARD = TETRAHEDRON.format([[0, 2, 1], [0, 1, 3], [0, 3, 2], [1, 2, 3]])

EXPORTED = [
    "$fn = $preview ? 12 : 48; cylinder(r = 10, h = 5); if ($preview) cube(30);",
]
# Shapes in the plane and in space in one join: those of the first one's dimension count.
MIXED = [
    "cube(2); square(5);",
    "group(); cube(2);",
    "union() { square(0); } cube(2);",
    "difference() { cube(4); square(2); translate([-1, -1, -1]) cube(2); }",
    "hull() { cube(4); square(9); }",
    "minkowski() { cube(4); square(2); translate([3, 3, 3]) cube(2); }",
    "union() { cube(2); union() { square(9); cube(5); } }",
    "union() { cube(2); union() { cube(5); square(9); } }",
    "linear_extrude(3) { square(2); cube(9); }",
    "linear_extrude(3) { union() { cube(9); square(2); } square(1); }",
    "linear_extrude(3) difference() { square(4); cube(9); square(1); }",
    "rotate_extrude($fn = 8) { translate([1, 0]) square(2); cube(9); }",
    "resize([4, 4, 4]) { cube(2); square(8); }",
    "linear_extrude(1) offset(delta = 1) { cube(2); square(3); }",
]
OF_NOTHING = [
    "cube(1); hull() { difference() { cube(1); cube(2); } }",
    "cube(1); hull() { cube(0); }",
    "cube(1); hull() {} minkowski() {} resize([5, 5, 5]) {}",
    "cube(1); resize([5, 5, 5]) difference() { cube(1); cube(2); }",
    "cube(1); minkowski() { difference() { cube(1); cube(2); } cube(3); }",
    "cube(1); linear_extrude(1) hull() difference() { square(1); square(2); }",
    "cube(1); polyhedron(); linear_extrude(2) { polygon(undef); square(1); }",
]
FACING_INWARD = [
    "translate([9, 0, 0]) cube(1); " + INWARD,
    "difference() { cube(2); " + INWARD + " }",
]
SLICES = [
    "linear_extrude(height = 5, scale = [1, 2], slices = 4) square(3);",
    "linear_extrude(height = 5, scale = [1, 2], $fs = 0.5) square(3);",
    "linear_extrude(height = 5, twist = 30, slices = 2.9) translate([1, 1]) square(3);",
    "linear_extrude(height = 5, twist = 30, $fa = -5, $fs = 0) square(3, center = true);",
    "linear_extrude(height = 5, twist = 90, $fa = 0, $fs = 0.5) square(3, center = true);",
]
FRAGMENTS = [
    "rotate_extrude($fa = -5, $fs = 0.5) translate([3, 0]) square(3);",
    "rotate_extrude($fa = 0, $fs = 0.5) translate([3, 0]) square(3);",
    "cylinder(r = 3, h = 1, $fn = 1 / 0); translate([9, 0, 0]) cylinder(r = 3, h = 1, $fn = -5);",
]
TERRAINS = [
    'surface("small.dat", center = true);',
    'rotate([20, 30, 40]) surface("small.dat");',
    'intersection() { surface("small.dat"); rotate(45) surface("small.dat"); }',
    'difference() { translate([0, 0, -3]) cube([3, 3, 6]); surface("flat.dat"); }',
]
NOTHING = {
    "square(5); cube(2);": "WrongDimension",
    "square(0); cube(2);": "WrongDimension",
    "cube(0); square(2);": "Empty",
    "translate([1, 0, 0]) { square(3); cube(2); }": "WrongDimension",
    "intersection() { cube(4); square(2); translate([1, 1, 1]) cube(9); }": "Empty",
    "difference() { group(); cube(3); }": "Empty",
    "linear_extrude(3) cube(9);": "Empty",
    "linear_extrude(3) intersection() { square(4); cube(9); }": "Empty",
    "linear_extrude(3) difference() { cube(9); square(4); square(1); }": "Empty",
    "intersection() { cube(3); linear_extrude(0) square(1); }": "Empty",
    "hull() { difference() { cube(1); cube(2); } }": "Empty",
}


@needs_openscad
@needs_program
class Judged(Calls):
    def setUp(self):
        super().setUp()
        self.environment["SCADSERVE"] = PROGRAM
        self.write("small.dat", "0 0 1\n2 5 1\n-3 0 0\n")
        self.write("flat.dat", "1 1 1 2\n1 1 1 2\n1 1 4 2\n")

    def of_openscad(self, name):
        """What OpenSCAD makes of a source, None where that is nothing."""
        out = self.path(f"{name}.theirs")
        subprocess.run(
            ["openscad", "-o", f"{out}.off", self.path(f"{name}.scad")], capture_output=True, check=False, timeout=50
        )
        if not os.path.exists(f"{out}.off"):
            return None
        with open(f"{out}.off", encoding="ascii") as file:
            return of_off(file.read())

    def both(self, sources):
        """What is said about sources in one call, and both meshes of each."""
        names = [self.write(f"part{at}.scad", source)[: -len(".scad")] for at, source in enumerate(sources)]
        words = ["--by-openscad", "--format", "off", "-d", "out", *(f"{it}.scad" for it in names)]
        status, _, said = self.call(*words, tool=SCAD2STL)
        with ThreadPoolExecutor(4) as pool:
            theirs = list(pool.map(self.of_openscad, names))
        ours = []
        for it in names:
            there = os.path.exists(self.path(f"out/{it}.off"))
            ours.append(of_off(self.read(f"out/{it}.off").decode()) if there else None)
        return status, said.decode(), list(zip(sources, ours, theirs))

    def assert_same(self, sources):
        """Box and volume of each are OpenSCAD's."""
        status, said, found = self.both(sources)
        for source, ours, theirs in found:
            with self.subTest(source=source):
                self.assertIsNotNone(theirs)
                self.assertIsNotNone(ours, said)
                self.assertLess(abs(ours.volume() / theirs.volume() - 1), 2e-3)
                for (low, high), (their_low, their_high) in zip(ours.box(), theirs.box()):
                    self.assertLess(max(abs(low - their_low), abs(high - their_high)), 5e-3)
        self.assertEqual(status, 0, said)

    def test_what_is_evaluated_as_for_an_export(self):
        self.assert_same(EXPORTED)

    def test_joins_of_shapes_in_the_plane_and_in_space(self):
        self.assert_same(MIXED[:7])

    def test_extrusions_of_them(self):
        self.assert_same(MIXED[7:])

    def test_joins_of_nothing(self):
        self.assert_same(OF_NOTHING)

    def test_faces_that_look_inward_all_of_them(self):
        self.assert_same(FACING_INWARD)

    def test_slices(self):
        self.assert_same(SLICES)

    def test_fragments(self):
        self.assert_same(FRAGMENTS)

    def test_terrains(self):
        self.assert_same(TERRAINS)

    def test_a_terrain_past_the_limits_of_a_source(self):
        # (1,152 triangles, of which few lie on one plane)
        rows = [" ".join(str((7 * x * x + 3 * x * y + 11 * y) % 13) for x in range(25)) for y in range(25)]
        self.write("wide.dat", "\n".join(rows) + "\n")
        self.assert_same(['surface("wide.dat");'])

    def test_what_openscad_makes_nothing_of_is_a_fault(self):
        status, said, found = self.both(NOTHING)
        self.assertEqual(status, 1)
        for at, (source, ours, theirs) in enumerate(found):
            with self.subTest(source=source):
                self.assertIsNone(theirs)
                self.assertIsNone(ours)
                words = re.findall(rf"^part{at}\.scad: error: (\w+): ", said, re.MULTILINE)
                self.assertEqual(words, [NOTHING[source]], said)


if __name__ == "__main__":
    unittest.main()
