"""Faults by OpenSCAD's front end: each at the place that OpenSCAD names, with a word and a cure that fit, and never as a part.
"""

import os
import shutil
import unittest
from unittest import mock

from scadserve.openscad.arguments import PASSED_OVER, READ
from scadserve.openscad.conversion import Wanted, converted, of_any_size
from scadserve.openscad.front import Front
from scadserve.openscad.reader import DEEPEST, CsgFault, read
from scadserve.openscad.tree import fragments
from tests.calls import TOP, Calls

needs_openscad = unittest.skipUnless(shutil.which("openscad"), "OpenSCAD is not installed")
SCAD2STL = os.path.join(TOP, "bin", "scad2stl")
CUBE = "cube(size = [1, 1, 1], center = false);"


class Told(Calls):
    """With a stand-in for the server."""

    def told(self, source, *words):
        """The status of a call, and what it says."""
        self.write("part.scad", source)
        status, out, said = self.call("--by-openscad", *words, "part.scad", "-o", "part.4off")
        self.assertEqual(out, b"")
        self.assertEqual(os.path.exists(self.path("part.4off")), status == 0)
        return status, said.decode()

    def assert_fault(self, source, line, cure, *words):
        status, said = self.told(source, *words)
        self.assertEqual(status, 1, said)
        self.assertIn(f"{line}\n", said)
        self.assertIn(f"    cure: {cure}", said)

    @needs_openscad
    def test_errors_are_told_at_openscads_place(self):
        self.write("lib.scad", "module m() { assert(1 > 2, \"no\"); cube(1); }\n")
        self.assert_fault(
            "cube(3);\ncube(\n\n;", "part.scad:4: error: Expected: Parser error: syntax error\n    ;", "look before it"
        )
        self.assert_fault(
            "cube(3);\nassert(false, \"too thin\");\n",
            "part.scad:2: error: AssertFailed: Assertion 'false' failed: \"too thin\"\n    assert(false, \"too thin\");",
            "its condition says",
        )
        self.assert_fault(
            "use <lib.scad>\n\nm();", "lib.scad:1: error: AssertFailed: Assertion '(1 > 2)' failed: \"no\"", "its condition"
        )
        self.assert_fault(
            "\nmodule r() r();\nr();", "part.scad:2: error: TooDeep: Recursion detected calling module 'r'", "let the recursion"
        )

    @needs_openscad
    def test_a_design_that_is_empty_or_flat(self):
        self.assert_fault(
            "*cube(1);",
            "part.scad: error: Empty: this design makes no solid at all",
            "look for a * or %, an if, or a difference",
        )
        said = "the design is flat, which OpenSCAD makes no solid of either: --flat 1 makes it 1 high"
        self.assert_fault(
            "square([2, 3]);", f"part.scad: error: WrongDimension: node 1, square: {said}", "linear_extrude(1) makes"
        )
        for tool, out in ((None, "part.4off"), (SCAD2STL, "part.stl")):
            status, _, said = self.call("--by-openscad", "--flat", "5/2", "part.scad", "-o", out, tool=tool)
            self.assertEqual(status, 0, said)
        [(_, script), *_] = self.runs()
        self.assertIn(b"cube([2000, 3000, 2500]);", script)

    @needs_openscad
    def test_a_fault_of_a_node_names_it_by_its_number(self):
        source = "cube(1);\ntranslate([1, 2, 3]) linear_extrude(\"plan.dxf\", height = 1);"
        source = source.replace("plan.dxf", "plan.svg")
        said = (
            "part.scad: error: BadArgument: node 3, linear_extrude: file names no .dxf file, and is read as one: import(..) "
            "inside it reads others"
        )
        self.assert_fault(source, said, "openscad --render -o part.csg PART.scad writes the nodes")
        said = said.replace("node 3, linear_extrude", "node 1, rotate_extrude")
        self.assert_fault('rotate_extrude(file = "plan.svg");', said, "openscad")

    @needs_openscad
    def test_warnings_are_counted_last_or_are_faults(self):
        source = "cube(1);\nfoo();\ntranslate(undef) cube(2);\nimport(\"none.stl\");\n"
        status, said = self.told(source)
        last = "part.scad: 3 warnings by OpenSCAD: the part may lack something; --strict makes each of them a fault"
        self.assertEqual((status, said.splitlines()[-1]), (0, last))
        status, said = self.told(source, "--strict")
        self.assertEqual(status, 1)
        for line in ("part.scad:2: error: Warned: Ignoring unknown module 'foo'\n    foo();\n",
                     "part.scad:3: error: Warned: Unable to convert translate(undef) parameter to a vec3 or vec2 of "
                     "numbers\n"):  # fmt: skip
            self.assertIn(line, said)
        status, said = self.told('import("none.stl");', "--strict")
        self.assertEqual(status, 1)
        self.assertRegex(said, r"part\.scad: error: Warned: node 1, import: Can't open import file '.*/none\.stl'")
        status, said = self.told("cube(1);")
        self.assertEqual((status, "warning" in said), (0, False))
        self.assertEqual(self.told("cube(1);", "--strict")[0], 0)

    @needs_openscad
    def test_what_is_left_out_is_told_or_a_fault(self):
        status, said = self.told("cube(1);\nsquare(4);")
        self.assertEqual(status, 0)
        self.assertIn(
            "since shapes in the plane and in space are joined, of which the first one's count: square at 2:1, node 2\n", said
        )
        self.assertIn("1 warning by OpenSCAD", said.splitlines()[-1])
        said = (
            "part.scad: error: WrongDimension: node 2, square: OpenSCAD leaves it out: shapes in the plane and in space are "
            "joined, of which the first one's count"
        )
        self.assert_fault("cube(1);\nsquare(4);", said, "linear_extrude", "--strict")

    @needs_openscad
    def test_a_nul_byte_is_refused_wherever_openscad_would_stop_reading(self):
        self.write("lib.scad", b"module m() cube(1);\n//\0\nmodule k() cube(2);\n")
        self.assert_fault(
            b"cube(3);\0cube([1, 20, 30]);", "part.scad:1:9: error: BadCharacter: \\x00 can't stand here", "save it as plain"
        )
        for word in ("include", "use"):
            self.assert_fault(
                f"{word} <lib.scad>\nm();", "lib.scad:2:3: error: BadCharacter: \\x00 can't stand here", "save it as plain"
            )
        # (what is named in a comment or a text is not read)
        self.assertEqual(self.told('// include <lib.scad>\n/* use <lib.scad> */ echo("use <lib.scad>"); cube(1);')[0], 0)

    def test_a_pipe_is_refused_and_not_waited_for(self):
        os.mkfifo(self.path("pipe.scad"))
        cure = "copy it to an ordinary file"
        for word in ("include", "use"):
            source = f"cube(1);\n{word} <pipe.scad>"
            self.assert_fault(source, f"part.scad:2:1: error: NoFile: pipe.scad is a pipe\n    {word} <pipe.scad>", cure)
        status, _, said = self.call("--by-openscad", "pipe.scad")
        self.assertEqual(status, 1)
        self.assertIn(b"pipe.scad:1: error: NoFile: pipe.scad is a pipe\n", said)
        # (and so it is without OpenSCAD)
        status, _, said = self.call("part.scad")
        self.assertEqual((status, said.decode().splitlines()[0]), (1, "part.scad:2:1: error: NoFile: pipe.scad is a pipe"))

    @needs_openscad
    def test_an_imported_pipe_is_refused(self):
        os.mkfifo(self.path("pipe.stl"))
        self.assert_fault(
            'import("pipe.stl");', "part.scad: error: NoFile: node 1, import: pipe.stl is not an ordinary file", "openscad"
        )

    @needs_openscad
    def test_what_is_far_off_is_refused_unless_it_is_asked_for(self):
        # (a slice that turns so far has hollow sides, and no convex parts: its hull is off by much)
        turned = "linear_extrude(height = 5, twist = 200, slices = 1) translate([8, 0]) square([4, 2]);"
        status, said = self.told(turned)
        self.assertEqual(status, 1)
        self.assertRegex(
            said, r"part\.scad: error: TooCoarse: a point is off by [0-9.]+, and 0\.[0-9]+ is allowed: --tolerance"
        )
        self.assertEqual(self.told(turned, "--fewer")[0], 0)
        self.assertEqual(self.told(turned, "--tolerance", "99")[0], 0)
        self.assertIn("and 1 is allowed", self.told(turned, "--fewer", "--tolerance", "1")[1])

    def test_words_that_are_for_openscad_alone(self):
        self.write("part.scad", "cube(1);\n")
        for words in (["--flat", "1"], ["--strict"], ["--tolerance", "1"], ["--fewer"]):
            status, _, said = self.call(*words, "part.scad")
            self.assertEqual((status, said), (2, f"scad2off: {words[0]} is for --by-openscad\n".encode()))
        status, _, said = self.call("--by-openscad", "--exact", "--fewer", "part.scad")
        self.assertEqual((status, said), (2, b"scad2off: --exact and --fewer can't both be given\n"))


class Forms(unittest.TestCase):
    """Evaluated forms that OpenSCAD doesn't write."""

    def fault(self, text, **wanted):
        with self.assertRaises(CsgFault) as caught:
            converted(read(text), Wanted(**wanted), Front("."))
        return str(caught.exception)

    def test_each_argument_of_a_node_is_read_or_passed_over_with_a_reason_or_refused(self):
        for name in READ:
            with self.assertRaises(CsgFault) as caught:
                read(f"{name}(\n  wrong = 1);")
            self.assertEqual(str(caught.exception), f"2:3: BadArgument: {name}: wrong is not an argument that is read here")
        for (name, argument), reason in PASSED_OVER.items():
            self.assertNotIn(argument, READ[name])
            self.assertGreater(len(reason.split()), 3)
            of_file = 'file = "plan.dxf", ' * (argument == "timestamp")
            self.assertEqual(read(f"{name}({of_file}{argument}{' = ' * bool(argument)}1) ;")[0].name, name)

    def test_an_extrusion_of_a_file_is_that_of_its_import(self):
        named = 'file = "plan.dxf", layer = "cut", origin = [1, 2]'
        [node] = read(f"linear_extrude({named}, scale = [2, 3], timestamp = 7, height = 4, $fn = 9);")
        self.assertEqual(node.arguments, {"scale": [2.0, 3.0], "height": 4.0, "$fn": 9.0})
        [plan] = node.children
        of_plan = {"file": "plan.dxf", "layer": "cut", "origin": [1.0, 2.0], "scale": 2.0, "$fn": 9.0}
        self.assertEqual((plan.name, plan.arguments), ("import", of_plan))
        [node] = read(f"rotate_extrude({named}, scale = 2, angle = 90);")
        self.assertEqual((node.arguments, node.children[0].arguments["scale"]), ({"angle": 90.0}, 2.0))
        for text, said in (
            ('linear_extrude(file = "plan.svg", height = 1);', "file names no .dxf file"),
            ("rotate_extrude(scale = 2) { square(size = [1, 1]); }", "it has scale and no file"),
            ('linear_extrude(file = "plan.dxf", height = 1) { square(size = [1, 1]); }', "a ; should stand here"),
        ):
            with self.assertRaises(CsgFault) as caught:
                read(text)
            self.assertIn(said, str(caught.exception))

    def test_an_infinite_size_makes_nothing_and_is_told(self):
        for shape in (
            "cube(size = [inf, 1, 1]);", "sphere($fn = 8, r = nan);", "cylinder($fn = 8, h = 1, r1 = 1, r2 = inf);",
            "linear_extrude(height = 1) { square(size = [1, nan]); }",
            "linear_extrude(height = 1) { circle($fn = 8, r = inf); }",
        ):  # fmt: skip
            found = converted(read(CUBE + shape), Wanted(), Front("."))
            self.assertEqual(found.text.count(b"cube("), 1)
            self.assertNotIn(b"polygon", found.text)
            self.assertTrue(any("since a size is infinite or undefined" in it for it in found.told), shape)
        self.assertIn("Empty", self.fault("sphere($fn = 8, r = inf);"))

    def test_a_polyhedron_that_is_turned_is_told(self):
        faces = "[[0, 2, 1], [0, 1, 3], [0, 3, 2], [1, 2, 3]]"
        text = f"polyhedron(points = [[0, 0, 0], [3, 0, 0], [0, 3, 0], [0, 0, 3]], faces = {faces}, convexity = 1);"
        told = "turned, since all faces looked inward: polyhedron at 1:1, node 1"
        self.assertIn(told, converted(read(text), Wanted(), Front(".")).told)
        # (and one whose faces look outward is not)
        outward = text.replace(faces, "[[0, 1, 2], [0, 3, 1], [0, 2, 3], [1, 3, 2]]")
        self.assertNotIn("turned", "".join(converted(read(outward), Wanted(), Front(".")).told))

    def test_slices_that_would_vanish_are_joined(self):
        text = "linear_extrude(height = 30, scale = [2, 3], $fn = 0) { square(size = [200, 200]); }"
        found = of_any_size(read(text), Wanted(), Front("."))
        self.assertTrue(any("fewer slices, since they are thinner than the grid" in it for it in found.told))
        self.assertFalse(any("without pieces" in it for it in found.told))

    def test_what_would_be_lost_is_refused(self):
        for text, said in (
            (f"cube(size = [2, 2, 2]) {{ {CUBE} }}", "1:24: Expected: a ; should stand here"),
            ("cube(size = [2, 2, 2], center = 1);", "1:1: BadArgument: cube: center is neither true nor false"),
            ("cube(size = [2, 1e300, 2]);", "1:1: OutOfRange: cube: size holds 1e+300, and numbers up to 1e+12 are read"),
            (
                "cylinder($fn = 1000000, h = 1, r1 = 1, r2 = 1);",
                "TooManyCorners: cylinder: it has 1000000 corners of a circle, and 10000 is the most",
            ),
            (
                "sphere($fn = 9999, r = 1);",
                "TooManyCorners: sphere: with it the curves of the design have 49995000 corners, and 400000",
            ),
            (
                "linear_extrude(height = 1, twist = 9, slices = 1e9) { square(size = [1, 1]); }",
                "it has 1000000000 slices, and 10000 is the most",
            ),
            ("multmatrix([[1e12, 0, 0, 0], [0, 1, 0, 0], [0, 0, 1, 0], [0, 0, 0, 1]]) {" * 30 + CUBE + "}" * 30, "OutOfRange"),
            ("hull() { }", "Empty: this design makes no solid at all"),
            (
                "cube(size = [0.0001, 1, 1]);",
                "Empty: this design makes no solid at all. vanished, since it is thinner than the grid: cube at 1:1, node 1",
            ),
        ):
            with self.subTest(text=text[:80]):
                self.assertIn(said, self.fault(text))

    def test_so_many_nodes_are_read(self):
        with mock.patch("scadserve.openscad.reader.MOST_NODES", 3):
            self.assertEqual(len(read(CUBE * 3)), 3)
            self.assertIn("1:118: TooManyNodes: cube: the design has more than 3 nodes", self.fault(CUBE * 4))

    def test_nodes_in_one_another_as_deep_as_they_are_read(self):
        for name in ("group", "difference", "hull"):
            found = converted(read(f"{name}() {{" * (DEEPEST - 1) + CUBE + "}" * (DEEPEST - 1)), Wanted(), Front("."))
            self.assertIn(b"cube([1000, 1000, 1000]);", found.text)

    def test_openscads_own_bounds_of_fragments_hold(self):
        # ($fa and $fs are 0.01 at least: a circle of a radius of 0.01 has 6.3 corners at a distance of 0.01)
        ball = "sphere($fn = -5, $fa = 0, $fs = 0, r = {0});"
        self.assertEqual(fragments(read(ball.format(0.01))[0], 0.01), 7)
        self.assertEqual(fragments(read(ball.format(5))[0], 5), 3142)
        self.assertIn(
            "sphere: with it the curves of the design have 4936082 corners, and 400000 is the most", self.fault(ball.format(5))
        )

    def test_what_vanishes_as_a_whole_and_what_loses_a_piece(self):
        # (an arrow whose tip is a tenth of the grid wide, and a plate that is thinner than it)
        text = (
            f"{CUBE} cube(size = [9, 9, 0.2]); linear_extrude(height = 2) {{ square(size = [8, 8]); square(size = [9, 0.3]); "
            f"}}"
        )
        told = converted(read(text), Wanted(unit=1, tolerance=1), Front(".")).told
        self.assertIn("vanished, since it is thinner than the grid: cube at 1:41, node 2", told)
        self.assertIn("without pieces that are thinner than the grid: linear_extrude at 1:67, node 3", told)


if __name__ == "__main__":
    unittest.main()
