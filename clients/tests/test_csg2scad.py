"""The conversion of OpenSCAD's evaluated form: sources by hand, what is told, and what is refused."""

import math
import unittest
from fractions import Fraction

from scadserve.tools import csg2scad
from scadserve.openscad.conversion import Wanted, converted
from scadserve.openscad.grid import Rounder, split
from scadserve.openscad.reader import CsgFault, read
from scadserve.openscad.space import Space
from scadserve.openscad.tree import IDENTITY, Detail, leaves
from scadserve.openscad.exact_hull import hull, volume6
from scadserve.openscad.front import Front
from tests.tool_case import Case

TURN = "multmatrix([[1, 0, 0, 0], [0, 0.866025, -0.5, 0], [0, 0.5, 0.866025, 0], [0, 0, 0, 1]])"


def lines(text, **wanted):
    """The lines of the source that a text comes to, without comments."""
    found = converted(read(text), Wanted(**wanted), Front("."))
    return [it for it in found.text.decode().splitlines() if not it.startswith("//")]


def solid(text, most=0.0):
    detail = Detail(most)
    return Space(detail, Front(".").flat, Front(".").solid).solid(read(text), IDENTITY), detail


def bodies(text, unit=Fraction(1, 100)):
    """The hulls of the leaves of a text on the grid."""
    return [it.hull for it in leaves(Rounder(1024).rounded(solid(text)[0], unit).tree)]


def tetrahedron(first, second, third, fourth):
    points = [first, second, third, fourth]
    faces = [[0, 1, 2], [0, 3, 1], [1, 3, 2], [2, 3, 0]]
    return f"polyhedron(points = {[list(it) for it in points]}, faces = {faces}, convexity = 1);"


class Shapes(unittest.TestCase):
    UNIT = {"unit": Fraction(1)}

    def test_a_box(self):
        cube = "translate([-2500, -2625, -750]) cube([5000, 5250, 1500]);"
        self.assertEqual(lines("cube(size = [10, 10.5, 3], center = true);"), [cube])
        cube = "translate([0, 0, 0]) cube([2, 3, 4]);"
        self.assertEqual(lines("cube(size = [2, 3, 4], center = false);", **self.UNIT), [cube])

    def test_a_cylinder_and_a_ring_have_openscads_corners(self):
        cylinder = "cylinder($fn = 4, $fa = 12, $fs = 2, h = 5, r1 = {0}, r2 = {0}, center = false);"
        square = "linear_extrude(5) polygon([[-2, 0], [0, -2], [2, 0], [0, 2]]);"
        self.assertEqual(lines(cylinder.format(2), **self.UNIT), [square])
        turned = (
            "rotate_extrude(angle = 360, $fn = 4) { multmatrix([[1, 0, 0, 2], [0, 1, 0, 0], [0, 0, 1, 0], [0, 0, 0, 1]]) {"
            " square(size = [1, 3], center = false); } }"
        )
        self.assertEqual(
            lines(turned, **self.UNIT),
            ["difference() {", "linear_extrude(3) polygon([[-3, 0], [0, -3], [3, 0], [0, 3]]);",
             "linear_extrude(3) polygon([[-2, 0], [0, -2], [2, 0], [0, 2]]);", "}"],
        )  # fmt: skip

    def test_fragments_are_those_of_the_manual(self):
        # (360 / 12 = 30, 2 pi r / 2 for r = 2 is 6.3, and never fewer than 5; $fn goes before)
        for given, radius, count in (("$fn = 0, $fa = 12, $fs = 2", 20, 30), ("$fn = 0, $fa = 12, $fs = 2", 2, 7),
                                     ("$fn = 0, $fa = 12, $fs = 2", 0.5, 5), ("$fn = 9, $fa = 12, $fs = 2", 20, 9),
                                     ("$fn = 1, $fa = 12, $fs = 2", 20, 3)):  # fmt: skip
            [leaf] = leaves(solid(f"cylinder({given}, h = 1, r1 = {radius}, r2 = {radius}, center = false);")[0])
            self.assertEqual(len(leaf.corners), 2 * count)

    def test_slices_are_openscads(self):
        # (as its version 2021.01 makes them: 411 / 360 times 30 or 20, and 30 for a whole turn)
        for given, radius, count in (
            ("height = 100, twist = 411, $fn = 0", 20, 35),
            ("height = 100, twist = 411, $fn = 20", 20, 23),
            ("height = 10, twist = 360, $fn = 0", 14, 30),
            ("height = 10, twist = 90, slices = 4", 3, 4),
        ):
            text = f"linear_extrude({given}, $fa = 12, $fs = 2) {{ circle($fn = 4, r = {radius}); }}"
            self.assertEqual(len(list(leaves(solid(text)[0]))), count)

    def test_hulls_and_sums_of_boxes(self):
        pair = (
            "cube(size = [2, 2, 2], center = false); multmatrix([[1, 0, 0, 4], [0, 1, 0, 0], [0, 0, 1, 0], [0, 0, 0, 1]]) {"
            " cube(size = [1, 2, 2], center = false); }"
        )
        self.assertEqual(lines(f"hull() {{ {pair} }}", **self.UNIT), ["translate([0, 0, 0]) cube([5, 2, 2]);"])
        cube = "translate([4, 0, 0]) cube([3, 4, 4]);"
        self.assertEqual(lines(f"minkowski(convexity = 0) {{ {pair} }}", **self.UNIT), [cube])
        self.assertEqual(
            lines("resize(newsize = [6, 0, 0], auto = [0, 1, 0]) { cube(size = [2, 2, 2], center = false); }", **self.UNIT),
            ["translate([0, 0, 0]) cube([6, 6, 2]);"],
        )

    def test_outlines_with_holes_and_bays(self):
        hole = "linear_extrude(height = 1) { polygon(points = [[0, 0], [9, 0], [9, 9], [0, 9], [2, 2], [4, 2], [4, 4]], " \
            "paths = [[0, 1, 2, 3], [4, 5, 6]], convexity = 1); }"  # fmt: skip
        outer, inner = bodies(hole, Fraction(1))
        self.assertEqual((volume6(outer), volume6(inner)), (6 * 81, 6 * 2))
        bay = (
            "linear_extrude(height = 2) {"
            " polygon(points = [[0, 0], [9, 0], [9, 3], [3, 3], [3, 9], [0, 9]], paths = undef); }"
        )
        self.assertEqual(sum(map(volume6, bodies(bay, Fraction(1)))), 6 * 2 * (27 + 18))

    def test_sides_of_a_turned_prism_stay_flat(self):
        [body] = bodies(TURN + "{ cylinder($fn = 12, h = 9.37, r1 = 5, r2 = 5, center = false); }")
        # (the ends are across (0, -1, 1.732), and no side is)
        def is_side(plane):
            return abs(1.732 * plane[2] - plane[1]) < 0.5 * math.hypot(*plane[:3])

        sides = [(ring, plane) for plane, ring in body.facets.items() if is_side(plane)]
        self.assertEqual([len(ring) for ring, _ in sides], [4] * 12)

    def test_what_turned_parts_have_in_common_they_still_have(self):
        stacked = (
            "{{ cube(size = [3.3, 4.7, 5.1], center = false);"
            " multmatrix([[1, 0, 0, 0], [0, 1, 0, 0], [0, 0, 1, {0}], [0, 0, 0, 1]])"
            " {{ cube(size = [3.3, 4.7, 2.9], center = false); }} }}"
        )
        lower, upper = bodies(TURN + stacked.format(5.1))
        self.assertEqual(len(set(lower.corners) & set(upper.corners)), 4)

    def test_polyhedra(self):
        [body] = bodies(tetrahedron((0, 0, 0), (3, 0, 0), (0, 3, 0), (0, 0, 3)), Fraction(1))
        self.assertEqual(volume6(body), 27)
        # (a cube of 10 whose upper side is pushed in by 4: a pyramid of 10 * 10 * 4 / 3 is missing)
        points = [[x, y, z] for z in (0, 10) for x, y in ((0, 0), (10, 0), (10, 10), (0, 10))] + [[5, 5, 6]]
        faces = [[0, 1, 2, 3], [4, 5, 1, 0], [5, 6, 2, 1], [6, 7, 3, 2], [7, 4, 0, 3]]
        faces += [[5, 4, 8], [6, 5, 8], [7, 6, 8], [4, 7, 8]]
        found = bodies(f"polyhedron(points = {points}, faces = {faces}, convexity = 1);", Fraction(1, 2))
        self.assertEqual(sum(map(volume6, found)), 6 * 8 * 1000 - 6 * 8 * 400 // 3)

    def test_much_that_is_turned_alike_keeps_its_planes(self):
        steps = "".join(
            f"multmatrix([[1, 0, 0, {4 * x}], [0, 1, 0, {4 * y}], [0, 0, 1, {4 * z}], [0, 0, 0, 1]])"
            " { cube(size = [2, 2, 2], center = false); }"
            for x in range(6) for y in range(6) for z in range(6)
        )  # fmt: skip
        slanted = (
            "multmatrix([[0.707107, -0.612372, 0.353553, 0], [0.707107, 0.612372, -0.353553, 0], [0, 0.5, 0.866025, 0], [0, 0, "
            "0, 1]])"
        )
        found = converted(read(f"{slanted} {{ {steps} }}"), Wanted(), Front("."))
        self.assertLess(found.off, 0.3)


class Joins(unittest.TestCase):
    CUBE, OTHER = "cube(size = [4, 4, 4], center = false);", "cube(size = [1, 1, 9], center = false);"

    def test_nothing_cuts_nothing_and_is_joined_as_openscad_does(self):
        self.assertEqual(len(lines(f"difference() {{ {self.CUBE} group(); }}")), 1)
        self.assertEqual(len(lines(f"difference() {{ %{self.OTHER} {self.CUBE} }}")), 1)
        self.assertEqual(len(lines(f"hull() {{ group(); {self.CUBE} }}")), 1)

    def test_a_hull_takes_the_corners_of_faces_that_close_no_body(self):
        # (the corners 0 to 3 are those of a tetrahedron, and no face has the last)
        points = "points = [[0, 0, 0], [3, 0, 0], [0, 3, 0], [0, 0, 3], [9, 9, 9]]"
        four, two = (f"polyhedron({points}, faces = {it});" for it in ("[[0, 1, 2, 3]]", "[[0, 1], [3, 2]]"))
        mirror = "multmatrix([[-1, 0, 0, 0], [0, 1, 0, 0], [0, 0, 1, 0], [0, 0, 0, 1]])"
        cube = "cube(size = [4, 1, 1], center = false);"
        corners = [(0, 0, 0), (0, 0, 3), (0, 3, 0), (3, 0, 0)]
        for text, expected in (
            (four, corners),
            (two, corners),
            (f"color([1, 0, 0, 1]) {{ {mirror} {{ group() {{ {four} }} }} }}", [(-x, y, z) for x, y, z in corners]),
            (f"{cube} {four}", sorted([*corners[:3], *((4, y, z) for y in (0, 1) for z in (0, 1))])),
        ):
            (body,) = bodies(f"hull() {{ {text} }}", Fraction(1))
            self.assertEqual(sorted(body.corners), sorted(expected))
        # (where it is joined with another shape first, OpenSCAD wants it closed)
        with self.assertRaises(CsgFault) as caught:
            bodies(f"hull() {{ group() {{ {cube} polyhedron({points}, faces = [[0, 1, 2], [0, 3, 1]]); }} }}")
        self.assertEqual(caught.exception.word, "NotClosed")
        self.assertEqual(len(lines(f"minkowski() {{ group(); {self.CUBE} }}")), 1)
        nothing = (f"difference() {{ group(); {self.CUBE} }}", f"intersection() {{ {self.CUBE} group(); }}")
        for text in (*nothing, "", "%" + self.CUBE):
            with self.assertRaises(CsgFault) as caught:
                lines(text)
            self.assertEqual(caught.exception.word, "Empty")

    def test_deep_joins_are_modules(self):
        text = self.CUBE
        for _ in range(60):
            text = f"difference() {{ {text} {self.OTHER} }}"
        found = lines(text)
        self.assertTrue(found[0].startswith("module part_1()"))
        self.assertEqual(sum(1 for it in found if it == "difference() {"), 60)


class Limits(unittest.TestCase):
    BALL = "sphere($fn = {0}, $fa = 12, $fs = 2, r = 10);"

    def test_a_large_hull_is_cut_into_parts_that_fill_it(self):
        [leaf] = leaves(solid(self.BALL.format(20))[0])
        body = hull(tuple(round(it * 100) for it in corner) for corner in leaf.corners)
        parts = split(body)
        self.assertGreater(len(body.corners), 128)
        self.assertTrue(all(len(it.corners) <= 128 for it in parts))
        self.assertEqual(sum(map(volume6, parts)), volume6(body))

    def test_a_large_hull_without_levels_is_cut_into_parts_with_all_its_facets(self):
        [leaf] = leaves(solid(self.BALL.format(24))[0])
        turned = [(3 * x + y - z, x + 4 * y + 2 * z, 2 * x - y + 3 * z) for x, y, z in leaf.corners]
        body = hull(tuple(round(it * 40) for it in corner) for corner in turned)
        parts = split(body)
        self.assertTrue(all(len(it.corners) <= 128 for it in parts))
        self.assertEqual({plane for plane in body.facets}, {plane for it in parts for plane in it.facets} & set(body.facets))
        self.assertLessEqual(max(map(volume6, parts)), volume6(body))

    def test_corners_are_left_out_where_planes_run_out_and_that_is_told(self):
        many = "".join(
            f"multmatrix([[1, 0, 0, {30 * at}], [0, 1, 0, 0], [0, 0, 1, 0], [0, 0, 0, 1]]) {{ {self.BALL.format(30)} "
            f"}}" for at in range(3)
        )
        with self.assertRaises(CsgFault) as caught:
            converted(read(many), Wanted(is_exact=True), Front("."))
        self.assertEqual(caught.exception.word, "TooManyPlanes")
        found = converted(read(many), Wanted(), Front("."))
        self.assertIn("fewer corners on curves", "".join(found.told))
        self.assertIn("3 sphere", "".join(found.told))
        # (a ball of 10 with 12 corners round it is off by 10 (1 - cos 15 degrees) = 0.34 twice, and these have more)
        self.assertTrue(0 < found.off < 0.7)

    def test_as_little_as_suffices_is_left_out(self):
        # (200 slices have twice as many planes as a part may have, and a quarter of them are off by little)
        text = (
            "linear_extrude(height = 40, center = true, twist = -360, slices = 200, scale = [0, 0]) { square(size = [20, 10]); "
            "}"
        )
        found = converted(read(text), Wanted(), Front("."))
        self.assertIn("1 linear_extrude (45 of 200 at least)", "".join(found.told))
        self.assertLess(found.off, 0.25)

    def test_the_kept_corners_of_a_circle_have_its_box_and_are_as_near_as_told(self):
        for count in (30, 31, 32, 100, 360):
            [leaf], detail = (lambda it: (list(leaves(it[0])), it[1]))(
                solid(f"cylinder($fn = {count}, h = 1, r1 = 10, r2 = 10, center = false);", 0.4)
            )
            [whole] = leaves(solid(f"cylinder($fn = {count}, h = 1, r1 = 10, r2 = 10, center = false);")[0])
            self.assertLess(len(leaf.corners), len(whole.corners))
            self.assertLessEqual(set(leaf.corners), set(whole.corners))
            self.assertTrue(0 < detail.off <= 0.4)
            for axis in range(3):
                for end in (min, max):
                    self.assertAlmostEqual(end(it[axis] for it in leaf.corners), end(it[axis] for it in whole.corners))

    def test_a_hexagon_stays_one(self):
        [leaf] = leaves(solid("cylinder($fn = 6, h = 1, r1 = 10, r2 = 10, center = false);", 50)[0])
        self.assertEqual(len(leaf.corners), 12)

    def test_the_unit_is_the_finest_with_room_or_one_on_which_nothing_moves(self):
        for side, unit in (("4", "1/1000"), ("40", "1/100"), ("100", "1/40"), ("400", "1/10"), ("5000", "2")):
            text = f"cube(size = [{side}, {side}, {side}], center = false);"
            self.assertEqual(converted(read(text), Wanted(), Front(".")).unit, Fraction(unit))
        # (an eighth isn't on the grid of 1/20, which has room for 200, but on that of 1/8)
        found = converted(read("cube(size = [200, 0.125, 1], center = false);"), Wanted(), Front("."))
        self.assertEqual((found.unit, found.off), (Fraction(1, 8), 0.0))

    def test_small_parts_have_finer_steps(self):
        # (a step of 1/1000 where no corner moves on it; else the finest of which 4,095 reach the part's end)
        for side, unit, steps in (
            ("0.2", "1/1000", 200), ("0.3333", "1/10000", 3333), ("0.12347", "1/20000", 2469), ("0.50008", "1/5000", 2500),
            ("1.0003", "1/4000", 4001), ("2.0003", "1/2000", 4001), ("3.0003", "1/1000", 3000), ("0.0001", "1/10000", 1),
            ("0.0125", "1/2000", 25),
        ):  # fmt: skip
            text = f"cube(size = [{side}, {side}, {side}], center = false);"
            found = converted(read(text), Wanted(), Front("."))
            self.assertEqual(found.unit, Fraction(unit))
            self.assertTrue(found.text.decode().startswith(f"// unit: {unit}\n"))
            self.assertEqual(found.text.decode().splitlines()[-1], f"translate([0, 0, 0]) cube([{steps}, {steps}, {steps}]);")
            # (the corner that is moved is moved along three axes, by what is left over)
            self.assertAlmostEqual(found.off, abs(float(side) - steps * float(Fraction(unit))) * math.sqrt(3), 12)
        text = "cube(size = [0.12347, 1, 1], center = false);"
        self.assertEqual(lines(text, unit=Fraction(1, 100)), ["translate([0, 0, 0]) cube([12, 100, 100]);"])

    def test_what_vanishes_is_told_with_its_place(self):
        found = converted(
            read("cube(size = [9, 9, 9], center = false);\n cube(size = [20, 0.3, 2], center = false);"),
            Wanted(unit=Fraction(1), tolerance=Fraction(1)),
            Front("."),
        )
        self.assertIn("cube at 2:2", found.told[1])
        self.assertIn("corners moved by 0.3 at most", found.told[0])

    def test_room(self):
        with self.assertRaises(CsgFault) as caught:
            lines("cube(size = [99, 1, 1], center = false);", unit=Fraction(1, 100))
        self.assertEqual(caught.exception.word, "OutOfRange")


class Refusals(unittest.TestCase):
    def test_each_names_the_node_and_its_place(self):
        turned = "rotate_extrude(angle = 360, $fn = 8) { square(size = [4, 4], center = true); }"
        points = "points = [[0, 0, 0], [1, 0, 0], [0, 1, 0], [0, 0, 1]]"
        for text, word, said in (
            ("group() {\n  wedge(h = 3);\n}", "UnknownModule", "2:3: UnknownModule: wedge"),
            ("square(size = [1, 1], center = false);", "WrongDimension", "1:1: WrongDimension: square: the design is flat"),
            ("linear_extrude(height = 1) { cube(size = [1, 1, 1]); "
             "}", "Empty", "1:1: Empty: this design makes no solid at all"),
            ("cube(size = [1, true, 1]);", "BadArgument", "1:1: BadArgument: cube: size"),
            ("cube(size = [1, nan, 1]);", "Empty", "1:1: Empty: this design makes no solid at all"),
            ("multmatrix([[1, 0, 0, 0], [0, 1, 0, 0], [0, 0, 1, 0], [0, 0, 1, 1]]) { cube(size = [1, 1, 1]); "
             "}", "BadArgument", "multmatrix"),
            (turned, "BadArgument", "1:1: BadArgument: rotate_extrude"),
            (f"polyhedron({points}, faces = [[0, 1, 2], [0, 3, 1]]);", "NotClosed", "1:1: NotClosed: polyhedron"),
            (f"polyhedron({points}, faces = [[0, 1, 9]]);", "BadPoint", "1:1: BadPoint: polyhedron"),
            (
                tetrahedron((0, 0, 0), (0, 3, 0), (3, 0, 0), (3, 3, 0)),
                "NotConvex",
                "1:1: NotConvex: polyhedron: its faces bound no volume",
            ),
        ):
            with self.assertRaises(CsgFault) as caught:
                lines(text)
            self.assertEqual(caught.exception.word, word)
            self.assertIn(said, str(caught.exception))

    def test_a_plan_may_be_made_a_solid(self):
        found = lines("square(size = [2, 3], center = false);", unit=Fraction(1), height=Fraction(4))
        self.assertEqual(found, ["translate([0, 0, 0]) cube([2, 3, 4]);"])


class Tool(Case):
    tool = csg2scad

    def test_a_file_is_written_and_what_changed_is_told(self):
        source = self.file("part.csg", b"cube(size = [2.5, 1, 1], center = false);\n")
        status, said = self.call(source, "-o", self.path("part.scad"))
        self.assertEqual((status, said), (0, "part.csg: on a grid of 1/1000: no corner moved\n"))
        self.assertEqual(self.bytes_of("part.scad"), b"// unit: 1/1000\ntranslate([0, 0, 0]) cube([2500, 1000, 1000]);\n")

    def test_faults(self):
        bad = self.file("bad.csg", b"group() {\n\tcube(size = [1, 1);\n}\n")
        self.assert_fault(1, [bad, "-o", self.path("x.scad")], "bad.csg:2:19: error: Expected: ")
        self.assert_fault(2, [self.path("none.csg")], "csg2scad: cannot open none.csg: No such file or directory")
        self.assert_fault(2, [bad, "--unit", "0"], "csg2scad: argument --unit: '0' is not a number above 0")
        self.assert_fault(2, [bad, "--planes", "2000"], "csg2scad: argument --planes")
        self.assert_fault(2, [bad, "-o", bad], "that is the evaluated form itself")
        self.assert_fault(2, [bad, "--none"], "csg2scad: unrecognized arguments: --none")


if __name__ == "__main__":
    unittest.main()
