"""The tool off2in: which points are in a solid, out of it or on its faces, compared with values by hand and with slow checks.
"""

import os
import random
import subprocess
import sys
import unittest
from fractions import Fraction
from itertools import product

from scadserve import Solid, solve
from scadserve.solid import fouroff
from scadserve.tools import off2in
from scadserve.solid.crossings import IN, ON, OUT, Crossings, NoBoundary
from tests import tool_case, touching
from tests.calls import PROGRAM, TOP, needs_program
from tests.solids import CUT_CUBE, EMPTY, box, comb, examples, gallery, off, point, split_box

HALF, THIRD = Fraction(1, 2), Fraction(1, 3)


def places(text, points):
    """What is said about points of the solid of a text."""
    faces = Crossings(fouroff.read(text))
    return [faces.place(it) for it in points]


def turned(faces):
    """The faces seen from the other side."""
    return [face[::-1] for face in faces]


class ByHand(unittest.TestCase):
    def assert_places(self, text, place, points):
        self.assertEqual(places(text, points), [place] * len(points))

    def test_a_cube(self):
        cube = off(box((0, 0, 0), (2, 2, 2)))
        self.assert_places(
            cube, IN, [(1, 1, 1), (THIRD, HALF, 1), (Fraction(1, 10**30), 1, 1), (1, 1, 2 - Fraction(1, 10**30))]
        )
        self.assert_places(cube, ON, [(0, 0, 0), (2, 2, 2), (1, 0, 0), (1, 1, 0), (1, 1, 2), (0, THIRD, HALF), (2, 2, 1)])
        self.assert_places(cube, OUT, [(3, 1, 1), (1, 1, -1), (1, 1, 2 + Fraction(1, 10**30)), (-THIRD, HALF, 1), (9999, 0, 0)])

    def test_a_corner_cut_off_in_thirds(self):
        # (the face there is on 2x + 3y + 3z = 6, and the corner (1, 1, 1) of the cube has 8)
        self.assert_places(CUT_CUBE, IN, [(HALF, HALF, HALF), (1 - Fraction(1, 100), HALF, HALF), (Fraction(7, 10),) * 3])
        self.assert_places(CUT_CUBE, ON, [(Fraction(3, 4),) * 3, (1, 1, THIRD), (1, THIRD, 1), (1, 1, 0), (HALF, HALF, 1)])
        self.assert_places(
            CUT_CUBE, OUT, [(Fraction(4, 5),) * 3, (1, 1, 1), (1, 1, HALF), (Fraction(3, 4) + Fraction(1, 10**20),) * 3]
        )

    def test_points_level_with_faces_and_edges(self):
        # (of a comb: from beside the teeth straight up each way meets edges, and along a face it lies on planes)
        text = off(comb(3))
        self.assert_places(text, IN, [(HALF, 1, 1), (HALF, HALF, 2), (2 + HALF, 1, 1), (1, 1, HALF), (2, 2, HALF)])
        self.assert_places(text, ON, [(1 + HALF, 1, 1), (1, 1, 2), (0, 0, 0), (HALF, 1, 3), (1, 0, 1), (2, 1, 1)])
        self.assert_places(text, OUT, [(1 + HALF, 1, 2), (1 + HALF, 1, 3), (3 + HALF, HALF, 1 + HALF), (5 + HALF, 1, 3)])

    def test_a_hollow_and_two_parts(self):
        faces = box((0, 0, 0), (9, 9, 9)) + turned(box((2, 2, 2), (7, 7, 7))) + box((4, 4, 4), (5, 5, 5))
        text = off(faces + box((20, 0, 0), (21, 1, 1)))
        self.assert_places(text, IN, [(1, 1, 1), (8, 4, 4), (4 + HALF, 4 + HALF, 4 + HALF), (20 + HALF, HALF, HALF), (1, 2, 2)])
        self.assert_places(text, OUT, [(3, 3, 3), (6, 6, 6), (15, HALF, HALF), (4 + HALF, 4 + HALF, 6)])
        self.assert_places(text, ON, [(2, 3, 3), (4, 4, 4), (7, 7, 7)])

    def test_parts_that_touch(self):
        edge = off(box((0, 0, 0), (1, 1, 1)) + box((1, 1, 0), (2, 2, 1)))
        self.assertEqual(
            places(edge, [(HALF,) * 3, (1 + HALF, 1 + HALF, HALF), (1, 1, HALF), (HALF, 1 + HALF, HALF)]), [IN, IN, ON, OUT]
        )
        self.assertEqual(places(off(split_box()), [(1, HALF, HALF), (1, HALF, 1)]), [IN, ON])

    def test_a_solid_of_the_package(self):
        solid = Solid(off(box((0, 0, 0), (2, 2, 2))))
        self.assertEqual([solid.place(it) for it in ((1, 1, 1), (1, 1, 2), (HALF, 3, THIRD))], [IN, ON, OUT])

    def test_nothing(self):
        self.assert_places(EMPTY, OUT, [(0, 0, 0), (1, 2, 3)])

    def test_faces_that_are_no_boundary(self):
        twice = off(box((0, 0, 0), (4, 4, 4)) + box((1, 1, 1), (3, 3, 3)))
        self.assertEqual(places(twice, [(HALF, HALF, HALF), (5, 0, 0)]), [IN, OUT])
        with self.assertRaises(NoBoundary):
            places(twice, [(2, 2, 2)])

    def test_a_way_that_touches_an_edge_is_refused(self):
        faces = Crossings(fouroff.read(off(box((0, 0, 0), (2, 2, 2)))))
        self.assertIsNone(faces.crossed((1, 1, 1, 1), (3, 3, 3, 1)), "through a corner")
        self.assertIsNone(faces.crossed((1, 1, 1, 1), (3, 1, 3, 1)), "through an edge")
        self.assertIsNone(faces.crossed((1, 1, 1, 1), (5, 1, 2, 1)), "to a point on a face's plane")
        self.assertIsNone(faces.crossed((3, 1, -1, 1), (1, -1, 3, 1)), "past the solid, at an edge")
        self.assertEqual(faces.crossed((1, 1, 1, 1), (5, 2, 3, 2)), 1)
        self.assertEqual(faces.crossed((5, 2, 3, 2), (1, 1, 1, 1)), -1)
        self.assertEqual(faces.crossed((-1, 1, 1, 1), (7, 3, 3, 2)), 0)


def in_tetrahedron(corners, at):
    """Whether a point is strictly in a tetrahedron, and whether it is in it or on it."""
    signs = []
    for p, q, r in touching.faces_of(corners):
        u, v, w = ([b - a for a, b in zip(p, x)] for x in (q, r, at))
        signs.append(sum(w[i] * (u[(i + 1) % 3] * v[(i + 2) % 3] - u[(i + 2) % 3] * v[(i + 1) % 3]) for i in range(3)))
    return all(it < 0 for it in signs), all(it <= 0 for it in signs)


class BySlowChecks(unittest.TestCase):
    def test_tetrahedra_by_chance(self):
        rolled = random.Random(7)
        for _ in range(40):
            solid = touching.some(rolled)
            points = [tuple(Fraction(rolled.randrange(-7, 60), 11) for _ in range(3)) for _ in range(20)]
            for at, found in zip(points, places(touching.text_of(solid), points)):
                strictly, closed = zip(*(in_tetrahedron(it, at) for it in solid))
                if any(strictly):
                    self.assertEqual(found, IN)
                elif not any(closed):
                    self.assertEqual(found, OUT)

    def test_a_chess_board(self):
        for plate, lid in product((False, True), repeat=2):
            points = [(10 * x + 5, 10 * y + 5, z) for x, y, z in product(range(4), range(4), (-1, 2, 6))]
            expected = [
                (z == 2 and (x // 10 + y // 10) % 2 == 0) or (plate and z == -1) or (lid and z == 6) for x, y, z in points
            ]
            self.assertEqual(places(touching.board(plate, lid), points), [IN if it else OUT for it in expected])

    def test_both_sides_of_each_face(self):
        # (by so little that no other face is between)
        little = Fraction(1, 10**9)
        for name, text in {**examples(), **gallery()}.items():
            boundary = fouroff.read(text)
            faces = Crossings(boundary)
            for plane, face in list(zip(boundary.planes, boundary.faces))[:6]:
                corners = [point(boundary.corners[it]) for it in face]
                middle = [Fraction(sum(axis), len(face)) for axis in zip(*corners)]
                size = max(map(abs, plane[:3]))
                for place, way in ((IN, -little), (ON, Fraction(0)), (OUT, little)):
                    self.assertEqual(faces.place([m + way * n / size for m, n in zip(middle, plane)]), place, f"{name} {face}")

    @needs_program
    def test_boxes_of_the_server(self):
        rolled = random.Random(9)
        for _ in range(12):
            sides = [[sorted(rolled.sample(range(8), 2)) for _ in range(3)] for _ in range(4)]
            parts = [
                f"translate([{x[0]}, {y[0]}, {z[0]}]) cube([{x[1] - x[0]}, {y[1] - y[0]}, {z[1] - z[0]}]);" for x, y, z in sides
            ]
            source = f"difference() {{ union() {{ {parts[0]} {parts[1]} }} {parts[2]} }} {parts[3]}"
            [solid] = solve([source], server=(PROGRAM,))
            assert isinstance(solid, Solid)
            for at in product((HALF, 2 + THIRD, 4 + HALF, 6 + THIRD), repeat=3):
                first, second, less, more = (all(low < it < high for it, (low, high) in zip(at, side)) for side in sides)
                expected = ((first or second) and not less) or more
                self.assertEqual(places(solid.text, [at]), [IN if expected else OUT], source)


class Tool(tool_case.Case):
    tool = off2in

    def told(self, *words):
        """The lines that a call prints."""
        done = subprocess.run(
            [sys.executable, "-S", os.path.join(TOP, "bin", "off2in"), *words], capture_output=True, check=False
        )
        self.assertEqual((done.returncode, done.stderr), (0, b""))
        return done.stdout.decode().splitlines()

    def test_a_line_for_each_point(self):
        file = self.file("a.4off", off(box((-1, -1, -1), (1, 1, 1))))
        words = ["0,0,0", "-1/2,-0.5,0.5", "-1,0,0", "1/3,-1/3,1.5"]
        self.assertEqual(self.told(file, *words), ["0,0,0 in", "-1/2,-0.5,0.5 in", "-1,0,0 on", "1/3,-1/3,1.5 out"])
        self.assertEqual(self.told(self.file("e.4off", EMPTY), "0,0,0"), ["0,0,0 out"])

    def test_standard_input(self):
        done = subprocess.run(
            [sys.executable, "-S", os.path.join(TOP, "bin", "off2in"), "-", "-1,0,0", "1,1,1"],
            input=off(box((0, 0, 0), (2, 2, 2))),
            capture_output=True,
            check=False,
        )
        self.assertEqual((done.returncode, done.stdout, done.stderr), (0, b"-1,0,0 out\n1,1,1 in\n", b""))

    def test_faults(self):
        good = self.file("a.4off", off(box((0, 0, 0), (2, 2, 2))))
        for words, said in (
            ([good], "off2in: the following arguments are required: X,Y,Z"),
            ([], "off2in: the following arguments are required: FILE, X,Y,Z"),
            ([good, "1,2"], "off2in: argument X,Y,Z: '1,2' is not a point like 1,2.5,-1/3"),
            ([good, "1,2,3,4"], "'1,2,3,4' is not a point"),
            ([good, "1,2,1/0"], "'1,2,1/0' is not a point"),
            ([good, "1,2,1e3"], "'1,2,1e3' is not a point"),
            ([good, "1,2,--3"], "'1,2,--3' is not a point"),
            ([good, "-1,2"], "'-1,2' is not a point"),
            ([self.path("none"), "1,2,3"], "off2in: cannot open none: No such file"),
            ([self.file("b.4off", b"OFF\n"), "1,2,3"], "b.4off:1: error: the first line is not '4OFF'"),
            ([self.file("c.4off", off(box((0, 0, 0), (2, 2, 2))[1:])), "1,1,1"], "c.4off: error: not closed: 4 edges"),
            ([self.file("d.4off", off(turned(box((0, 0, 0), (2, 2, 2))))), "1,1,1"], "d.4off: error: its faces look inward"),
        ):
            self.assert_fault(2, words, said)
        twice = self.file("f.4off", off(box((0, 0, 0), (4, 4, 4)) + box((1, 1, 1), (3, 3, 3))))
        self.assert_fault(
            2, [twice, "0,0,0", "2,2,2"], "f.4off: error: 2,2,2: a way out from there crosses the faces 2 times more"
        )


if __name__ == "__main__":
    unittest.main()
