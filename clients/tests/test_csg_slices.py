"""Slices of extrusions that turn on the way: the diagonals of their sides, and the convex parts that they come to."""

import math
import unittest
from fractions import Fraction
from unittest import mock

from scadserve.openscad.conversion import Wanted, converted
from scadserve.openscad.grid import Rounder
from scadserve.openscad.polyhedron import seen
from scadserve.openscad.reader import CsgFault, read
from scadserve.openscad.slices import Slice, rising
from scadserve.openscad.space import Space
from scadserve.openscad.tree import DIFFERENCE, IDENTITY, Detail, leaves
from scadserve.openscad.exact_hull import volume6
from scadserve.openscad.front import Front
from scadserve.solid import measures
from scadserve.tiles.joined import boundary_of
from scadserve.tiles.making import made
from tests.calls import PROGRAM, needs_program

NODE = read("group();")[0]


def turned(ring, degrees, height):
    cos, sin = math.cos(math.radians(degrees)), math.sin(math.radians(degrees))
    return [(x * cos + y * sin, y * cos - x * sin, height) for x, y in ring]


def hulls(text, unit=Fraction(1, 100)):
    detail = Detail()
    solid = Space(detail, Front(".").flat, Front(".").solid).solid(read(text), IDENTITY)
    return [it.hull for it in leaves(Rounder(1024).rounded(solid, unit).tree)], detail


class Sides(unittest.TestCase):
    def test_the_shorter_diagonal_is_taken(self):
        # (as OpenSCAD writes linear_extrude(5, twist = 30, slices = 1) translate([3, 1]) square([4, 2]): on the first side from
        # (7, 1) to the place of (3, 1), on the second from (7, 1) to that of (7, 3), and so on)
        ring = [(3, 1), (7, 1), (7, 3), (3, 3)]
        below, above = turned(ring, 0, 0), turned(ring, 30, 5)
        self.assertEqual(rising(below, above, True, False), [False, True, True, False])
        # (and the other way round at an end without an area)
        self.assertEqual(rising(below, above, True, True), [True, False, False, True])

    def test_of_two_that_are_as_long_the_turn_decides(self):
        ring = [(0, 0), (4, 0), (4, 4), (0, 4)]
        for degrees in (20, -20):
            found = rising(turned(ring, 0, 0), turned(ring, degrees, 1), degrees > 0, False)
            self.assertEqual((found[0], found[3]), (degrees > 0, degrees > 0))


class Parts(unittest.TestCase):
    SQUARE = [(-3, -3), (3, -3), (3, 3), (-3, 3)]

    def test_one_that_bulges_is_the_hull_of_its_corners(self):
        # (a square that turns by 45 degrees round its middle is an antiprism)
        below, above = turned(self.SQUARE, 0, 0), turned(self.SQUARE, 44, 2)
        found = Slice(below, above, rising(below, above, True, False))
        self.assertTrue(found.is_hull())

    def test_one_with_hollow_sides_is_less(self):
        # (the other diagonals: on each side the tetrahedron of its four corners is missing)
        below, above = turned(self.SQUARE, 0, 0), turned(self.SQUARE, 44, 2)
        ways = rising(below, above, True, False)
        bulging, hollow = (Slice(below, above, it) for it in (ways, [not it for it in ways]))
        self.assertFalse(hollow.is_hull())

        def volume(slice_):
            parts = slice_.parts(NODE)()
            scaled = [[tuple(round(at * 1000) for at in corner) for corner in part] for part in parts]
            return sum(volume6(Rounder(1024)._hull(set(part))) for part in scaled) / 6e9

        (ax, ay, az), (bx, by, bz), (cx, cy, cz) = (
            [q - p for p, q in zip(below[0], it)] for it in (below[1], above[0], above[1])
        )
        missing = abs(ax * (by * cz - bz * cy) - ay * (bx * cz - bz * cx) + az * (bx * cy - by * cx)) / 6
        self.assertAlmostEqual(volume(bulging) - volume(hollow), 4 * missing, 1)
        # (the middles of two diagonals of a side of 6 are 6 sin 22 degrees = 2.25 from one another)
        self.assertAlmostEqual(hollow.sides_off(), 6 * math.sin(math.radians(22)), 5)
        self.assertGreaterEqual(hollow.hull_off(), hollow.sides_off())


class Designs(unittest.TestCase):
    # A bar whose middle is away from the axis turns so that two of its sides are hollow.
    BAR = "linear_extrude(height = 5, twist = {0}, slices = {1}) {{ polygon(points = [[3, 1], [7, 1], [7, 3], [3, 3]]); }}"

    def test_a_slice_has_openscads_volume(self):
        # (those of the meshes which OpenSCAD writes; the hulls of the corners have 46.5 and 47.8)
        for degrees, volume in ((30, 38.21), (60, 33.33)):
            found, detail = hulls(self.BAR.format(degrees, 1), Fraction(1, 400))
            self.assertAlmostEqual(sum(map(volume6, found)) / 6 / 400**3, volume, 1)
            self.assertEqual((detail.off, detail.hulls), (0, []))

    def test_what_no_inner_point_sees_is_a_hull_and_that_is_told(self):
        text = self.BAR.format(200, 1)
        found = converted(read(text), Wanted(may_be_fewer=True), Front("."))
        self.assertIn(
            "slices with hollow sides as hulls: linear_extrude at 1:1, node 1; nothing is off by more than", found.told[1]
        )
        with self.assertRaises(CsgFault) as caught:
            converted(read(text), Wanted(is_exact=True), Front("."))
        self.assertEqual(caught.exception.word, "NotConvex")

    def test_levels_that_are_left_out_count_with_their_scale(self):
        # (two slices, of which one is kept: at the middle a corner is at 1.5 times its place, turned by 15 degrees; the
        # straight way is there at half of it and the whole of twice it turned by 30, which is off by 1.5 (1 - cos 15) and 0.5
        # sin 15 across)
        text = (
            "linear_extrude(height = 5, twist = 30, slices = 2, scale = [2, 2]) { polygon(points = [[9, 0], [10, 0], [9, 1]]); "
            "}"
        )
        detail = Detail(2.0)
        Space(detail, Front(".").flat, Front(".").solid).solid(read(text), IDENTITY)
        off = 10 * math.hypot(1.5 * (1 - math.cos(math.radians(15))), 0.5 * math.sin(math.radians(15)))
        self.assertEqual(detail.fewest["linear_extrude"], (1, 2))
        self.assertGreaterEqual(detail.off, off)
        self.assertLess(detail.off, off + 1)


class Alike(unittest.TestCase):
    ANGLE = "[[0, 0], [10, 0], [10, 3], [3, 3], [3, 10], [0, 10]]"

    def looked_for(self, count, more=""):
        """How often convex parts are looked for, of this many slices that turn by 6 degrees each."""
        how = f"height = {count}, twist = {6 * count}, slices = {count}{more}"
        text = f"linear_extrude({how}) {{ polygon(points = {self.ANGLE}); }}"
        front = Front(".")
        with mock.patch("scadserve.openscad.slices.seen", wraps=seen) as looking:
            solid = Space(Detail(most_sides=math.inf), front.flat, front.solid).solid(read(text), IDENTITY)
            self.assertIsNotNone(solid.dented)
        return looking.call_count

    def test_slices_that_are_equal_but_for_a_turn_are_looked_at_once(self):
        self.assertEqual(self.looked_for(10), self.looked_for(20))

    def test_scaled_ones_are_looked_at_each(self):
        self.assertGreater(self.looked_for(10, ", scale = 2"), self.looked_for(5, ", scale = 2"))


class Dents(unittest.TestCase):
    """Where there is no bound on planes, a slice is the hull of its corners without a dent at each hollow side."""

    # An angle of two bars, which turns: OpenSCAD's mesh of it has 56 triangles and a volume of 553.1453.
    POINTS = "[[0, 0], [10, 0], [10, 3], [3, 3], [3, 10], [0, 10]]"
    ANGLE = f"linear_extrude(height = 10, twist = 40, slices = 4) {{ polygon(points = {POINTS}); }}"
    MIRRORED = "multmatrix([[-1, 0, 0, 0], [0, 1, 0, 0], [0, 0, 1, 0], [0, 0, 0, 1]]) { %s }"

    def grid(self, text, unit=Fraction(1, 200)):
        detail = Detail(most_sides=math.inf)
        solid = Space(detail, Front(".").flat, Front(".").solid).solid(read(text), IDENTITY)
        return Rounder(None).rounded(solid, unit).tree

    def test_a_hull_without_its_dents_has_openscads_volume(self):
        for degrees, volume in ((30, 38.21), (60, 33.33)):
            tree = self.grid(Designs.BAR.format(degrees, 1), Fraction(1, 400))
            body, *dents = leaves(tree)
            self.assertEqual((tree.operation, len(dents)), (DIFFERENCE, 2))
            self.assertTrue(all(len(it.hull.corners) == 4 for it in dents))
            own = volume6(body.hull) - sum(volume6(it.hull) for it in dents)
            self.assertAlmostEqual(own / 6 / 400**3, volume, 1)

    def test_dents_beside_other_slices_are_filled_by_these(self):
        # (five corners turn left and one right: three pieces at most, and no dent where two of them touch)
        for text in (self.ANGLE, self.MIRRORED % self.ANGLE):
            all_leaves = list(leaves(self.grid(text)))
            hulls = [it for it in all_leaves if len(it.hull.corners) > 4]
            self.assertLess(len(hulls), 4 * 4)
            self.assertLessEqual(len(all_leaves) - len(hulls), 4 * 4)

    @needs_program
    def test_turned_angles_have_openscads_volume(self):
        for text in (self.ANGLE, self.MIRRORED % self.ANGLE):
            found = made(self.grid(text), [PROGRAM], 2)
            boundary = boundary_of(found.surface)
            self.assertEqual(len(boundary.faces), 56)
            self.assertAlmostEqual(float(measures.volume(boundary).value) / 200**3, 553.145, 0)


if __name__ == "__main__":
    unittest.main()
