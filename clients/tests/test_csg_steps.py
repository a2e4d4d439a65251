"""Extrusions that turn on the way as straight steps: where they are, how far they are off, and which planes they have in
common."""

import math
import unittest
from fractions import Fraction

from scadserve.openscad.conversion import Wanted, converted
from scadserve.openscad.grid import Rounder
from scadserve.openscad.reader import CsgFault, read
from scadserve.openscad.space import Space
from scadserve.openscad.steps import Step, Turning, different, lines_of, round_off
from scadserve.openscad.tree import IDENTITY, Detail, leaves
from scadserve.openscad.exact_hull import volume6
from scadserve.openscad.front import Front

SQUARE = [(-1_000_000, -1_000_000), (1_000_000, -1_000_000), (1_000_000, 1_000_000), (-1_000_000, 1_000_000)]
# A bar of 10 by 10 that turns a hundred times.
TURNS = "linear_extrude(height = 400, twist = 36000, slices = 3600) {{ {0} }}"
BAR = TURNS.format("square(size = [10, 10], center = true);")


class Steps(unittest.TestCase):
    def test_a_step_reaches_half_way_to_the_next(self):
        # (a half turn in eighths of a turn)
        found = Turning(10, math.pi, 6, 1, 1).steps(8)
        self.assertEqual(
            found,
            [Step(0, 0, 0.125), Step(0.25, 0.125, 0.375), Step(0.5, 0.375, 0.625), Step(0.75, 0.625, 0.875), Step(1, 0.875, 1)],
        )

    def test_the_last_step_is_turned_as_far_as_the_extrusion(self):
        # (225 degrees are five eighths of a turn, and 230 are a little more)
        for turn, count in ((225, 6), (225.0001, 6), (230, 7)):
            found = Turning(10, math.radians(turn), 6, 1, 1).steps(8)
            self.assertEqual((len(found), found[0].turned, found[-1].turned, found[0].low, found[-1].high), (count, 0, 1, 0, 1))
            self.assertTrue(all(one.high == two.low for one, two in zip(found, found[1:])))

    def test_how_far_they_are_off(self):
        # (ten to a turn: half of a step is 0.5 high, a corner out at 2 isn't reached by 2 (1 - cos 18 degrees) = 0.098; slices
        # of 3.6 degrees are 0.1 high and lie within arcs by 2 (1 - cos 1.8 degrees) = 0.001, and sides of 4 differ by 0.063)
        self.assertAlmostEqual(
            Turning(10, 2 * math.pi, 100, 2, 4).off(10), 0.5 + 4 * math.sin(math.radians(1.8)) / 2 + 0.000987, 5
        )
        # (with sides of 40 the height of a slice is less)
        self.assertAlmostEqual(Turning(10, 2 * math.pi, 100, 2, 40).off(10), 0.5 + 0.1 + 0.000987, 5)

    def test_lines_that_come_again(self):
        lines = lines_of([SQUARE])
        self.assertEqual(len(lines), 4)
        # (the sides of a square look to 0, 90, 180 and 270 degrees)
        self.assertEqual([different(lines, math.radians(it)) for it in (90, 45, 120, 360, 50)], [1, 1, 4, 4, 4])
        self.assertEqual(
            len(lines_of([[(0, 0), (5_000_000, 0), (0, 5_000_000)], [(0, 0), (-5_000_000, 0), (0, -5_000_000)]])), 4
        )

    def test_a_ring_round_the_axis_neednt_be_turned(self):
        self.assertAlmostEqual(round_off([SQUARE]), 2**0.5 * 1_000_000 - 1_000_000)
        for loops in ([SQUARE, SQUARE], [[(0, 0), *SQUARE[1:]]], [SQUARE[:3]], [[(x + 9, y) for x, y in SQUARE[:3]]]):
            self.assertIsNone(round_off(loops))


class Designs(unittest.TestCase):
    def test_a_bar_that_turns_a_hundred_times_is_in_steps_and_that_is_told(self):
        found = converted(read(BAR), Wanted(), Front("."))
        # (ten to a turn: half a step and a slice are 0.2 and 0.11 high, a corner out at 7.07 isn't reached by
        # 7.07 (1 - cos 18 degrees) = 0.346, and a slice of 10 degrees lies within the arcs by 0.027)
        self.assertIn("what turns on the way in straight steps, since a part has at most 1024 planes: linear_extrude at 1:1, "
                      "node 1 (1001 steps)", found.told[1])
        self.assertIn("nothing is off by more than 0.37", found.told[1])
        # (two of ten are turned by half turns)
        text = found.text.decode()
        self.assertEqual((text.count("linear_extrude("), text.count("cube(")), (800, 201))

    def test_all_corners_are_wanted(self):
        with self.assertRaises(CsgFault) as caught:
            converted(read(BAR), Wanted(is_exact=True), Front("."))
        self.assertEqual(caught.exception.word, "TooManyPlanes")

    def test_a_disc_that_is_cut_has_its_planes_but_once(self):
        # (without OpenSCAD, which has no outline of it that has fewer)
        disc = "difference() { circle($fn = 24, r = 9); square(size = [6, 6], center = true); }"
        detail = Detail(4.0, True)
        solid = Space(detail, self.no_render, self.no_render).solid(read(TURNS.format(disc)), IDENTITY)
        hulls = [it.hull for it in leaves(Rounder(10_000).rounded(solid, Fraction(1, 10)).tree)]
        self.assertEqual(len(detail.steps), 1)
        whole = [it for it in hulls if (0, 0, 1, 4000) in it.facets and (0, 0, -1, 0) in it.facets]
        self.assertEqual(len(whole), 1)
        # (and the steps of the square fill the bore)
        self.assertEqual(len(hulls) - 1, detail.steps[0][1])
        bore = sum(map(volume6, hulls)) - volume6(whole[0])
        self.assertAlmostEqual(bore / 6_000 / (36 * 400), 1, 1)

    def no_render(self, node):
        raise node.fault("NotInProfile", "no OpenSCAD")


if __name__ == "__main__":
    unittest.main()
