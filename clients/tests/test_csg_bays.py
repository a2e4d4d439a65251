"""Outlines as hulls without bays: by hand, against the outline at all places of a grid, and extruded on grids of several steps.
"""

import math
import random
import unittest
from fractions import Fraction

from scadserve.openscad import convex_pieces
from scadserve.openscad.convex_pieces import area2, cleaned, contains, pieces
from scadserve.openscad.bays import carved, sides
from scadserve.openscad.grid import Rounder
from scadserve.openscad.reader import read
from scadserve.openscad.space import Space
from scadserve.openscad.tree import IDENTITY, Carved, Detail, Join, leaves
from scadserve.openscad.exact_hull import volume6
from scadserve.openscad.front import Front

U = [(0, 0), (9, 0), (9, 9), (6, 9), (6, 3), (3, 3), (3, 9), (0, 9)]


def ring(count, radius, start=0.0, turn=2 * math.pi):
    """The corners of a bow, or of a circle."""
    return [(radius * math.cos(start + turn * it / count), radius * math.sin(start + turn * it / count)) for it in range(count)]


#: Two bows of 24 sides and of less than a half turn, one in the other.
C = [*ring(25, 10, 0.5, 3), *ring(25, 7, 0.5 + 3 * 24 / 25, -3)]


def holds(carving, point):
    """Whether a point is in what a hull without its bays bounds; None where it is on a side."""
    inside = contains(carving.hull, point)
    for bay, _ in carving.bays if inside else ():
        within = holds(bay, point)
        if within is not False:
            return None if within is None else False
    return inside


def area(carving):
    """Twice the area."""
    return area2(carving.hull) - sum(area(bay) for bay, _ in carving.bays)


def extruded(loop, matrix=""):
    """The solid of an outline made 2 high."""
    text = f"linear_extrude(height = 2) {{ polygon(points = {[list(it) for it in loop]}, paths = undef); }}"
    return Space(Detail(), Front(".").flat, Front(".").solid).solid(
        read(f"{matrix} {{ {text} }}" if matrix else text), IDENTITY
    )


def volume(tree):
    """Six times the volume of a tree on the grid in which what is taken out lies in what it is taken from."""
    if not isinstance(tree, Join):
        return volume6(tree.hull)
    first, *rest = map(volume, tree.parts)
    return first + sum(rest) * (-1 if tree.operation == "difference" else 1)


class Bays(unittest.TestCase):
    def test_a_u_is_its_hull_without_one_bay(self):
        for loop in (U, U[::-1]):
            found = carved(loop)
            self.assertEqual(set(found.hull), {(0, 0), (9, 0), (9, 9), (0, 9)})
            [(bay, lid)] = found.bays
            self.assertEqual((set(bay.hull), bay.bays, lid), ({(3, 3), (6, 3), (6, 9), (3, 9)}, [], ((3, 9), (6, 9))))
            # (eight sides, one lid, which is part of no side of the U, and the upper side of the hull)
            self.assertEqual(len(found.lines()), 4 + 4)

    def test_a_bay_may_have_bays(self):
        spiral = [(0, 0), (9, 0), (9, 9), (2, 9), (2, 4), (5, 4), (5, 6), (4, 6), (4, 7), (7, 7), (7, 2), (0, 2)]
        found = carved(spiral)
        self.assertEqual(area(found), area2(spiral))
        self.assertTrue(any(bay.bays for bay, _ in found.bays))

    def test_what_it_bounds_is_what_the_outline_bounds(self):
        numbers = random.Random(5)
        tried = 0
        while tried < 40:
            count = numbers.randint(6, 30)
            lengths = [numbers.uniform(20, 100) for _ in range(count)]
            loop = cleaned([(round(r * x), round(r * y)) for r, (x, y) in zip(lengths, ring(count, 1))])
            try:
                convex_pieces.check_simple([loop])
            except convex_pieces.NotSimple:
                continue
            tried += 1
            found = carved(loop)
            self.assertEqual(area(found), area2(loop))
            for _ in range(50):
                point = numbers.randint(-100, 100), numbers.randint(-100, 100)
                inside, within = contains(loop, point), holds(found, point)
                if inside is not None and within is not None:
                    self.assertEqual(within, inside)

    def test_a_curve_that_turns_in_has_fewer_lines(self):
        loop = [(round(x * 1000), round(y * 1000)) for x, y in C]
        of_pieces = {side for it in pieces(loop) for side in sides(it)}
        self.assertEqual(len(carved(loop).lines()), len(loop) + 1)
        self.assertGreater(len(of_pieces), len(loop) + 15)


class OnTheGrid(unittest.TestCase):
    def test_the_form_with_fewer_planes_is_taken_and_has_the_same_volume(self):
        solid = extruded(C)
        self.assertIsInstance(solid, Carved)
        for unit in (Fraction(1, 100), Fraction(1, 10)):
            found = Rounder(1024).rounded(solid, unit)
            self.assertEqual(found.shapes, 2)
            whole = Rounder(1024).rounded(solid.pieces, unit)
            # (two planes for the ends, and one for the lid; some sides may come to lie on one)
            self.assertLessEqual(len(found.planes), len(C) + 1 + 2)
            self.assertGreater(len(whole.planes), len(found.planes) + 15)
            # (corners that are rounded out of line are in the hull, and not in the pieces, or the other way round)
            self.assertLess(abs(volume(found.tree) / volume(whole.tree) - 1), float(unit) / 10)
            self.assertEqual(found.moved, whole.moved)

    def test_where_a_lid_leaves_its_side_the_pieces_are_taken(self):
        # (the mouth of the bay ends at corners of the upper side, of which rounding puts one lower, and so inside the hull)
        loop = [(0, 0), (30, 0), (30, 10), (20, 10.6), (20, 5), (16, 4), (12, 5), (10, 10.6), (0, 10.45)]
        fine, coarse = (Rounder(1024).rounded(extruded(loop), unit) for unit in (Fraction(1, 20), Fraction(1)))
        self.assertIsInstance(fine.tree, Join)
        for found in (fine, coarse):
            self.assertGreater(volume(found.tree), 0)

    def test_lids_that_leave_their_side_are_told(self):
        solid = extruded(C)
        [(leaf, lid)] = solid.lids
        raised = Carved(solid.hull, [(leaf, [(x + 0.3, y, z) for x, y, z in lid])], solid.pieces)
        self.assertEqual(Rounder(1024).rounded(raised, Fraction(1, 10)).shapes, len(list(leaves(solid))))

    def test_hulls_and_what_is_slanted_know_the_pieces_alone(self):
        slant = "multmatrix([[1, 0, 0, 0], [0, 0.866025, -0.5, 0], [0, 0.5, 0.866025, 0], [0, 0, 0, 1]])"
        self.assertNotIsInstance(extruded(C, slant), Carved)
        text = f"hull() {{ linear_extrude(height = 2) {{ polygon(points = {[list(it) for it in U]}, paths = undef); }} }}"
        found = Rounder(1024).rounded(
            Space(Detail(), Front(".").flat, Front(".").solid).solid(read(text), IDENTITY), Fraction(1)
        )
        self.assertEqual(volume(found.tree), 6 * 2 * 81)


if __name__ == "__main__":
    unittest.main()
