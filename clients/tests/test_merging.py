"""Triangles of one plane are cut anew: none has a corner that the solid doesn't need, and nothing else changes."""

import random
import time
import unittest
from collections import Counter
from fractions import Fraction
from math import atan2, gcd, tau

from scadserve.solid import closing
from scadserve.solid.fouroff import read, turn
from scadserve.solid.measures import volume
from scadserve.solid.merging import ears_seen, merged
from scadserve.solid.surface import NotClosed, next_side, previous_side, surface_of
from tests.solids import CUT_CUBE, box, comb, doubled_area, examples, gallery, is_inside_edge, off, point
from tests.touching import board, some, text_of


def surfaces(text):
    """The boundary of a text, and its surface before and after."""
    boundary = read(text)
    surface = surface_of(boundary, closing.close(boundary))
    return boundary, surface, merged(surface)


def plate_with_a_hole(x, y):
    """The faces of a plate 6 x 6 x 1 with a hole 2 x 2 whose low corner is (x, y), around which its top and floor are cut."""
    sides = box((0, 0, 0), (6, 6, 1))[:4] + [face[::-1] for face in box((x, y, 0), (x + 2, y + 2, 1))[:4]]
    strips = [(0, 0, 6, y), (0, y, x, y + 2), (x + 2, y, 6, y + 2), (0, y + 2, 6, 6)]
    return sides + [side for a, b, c, d in strips if a < c and b < d for side in box((a, b, 0), (c, d, 1))[4:]]


class Case(unittest.TestCase):
    def corners(self, surface, at):
        """The corners of a triangle as points."""
        return [point(surface.corners[surface.places[node]]) for node in surface.triangle(at)]

    def areas(self, surface):
        """Twice the area of the triangles on each plane, along its greatest axis; each has some, and looks outward."""
        found = Counter()
        for at, plane in enumerate(surface.planes):
            area = doubled_area(*self.corners(surface, at))
            self.assertGreater(sum(a * b for a, b in zip(plane, area)), 0)
            found[plane] += max(map(abs, area))
        return found

    def needed(self, surface, node):
        """Whether a node is a corner of the solid: of three planes or more, or of two that don't go on straight."""
        beside = {}
        for side, start in enumerate(surface.starts):
            if start == node and surface.planes[side // 3] != surface.planes[surface.twins[side] // 3]:
                beside[surface.starts[next_side(side)]] = surface.planes[side // 3]
        if len(beside) != 2:
            return len(beside) > 2
        p, q = (point(surface.corners[surface.places[it]]) for it in beside)
        return not is_inside_edge(p, q, point(surface.corners[surface.places[node]]))

    def assert_merged(self, text):
        """What is merged is the same surface; gives how many triangles it has."""
        boundary, before, after = surfaces(text)
        self.assertEqual(self.areas(after), self.areas(before))
        for side, twin in enumerate(after.twins):
            self.assertEqual((after.twins[twin], after.starts[side]), (side, after.starts[next_side(twin)]))
            self.assertEqual(after.starts[after.twins[previous_side(side)]], after.starts[side])
        self.assertTrue(set(after.places) <= set(before.places))
        self.assertEqual([it for it in range(len(after.places)) if not self.needed(after, it)], [])
        six = sum(volume_of(self.corners(after, at)) for at in range(len(after.planes)))
        self.assertEqual(Fraction(six, 6), volume(boundary).value)
        return len(after.planes)


def volume_of(corners):
    """Six times the volume of a tetrahedron from the origin."""
    p, q, r = corners
    return sum(p[i] * (q[(i + 1) % 3] * r[(i + 2) % 3] - q[(i + 2) % 3] * r[(i + 1) % 3]) for i in range(3))


class Counts(Case):
    def test_faces_in_small_pieces(self):
        squares = [[(x, y, 1), (x + 1, y, 1), (x + 1, y + 1, 1), (x, y + 1, 1)] for x in range(7) for y in range(5)]
        self.assertEqual(self.assert_merged(off(box((0, 0, 0), (7, 5, 1))[:5] + squares)), 12)

    def test_a_plate_with_a_hole(self):
        # Top and floor have 8 corners and a hole, which takes 8 triangles each; the 8 sides have 2 each.
        self.assertEqual(self.assert_merged(off(plate_with_a_hole(2, 1))), 8 + 8 + 16)

    def test_a_hole_that_touches_the_rim(self):
        # A square hole on its corner, one tip of which is inside a side of the plate, and cuts that side in two.
        tips = [(3, 0), (5, 2), (3, 4), (1, 2)]
        rim = [(0, 0), (3, 0), (6, 0), (6, 6), (0, 6)]
        pieces = [[(0, 0), (3, 0), (1, 2)], [(0, 0), (1, 2), (0, 6)], [(1, 2), (3, 4), (0, 6)], [(0, 6), (3, 4), (6, 6)]]
        pieces += [[(3, 0), (6, 0), (5, 2)], [(6, 0), (6, 6), (5, 2)], [(6, 6), (3, 4), (5, 2)]]
        faces = [[(x, y, 1) for x, y in it] for it in pieces] + [[(x, y, 0) for x, y in it[::-1]] for it in pieces]
        for ring in (rim, tips[::-1]):
            faces += [[(*p, 0), (*q, 0), (*q, 1), (*p, 1)] for p, q in zip(ring, ring[1:] + ring[:1])]
        # Round top and floor go 9 corners, the tip twice, which takes 7 triangles each; 9 sides have 2 each.
        self.assertEqual(self.assert_merged(off(faces)), 7 + 7 + 18)

    def test_chess_boards(self):
        # As many as OpenSCAD writes of the same sources.
        self.assertEqual(self.assert_merged(board()), 96)
        self.assertEqual(self.assert_merged(board(plate=True)), 114)

    def test_every_solid_of_the_project(self):
        for name, text in {**examples(), **gallery(), "cut cube": CUT_CUBE}.items():
            if len(text) < 20000:
                with self.subTest(name):
                    self.assert_merged(text)

    def test_solids_by_chance(self):
        rolled = random.Random(11)
        for number in range(40):
            with self.subTest(number):
                self.assert_merged(text_of(some(rolled)))

    def test_twenty_thousand_faces_take_seconds(self):
        squares = [[(x, y, 1), (x + 1, y, 1), (x + 1, y + 1, 1), (x, y + 1, 1)] for x in range(100) for y in range(100)]
        for text, count in (
            # The outline of a comb has 4 * 1667 + 2 corners: this many sides of 2, and two ends.
            (off(comb(1667) + comb(1667, 10)), 2 * (2 * 6670 + 2 * 6668)),
            (off(box((0, 0, 0), (100, 100, 1))[:5] + squares), 12),
        ):
            boundary = read(text)
            surface = surface_of(boundary, closing.close(boundary))
            start = time.process_time()
            self.assertEqual(len(merged(surface).planes), count)
            self.assertLess(time.process_time() - start, 8)


class Ears(unittest.TestCase):
    def area(self, p, q, r):
        return Fraction(turn(p, q, r), p[2] * q[2] * r[2])

    def assert_cut(self, seen, ring):
        cut = list(ears_seen(seen, ring))
        self.assertEqual(len(cut), len(ring) - 2)
        areas = [self.area(*(ring[corner] for corner in triangle)) for triangle in cut]
        self.assertGreater(min(areas), 0)
        self.assertEqual(sum(areas), sum(self.area(ring[0], p, q) for p, q in zip(ring[1:], ring[2:])))

    def test_by_hand(self):
        # An arrow whose tip must not be cut off first: the point is inside that triangle.
        self.assertEqual(len(list(ears_seen((0, 0, 1), [(0, 4, 1), (-4, -4, 1), (0, -1, 1), (4, -4, 1)]))), 2)
        # All corners but two on one side; the point is inside another one.
        self.assert_cut((0, 0, 1), [(-3, 0, 1), (3, 0, 1), (2, 1, 1), (1, 2, 1), (0, 3, 1)])

    def test_what_is_not_seen_is_told(self):
        # Round a square the wrong way, once and twice.
        square = [(1, 0, 1), (0, 1, 1), (-1, 0, 1), (0, -1, 1)]
        for ring in (square[::-1], square[::-1] + square[::-1]):
            with self.assertRaisesRegex(NotClosed, "^its faces overlap$"):
                list(ears_seen((0, 0, 1), ring))

    def test_stars_by_chance(self):
        rolled = random.Random(5)
        steps = [(x, y) for x in range(-6, 7) for y in range(-6, 7) if gcd(x, y) == 1]
        for number in range(400):
            is_half = bool(number % 2)
            around = {it for it in rolled.sample(steps, rolled.randint(1, 40)) if it[1] > 0 or not is_half}
            around |= {(-1, 0), (1, 0), (0, 1)} | (set() if is_half else {(0, -1)})
            ring = []
            for x, y in sorted(around, key=lambda it: atan2(it[1], it[0]) % tau):
                length = rolled.randint(1, 4)
                ring.append((length * x, length * y, rolled.randint(1, 3)))
            self.assert_cut((0, 0, 1), ring)


if __name__ == "__main__":
    unittest.main()
