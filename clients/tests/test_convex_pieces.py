"""Outlines cut into convex pieces, by hand, and each compared with its outline by area."""

import math
import unittest

from scadserve.openscad.convex_pieces import (
    NotSimple,
    area2,
    check_simple,
    cleaned,
    contains,
    goes_up_once,
    hull,
    is_convex,
    nested,
    pieces,
)
from scadserve.openscad.convex_pieces import sides, simplified, triangles, widened

L = [(0, 0), (10, 0), (10, 3), (3, 3), (3, 10), (0, 10)]
BOW = [(0, 0), (4, 4), (4, 0), (0, 4)]
def star(out, inside, tips):
    """A star: its corners are in turn near to the middle and far from it."""
    sizes = [(inside, out)[it % 2 == 0] for it in range(2 * tips)]
    ways = [it * math.pi / tips for it in range(2 * tips)]
    return [(round(size * math.cos(way)), round(size * math.sin(way))) for size, way in zip(sizes, ways)]


STAR = star(400, 1000, 10)


class Pieces(unittest.TestCase):
    def test_an_l_is_two_pieces(self):
        found = pieces(L)
        self.assertEqual(len(found), 2)
        self.assertEqual(sum(map(area2, found)), 2 * (30 + 21))

    def test_pieces_are_convex_fill_the_outline_and_have_its_corners_alone(self):
        for outline in (L, L[::-1], STAR, [(0, 0), (9, 0), (9, 9), (5, 9), (5, 2), (4, 2), (4, 9), (0, 9)]):
            found = pieces(outline)
            self.assertEqual(sum(map(area2, found)), abs(area2(outline)))
            for it in found:
                self.assertTrue(is_convex(it))
                self.assertLessEqual(set(it), set(outline))

    def test_a_star_of_ten_points_has_at_most_one_piece_for_each_and_one(self):
        self.assertLessEqual(len(pieces(STAR)), 11)

    def test_neighbours_have_whole_sides_in_common(self):
        ways = [way for it in pieces(STAR) for way in zip(it, it[1:] + it[:1])]
        outside = {way for way in ways if way[::-1] not in ways}
        self.assertEqual(outside, set(zip(STAR, STAR[1:] + STAR[:1])))

    def test_what_has_no_area_has_no_pieces(self):
        self.assertEqual(pieces([(0, 0), (5, 0), (2, 0)]), [])
        self.assertEqual(cleaned([(0, 0), (5, 0), (5, 0), (5, 5), (5, 7), (5, 5)]), [(0, 0), (5, 0), (5, 5)])

    def test_a_ring_that_goes_round_twice_is_not_convex(self):
        self.assertFalse(is_convex([(1000, 0), (-809, 588), (309, -951), (309, 951), (-809, -588)]))

    def test_pieces_that_go_up_once(self):
        comb = [(0, 0), (9, 0), (9, 9), (6, 5), (3, 8), (0, 4)]
        found = pieces(comb, goes_up_once)
        self.assertEqual((len(found), sum(map(area2, found))), (2, area2(comb)))
        self.assertTrue(all(map(goes_up_once, found)))
        self.assertEqual(
            sides([(0, 0), (4, 0), (6, 2), (4, 5), (1, 5), (2, 3)]), ([(4, 0), (6, 2), (4, 5)], [(0, 0), (2, 3), (1, 5)])
        )


class Wide(unittest.TestCase):
    def test_two_flat_triangles_are_cut_the_other_way(self):
        kite = [(0, 0), (100, -10), (200, 0), (100, 10)]
        found = widened(kite, [[0, 1, 2], [0, 2, 3]])
        self.assertEqual({frozenset(it) for it in found}, {frozenset((0, 1, 3)), frozenset((1, 2, 3))})
        # (wide ones stay, and so do those of a square, where either way is as good)
        self.assertEqual(widened(kite, [[0, 1, 3], [1, 2, 3]]), [[0, 1, 3], [1, 2, 3]])
        self.assertEqual(widened([(0, 0), (4, 0), (4, 4), (0, 4)], [[0, 1, 2], [0, 2, 3]]), [[0, 1, 2], [0, 2, 3]])

    def test_they_fill_what_they_filled(self):
        for ring in (L, STAR):
            found = [[ring[it] for it in part] for part in widened(ring, triangles(ring))]
            self.assertEqual(sum(map(area2, found)), area2(ring))
            self.assertTrue(all(area2(it) > 0 for it in found))


class Loops(unittest.TestCase):
    def test_what_crosses_or_touches_itself_is_not_simple(self):
        touching = [(0, 0), (4, 0), (4, 4), (2, 0), (0, 4)]
        for loops in ([BOW], [touching], [L, [(9, 1), (12, 1), (12, 2), (9, 2)]], [[(0, 0), (4, 0), (2, 0), (2, 2)]]):
            with self.assertRaises(NotSimple):
                check_simple(loops)

    def test_loops_may_touch_one_another_at_corners(self):
        check_simple([L, STAR])
        check_simple([[(0, 0), (4, 0), (4, 4), (0, 4)], [(0, 0), (2, 1), (1, 2)]])

    def test_inside_outside_and_on(self):
        self.assertEqual(
            [contains(L, it) for it in ((1, 1), (5, 5), (10, 2), (3, 3), (-1, 0))], [True, False, None, None, False]
        )

    def test_holes_and_islands(self):
        outer, hole, island = ([(-r, -r), (r, -r), (r, r), (-r, r)] for r in (9, 6, 3))
        self.assertEqual(nested([island, outer, hole]), [(outer, [hole]), (island, [])])
        # (a hole all of whose corners are on the outline)
        self.assertEqual(nested([outer, [(9, 9), (-9, 9), (-9, -9)]]), [(outer, [[(9, 9), (-9, 9), (-9, -9)]])])

    def test_hulls(self):
        self.assertEqual(hull([(0, 0), (4, 0), (2, 0), (2, 1), (4, 4), (0, 0)]), [(0, 0), (4, 0), (4, 4)])
        self.assertEqual(len(hull([(0, 0), (1, 1), (5, 5)])), 2)

    def test_fewer_corners_leave_the_box_and_none_farther_than_told(self):
        ring = [
            (round(10_000 * math.cos(math.radians(it))), round(10_000 * math.sin(math.radians(it)))) for it in range(0, 360, 3)
        ]
        found, off = simplified(ring, 200)
        self.assertLess(len(found), 40)
        self.assertLessEqual(set(found), set(ring))
        self.assertTrue(0 < off <= 200)
        for axis in (0, 1):
            self.assertEqual({it[axis] for it in found} & {10_000, -10_000}, {10_000, -10_000})
        self.assertEqual(simplified(ring, 0), (ring, 0.0))


if __name__ == "__main__":
    unittest.main()
