"""Convex hulls in space, exactly: by hand, and each compared with what a hull is."""

import itertools
import random
import unittest

from scadserve.openscad.exact_hull import hull, volume6


class ByHand(unittest.TestCase):
    def test_a_cube_of_27_points_has_8_corners_and_6_facets(self):
        body = hull(itertools.product(range(3), repeat=3))
        self.assertEqual(body.corners, list(itertools.product((0, 2), repeat=3)))
        self.assertEqual(
            set(body.facets), {(-1, 0, 0, 0), (1, 0, 0, 2), (0, -1, 0, 0), (0, 1, 0, 2), (0, 0, -1, 0), (0, 0, 1, 2)}
        )
        self.assertEqual(volume6(body), 6 * 8)

    def test_a_facet_goes_counterclockwise_as_seen_from_outside(self):
        body = hull([(0, 0, 0), (4, 0, 0), (0, 4, 0), (0, 0, 4), (1, 1, 1)])
        self.assertEqual(body.corners, [(0, 0, 0), (0, 0, 4), (0, 4, 0), (4, 0, 0)])
        ring = body.facets[1, 1, 1, 4]
        at = ring.index(3)
        self.assertEqual(ring[at:] + ring[:at], [3, 2, 1])
        self.assertEqual(volume6(body), 64)

    def test_points_on_an_edge_or_in_a_facet_are_no_corners(self):
        # (a pyramid over a square, with the middles of all edges and of the base)
        tips = [(0, 0, 0), (4, 0, 0), (4, 4, 0), (0, 4, 0), (2, 2, 6)]
        middles = [tuple((a + b) // 2 for a, b in zip(p, q)) for p, q in itertools.combinations(tips, 2)]
        body = hull(tips + middles)
        self.assertEqual(body.corners, sorted(tips))
        self.assertEqual(len(body.facets), 5)
        self.assertEqual(volume6(body), 6 * 4 * 4 * 6 // 3)

    def test_what_is_flat_has_none(self):
        for points in (
            [], [(1, 2, 3)], [(0, 0, 0), (1, 1, 1), (2, 2, 2), (5, 5, 5)], [(x, y, x + y) for x in range(4) for y in range(4)]
        ):
            self.assertIsNone(hull(points))

    def test_a_prism_along_each_axis(self):
        for axis in range(3):
            points = []
            for end, (u, v) in itertools.product((-3, 7), ((0, 0), (6, 0), (6, 2), (0, 2), (3, 1), (3, 0))):
                point = [0, 0, 0]
                point[axis], point[(axis + 1) % 3], point[(axis + 2) % 3] = end, u, v
                points.append(tuple(point))
            body = hull(points)
            self.assertEqual((len(body.corners), len(body.facets), volume6(body)), (8, 6, 6 * 10 * 12))


class AsDefined(unittest.TestCase):
    def test_random_points(self):
        numbers = random.Random(5)
        for size, room in itertools.product((5, 12, 60), (1, 3, 1000)):
            points = [tuple(numbers.randint(-room, room) for _ in range(3)) for _ in range(size)]
            body = hull(points)
            if body is None:
                continue
            for (a, b, c, d), ring in body.facets.items():
                heights = [a * x + b * y + c * z - d for x, y, z in points]
                self.assertEqual(max(heights), 0)
                on_it = {it for it, height in zip(points, heights) if height == 0}
                self.assertLessEqual({body.corners[it] for it in ring}, on_it)
            ways = [way for ring in body.facets.values() for way in zip(ring, ring[1:] + ring[:1])]
            self.assertEqual(len(set(ways)), len(ways))
            self.assertEqual({way[::-1] for way in ways}, set(ways))
            self.assertEqual(len(body.corners) - len(ways) // 2 + len(body.facets), 2)  # (Euler's formula)


if __name__ == "__main__":
    unittest.main()
