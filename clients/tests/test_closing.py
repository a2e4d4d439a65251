"""Faces are closed exactly, and cut into triangles with an area above 0."""

import random
import time
import unittest
from fractions import Fraction
from functools import cmp_to_key
from itertools import chain

from scadserve.solid import closing
from scadserve.solid.fouroff import read, turn
from tests.solids import CUT_CUBE, box, comb, doubled_area, examples, gallery, is_inside_edge, off, point, split_box

UNIT_BOX = box((0, 0, 0), (1, 1, 1))


def closed(data):
    """The boundary of a text, its rings and its triangles."""
    boundary = read(data)
    rings = closing.close(boundary)
    return boundary, rings, list(chain.from_iterable(closing.triangles(boundary, rings)))


def area(p, q, r):
    """Twice the area of a triangle of flat points."""
    return Fraction(turn(p, q, r), p[2] * q[2] * r[2])


def is_earlier(p, q):
    """Below 0 where the direction p comes before q, counterclockwise from that of the x axis on; 0 where they are one."""
    halves = [(y, x) < (0, 0) for x, y in (p, q)]
    return halves[0] - halves[1] or q[0] * p[1] - p[0] * q[1]


def points(boundary, ring):
    """The corners of a ring as points."""
    return [point(boundary.corners[corner]) for corner in ring]


class Lines(unittest.TestCase):
    def test_by_hand(self):
        # From (1, 0, 0) to (1, 2, 0): direction (0, 1, 0), moment (1, 0, 0) x (0, 1, 0) = (0, 0, 1).
        self.assertEqual(closing.line_through((1, 0, 0, 1), (1, 2, 0, 1)), (0, 1, 0, 0, 0, 1))
        # The x axis has the moment 0.
        self.assertEqual(closing.line_through((5, 0, 0, 1), (1, 0, 0, 3)), (1, 0, 0, 0, 0, 0))

    def test_all_pairs_of_points_of_a_line_give_it(self):
        on_line = [(1 + 2 * t, 2 - 3 * t, 5 * t, 1) for t in range(-3, 4)] + [(4, 1, 5, 2), (5, 3, 5, 3)]
        lines = {closing.line_through(p, q) for p in on_line for q in on_line if p != q}
        self.assertEqual(len(lines), 1)
        self.assertEqual(closing.line_through((1, 2, 1, 1), (3, -1, 6, 1))[:3], (2, -3, 5))
        self.assertNotIn(closing.line_through((1, 2, 1, 1), (3, -1, 6, 1)), lines)


class Closing(unittest.TestCase):
    def test_a_box_stays_as_it_is(self):
        boundary, rings, triangles = closed(off(UNIT_BOX))
        self.assertEqual(rings, boundary.faces)
        self.assertEqual(len(triangles), 12)

    def test_a_corner_inside_an_edge(self):
        boundary, rings, triangles = closed(off(split_box()))
        self.assertEqual(closing.open_edges(closing.ways(boundary.faces)), 6)
        front, back = points(boundary, rings[2]), points(boundary, rings[3])
        self.assertEqual(front, [(0, 0, 0), (2, 0, 0), (2, 0, 1), (1, 0, 1), (0, 0, 1)])
        self.assertEqual(back, [(0, 1, 0), (0, 1, 1), (1, 1, 1), (2, 1, 1), (2, 1, 0)])
        self.assertEqual([len(ring) for ring in rings], [4, 4, 5, 5, 4, 4, 4])
        self.assertEqual(closing.open_edges(closing.ways(rings)), 0)
        self.assertEqual(len(triangles), 2 * 7 + 2)

    def test_corners_along_a_slanted_edge_by_thirds_and_halves(self):
        # A wedge, whose slanted face is cut at 1/3 and 1/2 of its height, and its sides are not.
        def across(x, z):
            return [(x, 0, z), (x, 1, z)]

        low, third, half, high = across(3, 0), across(2, Fraction(2, 3)), across(Fraction(3, 2), 1), across(0, 2)
        strips = [[p[0], p[1], q[1], q[0]] for p, q in ((low, third), (third, half), (half, high))]
        side = [(0, 0, 0), (3, 0, 0), (0, 0, 2)]
        other = [(0, 1, 0), (0, 1, 2), (3, 1, 0)]
        floor = [(0, 0, 0), (0, 1, 0), (3, 1, 0), (3, 0, 0)]
        wall = [(0, 0, 0), (0, 0, 2), (0, 1, 2), (0, 1, 0)]
        boundary, rings, triangles = closed(off([side, other, floor, wall] + strips))
        inside = [(2, 0, Fraction(2, 3)), (Fraction(3, 2), 0, 1)]
        self.assertEqual(points(boundary, rings[0]), side[:2] + inside + side[2:])
        self.assertEqual(closing.open_edges(closing.ways(triangles)), 0)
        self.assertEqual(len(triangles), 3 + 3 + 2 + 2 + 6)

    def test_a_notch(self):
        # A box 3 x 1 x 2 with a notch 1 x 1 x 1 in the middle of its top; front and back are three boxes each.
        faces = [
            *([(0, 0, 0), (0, 0, 2), (0, 1, 2), (0, 1, 0)], [(3, 0, 0), (3, 1, 0), (3, 1, 2), (3, 0, 2)]),
            [(0, 0, 0), (0, 1, 0), (3, 1, 0), (3, 0, 0)],
            *([(x, 0, 2), (x + 1, 0, 2), (x + 1, 1, 2), (x, 1, 2)] for x in (0, 2)),
            [(1, 0, 1), (2, 0, 1), (2, 1, 1), (1, 1, 1)],
            *([(1, 0, 1), (1, 1, 1), (1, 1, 2), (1, 0, 2)], [(2, 0, 1), (2, 0, 2), (2, 1, 2), (2, 1, 1)]),
        ]
        for left, right, high in ((0, 1, 2), (1, 2, 1), (2, 3, 2)):
            faces.append([(left, 0, 0), (right, 0, 0), (right, 0, high), (left, 0, high)])
            faces.append([(left, 1, 0), (left, 1, high), (right, 1, high), (right, 1, 0)])
        boundary, rings, triangles = closed(off(faces))
        self.assertEqual(closing.open_edges(closing.ways(triangles)), 0)
        # The floor has two corners more in front and at the back, and each face beside the notch one.
        self.assertEqual(sum(map(len, rings)) - sum(map(len, boundary.faces)), 2 * 2 + 4)
        self.assertEqual(len(triangles), 2 * len(faces) + 8)

    def test_what_is_open_is_seen(self):
        _, rings, _ = closed(off(UNIT_BOX[1:]))
        self.assertEqual(closing.open_edges(closing.ways(rings)), 4)
        _, rings, _ = closed(off(UNIT_BOX + [[(0, 0, 0), (1, 0, 0), (1, 1, 0)]]))
        self.assertEqual(closing.open_edges(closing.ways(rings)), 3)
        self.assertEqual(closing.shared_edges(closing.ways(rings)), 2)


class Touching(unittest.TestCase):
    def touching(self, faces):
        """How many edges and corners the solid of these faces touches itself with; it is closed."""
        _, rings, triangles = closed(off(faces))
        self.assertEqual(closing.open_edges(closing.ways(triangles)), 0)
        return closing.shared_edges(closing.ways(rings)), closing.touching_corners(rings)

    def test_two_boxes_with_an_edge_in_common(self):
        self.assertEqual(self.touching(UNIT_BOX + box((1, 1, 0), (2, 2, 1))), (1, 0))

    def test_two_boxes_with_a_part_of_an_edge_in_common(self):
        # From (1, 1, 1) to (1, 1, 2): the edge of the first is cut in three.
        self.assertEqual(self.touching(box((0, 0, 0), (1, 1, 3)) + box((1, 1, 1), (2, 2, 2))), (1, 0))

    def test_two_boxes_with_a_corner_in_common(self):
        self.assertEqual(self.touching(UNIT_BOX + box((1, 1, 1), (2, 2, 2))), (0, 1))

    def test_a_corner_that_only_touches_an_edge_stays_out_of_it(self):
        boxes = box((0, 0, 0), (4, 4, 4))
        tip = [(4, 4, 2), (6, 5, 2), (5, 6, 2), (6, 6, 3)]
        tetrahedron = [[tip[a], tip[b], tip[c]] for a, b, c in ((0, 2, 1), (0, 1, 3), (0, 3, 2), (1, 2, 3))]
        boundary, rings, triangles = closed(off(boxes + tetrahedron))
        self.assertEqual(rings, boundary.faces)
        self.assertEqual(closing.open_edges(closing.ways(triangles)), 0)

    def test_apart_and_within(self):
        self.assertEqual(self.touching(UNIT_BOX), (0, 0))
        hole = [face[::-1] for face in box((1, 1, 1), (2, 2, 2))]
        self.assertEqual(self.touching(box((0, 0, 0), (3, 3, 3)) + hole), (0, 0))


class Ears(unittest.TestCase):
    def assert_cut(self, ring):
        """The ring is cut into triangles of the same area, each of which has some."""
        cut = closing.ears(ring)
        self.assertEqual(len(cut), len(ring) - 2)
        areas = [area(*(ring[corner] for corner in triangle)) for triangle in cut]
        self.assertGreater(min(areas), 0)
        self.assertEqual(sum(areas), sum(area(ring[0], ring[i], ring[i + 1]) for i in range(1, len(ring) - 1)))
        return cut

    def test_by_hand(self):
        self.assertEqual(closing.ears([(0, 0, 1), (1, 0, 1), (0, 1, 1)]), [(2, 0, 1)])
        # A corner inside one side of a triangle: the corner across from it can't be cut off first.
        cut = self.assert_cut([(0, 0, 1), (1, 0, 1), (2, 0, 1), (0, 2, 1)])
        self.assertEqual(sorted(map(sorted, cut)), [[0, 1, 3], [1, 2, 3]])

    def test_corners_inside_some_sides_of_a_triangle(self):
        for counts in ((5, 0, 0), (0, 7, 0), (0, 0, 1), (3, 2, 0), (1, 1, 1), (0, 4, 4), (60, 50, 40)):
            tips = [(0, 0), (30030, 0), (0, 30030)]
            ring = []
            for tip, following, count in zip(tips, tips[1:] + tips[:1], counts):
                for i in range(count + 1):
                    x, y = (a * (count + 1 - i) + b * i for a, b in zip(tip, following))
                    ring.append((x, y, count + 1))
            for start in range(0, len(ring), 7):
                self.assert_cut(ring[start:] + ring[:start])

    def test_convex_polygons_by_chance(self):
        rolled = random.Random(7)
        for _ in range(200):
            steps = {(rolled.randint(-9, 9), rolled.randint(-9, 9)) for _ in range(rolled.randint(1, 12))} - {(0, 0)}
            steps |= {(-x, -y) for x, y in steps} | {(1, 0), (-1, 0), (0, 1), (0, -1)}
            # Steps in the order of their directions go round a convex polygon; equal ones make corners inside sides.
            ordered = sorted(steps, key=cmp_to_key(is_earlier))
            x = y = 0
            ring = []
            for step in ordered:
                ring.append((x, y, 1))
                x, y = x + step[0], y + step[1]
            self.assertEqual((x, y), (0, 0))
            self.assert_cut(ring)


class Parts(unittest.TestCase):
    def test_every_solid_of_the_project(self):
        for name, text in {**examples(), **gallery(), "cut cube": CUT_CUBE}.items():
            with self.subTest(name):
                boundary, rings, triangles = closed(text)
                self.assertEqual(closing.open_edges(closing.ways(rings)), 0)
                self.assertEqual(closing.open_edges(closing.ways(triangles)), 0)
                self.assertEqual(len(triangles), sum(len(ring) - 2 for ring in rings))
                for face, ring in zip(boundary.faces, rings):
                    self.assertEqual([corner for corner in ring if corner in face], list(face))
                for plane, cut in zip(boundary.planes, closing.triangles(boundary, rings)):
                    for triangle in cut:
                        area = doubled_area(*points(boundary, triangle))
                        self.assertGreater(sum(a * b for a, b in zip(plane, area)), 0)

    def test_no_corner_is_left_inside_an_edge(self):
        parts = {name: text for name, text in {**examples(), **gallery()}.items() if len(text) < 3000}
        self.assertGreaterEqual(len(parts), 9)
        for name, text in parts.items():
            with self.subTest(name):
                boundary, rings, _ = closed(text)
                corners = points(boundary, range(len(boundary.corners)))
                for p, q in closing.ways(rings):
                    inside = [x for x in corners if is_inside_edge(corners[p], corners[q], x)] if p < q else []
                    self.assertEqual(inside, [])

    def test_twenty_thousand_faces_take_seconds(self):
        text = off(comb(1667) + comb(1667, 10))
        start = time.process_time()
        boundary, rings, triangles = closed(text)
        self.assertEqual(closing.open_edges(closing.ways(triangles)), 0)
        self.assertLess(time.process_time() - start, 10)
        self.assertEqual(len(boundary.faces), 2 * (5 + 6 * 1667))
        # Front and back of both bars have the corners at 1, 2 .. 3333 inside their upper edge.
        self.assertEqual(len(triangles), 2 * len(boundary.faces) + 4 * 3333)


if __name__ == "__main__":
    unittest.main()
