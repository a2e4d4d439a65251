"""What is written has exactly two triangles at each edge: by the numbers of points, and by their order where there are none."""

import random
import unittest
from collections import Counter
from fractions import Fraction

from scadserve.solid import closing
from scadserve.solid.fouroff import read
from scadserve.solid.measures import volume
from scadserve.solid.meshes import mesh
from scadserve.solid.merging import merged
from scadserve.solid.surface import surface_of
from tests.solids import CUT_CUBE, box, examples, gallery, off
from tests.touching import board, parts_and_hollows, some, text_of


def meshed(text, unit=1, form="stl"):
    """The mesh of a text."""
    boundary = read(text)
    return mesh("it", merged(surface_of(boundary, closing.close(boundary))), Fraction(unit), form)


def edges(triangle):
    return list(zip(triangle, triangle[1:] + triangle[:1]))


def hanging_together(count, pairs):
    """How many pieces there are of this many triangles."""
    above = list(range(count))

    def root(at):
        while above[at] != at:
            at = above[at]
        return at

    for one, other in pairs:
        above[root(one)] = root(other)
    return len({root(at) for at in range(count)})


class Case(unittest.TestCase):
    def read_by_numbers(self, it):
        """How many pieces a reader finds that goes by the numbers of points; each edge has two triangles."""
        found = {}
        for at, triangle in enumerate(it.triangles):
            self.assertEqual(len({it.points[node] for node in triangle}), 3)
            for edge in edges(triangle):
                self.assertNotIn(edge, found)
                found[edge] = at
        return hanging_together(len(it.triangles), [(at, found[edge[::-1]]) for edge, at in found.items()])

    def read_in_order(self, it):
        """How many pieces a reader finds that takes the first triangle which waits for a neighbour at an edge, as those of
        STL do; the two go along it in different ways, and none is left waiting."""
        waiting, pairs = {}, []
        for at, triangle in enumerate(it.triangles):
            for p, q in edges([it.points[node] for node in triangle]):
                if frozenset((p, q)) in waiting:
                    other, start = waiting.pop(frozenset((p, q)))
                    self.assertEqual(start, q)
                    pairs.append((at, other))
                else:
                    waiting[frozenset((p, q))] = (at, p)
        self.assertEqual(waiting, {})
        return hanging_together(len(it.triangles), pairs)

    def volume(self, it):
        """The volume inside the triangles as they are written."""
        six = 0
        for triangle in it.triangles:
            p, q, r = ([Fraction(number) for number in it.points[node]] for node in triangle)
            six += sum(p[i] * (q[(i + 1) % 3] * r[(i + 2) % 3] - q[(i + 2) % 3] * r[(i + 1) % 3]) for i in range(3))
        return six / 6

    def assert_read(self, text, parts, hollows=0, **how):
        """Each reader finds that many parts and hollows, and what is told says so; gives the mesh."""
        it = meshed(text, **how)
        self.assertEqual((it.parts, it.hollows), (parts, hollows))
        self.assertEqual(self.read_by_numbers(it), parts + hollows)
        self.assertEqual(self.read_in_order(it), parts + hollows)
        return it


class Readers(Case):
    def test_every_solid_of_the_project(self):
        parts = {"cups": 4, "dovetail": 2, "burr": 6, "cabinet": 3}
        for name, text in {**examples(), **gallery(), "cut cube": CUT_CUBE}.items():
            with self.subTest(name):
                it = self.assert_read(text, meshed(text).parts if ":" in name else parts.get(name, 1))
                measured = volume(read(text))
                if not it.rounded and measured.exact:
                    self.assertEqual(self.volume(it), measured.value)

    def test_chess_boards(self):
        # Eight boxes of 500, a plate of 3200 and a lid of 3200.
        for text, parts, cubic in ((board(), 8, 4000), (board(plate=True), 1, 7200), (board(plate=True, lid=True), 1, 10400)):
            it = self.assert_read(text, parts)
            self.assertEqual(self.volume(it), cubic)

    def test_edges_that_no_node_tells_apart_have_a_point_inside(self):
        # Between a plate and a lid nine edges go from one node to another one, twice each.
        it = self.assert_read(board(plate=True, lid=True), 1)
        middles = {p for p in it.points if p[2] == "2.5"}
        self.assertEqual(middles, {(x, y, "2.5") for x in ("10", "20", "30") for y in ("10", "20", "30")})

    def test_nested(self):
        def inside(low, high):
            return [face[::-1] for face in box((low,) * 3, (high,) * 3)]

        self.assert_read(off(box((0, 0, 0), (9, 9, 9)) + inside(1, 8)), 1, 1)
        self.assert_read(off(box((0, 0, 0), (9, 9, 9)) + inside(1, 8) + box((2, 2, 2), (7, 7, 7))), 2, 1)
        self.assert_read(off(box((0, 0, 0), (9, 9, 9)) + inside(1, 2) + inside(3, 4)), 1, 2)
        # Two hollows that touch in a corner are two; where they touch in an edge, they are one.
        self.assert_read(off(box((0, 0, 0), (9, 9, 9)) + inside(1, 2) + inside(2, 3)), 1, 2)
        beside = [face[::-1] for face in box((2, 2, 1), (3, 3, 2))]
        self.assert_read(off(box((0, 0, 0), (9, 9, 9)) + inside(1, 2) + beside), 1, 1)

    def test_two_hundred_solids_by_chance(self):
        rolled = random.Random(65)
        touching = 0
        for number in range(200):
            with self.subTest(number):
                solid = some(rolled)
                text = text_of(solid)
                it = self.assert_read(text, *parts_and_hollows(solid))
                self.assertEqual(self.volume(it), volume(read(text)).value)
                used = Counter(frozenset(it.points[node] for node in edge) for t in it.triangles for edge in edges(t))
                touching += any(count > 2 for count in used.values())
        self.assertGreater(touching, 150)

    def test_the_same_solid_is_the_same_mesh(self):
        self.assertEqual(meshed(board(plate=True)), meshed(board(plate=True)))


class Rounding(Case):
    def test_what_is_told(self):
        self.assertEqual(meshed(CUT_CUBE).rounded, 2)
        self.assertEqual(meshed(CUT_CUBE, unit=3).rounded, 0)

    def test_solids_by_chance_in_thirds(self):
        rolled = random.Random(3)
        for form in ("stl", "binstl"):
            for _ in range(20):
                solid = some(rolled)
                it = self.assert_read(text_of(solid), *parts_and_hollows(solid), unit=Fraction(1, 3), form=form)
                self.assertEqual(it.lost, 0)

    def test_corners_that_rounding_makes_one(self):
        # A block with a step of 10 to the power -30: without it there is one top of 10 x 10.
        step = 1 + Fraction(1, 10**30)
        faces = box((0, 0, 0), (10, 10, 1))[:5] + box((4, 4, 1), (6, 6, step))[:4] + [box((4, 4, 0), (6, 6, step))[5]]
        strips = [(0, 0, 10, 4), (0, 4, 4, 6), (6, 4, 10, 6), (0, 6, 10, 10)]
        faces += [box((a, b, 0), (c, d, 1))[5] for a, b, c, d in strips]
        it = self.assert_read(off(faces), 1)
        # Each of the four sides of the step is two triangles.
        self.assertEqual((it.lost, it.rounded, self.volume(it)), (8, 4, 100))

    def test_an_edge_too_short_to_put_a_point_inside(self):
        # Flat boxes whose sides are two neighbouring numbers: what rounding leaves of the thin one is a square without
        # a volume, and between the ends of its diagonal there is no number.
        far = Fraction(4095)
        near = far + Fraction(1, 2**41)
        it = meshed(off(box((far, far, 1), (near, near, 1 + Fraction(1, 10**30)))))
        self.assertEqual((it.lost, len(it.points), len(it.triangles), self.volume(it)), (8, 4, 4, 0))


if __name__ == "__main__":
    unittest.main()
