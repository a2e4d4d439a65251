"""Faces are paired round each edge so that each pair has solid between them, and a corner has a node for each sheet."""

import unittest

from scadserve.solid import closing
from scadserve.solid.fouroff import read
from scadserve.solid.surface import NotClosed, next_side, previous_side, surface_of
from tests.solids import box, examples, gallery, off
from tests.touching import board

UNIT_BOX = box((0, 0, 0), (1, 1, 1))


def surface(faces):
    """The surface of faces, or of a text."""
    boundary = read(faces if isinstance(faces, bytes) else off(faces))
    return surface_of(boundary, closing.close(boundary))


def prism(base, low, high):
    """The faces of a prism over a polygon, counterclockwise seen from above."""
    sides = [[(*p, low), (*q, low), (*q, high), (*p, high)] for p, q in zip(base, base[1:] + base[:1])]
    return [*sides, [(*p, high) for p in base], [(*p, low) for p in base[::-1]]]


class Case(unittest.TestCase):
    def assert_whole(self, it):
        """Twins go the same edge the other way, and a node has one fan of triangles."""
        for side, twin in enumerate(it.twins):
            self.assertEqual(it.twins[twin], side)
            self.assertNotEqual(side // 3, twin // 3)
            self.assertEqual(it.starts[side], it.starts[next_side(twin)])
        fans = set()
        for first, node in enumerate(it.starts):
            fan, side = [first], it.twins[previous_side(first)]
            while side != first:
                fan.append(side)
                side = it.twins[previous_side(side)]
            fans.add((node, frozenset(fan)))
        self.assertEqual(len(fans), len(it.places))

    def shells(self, it):
        """The triangles that hang together by their sides."""
        left, shells = set(range(len(it.planes))), []
        while left:
            shell = {left.pop()}
            found = list(shell)
            for at in found:
                found += {it.twins[3 * at + i] // 3 for i in range(3)} & left
                left -= set(found)
            shells.append(sorted(set(found)))
        return shells

    def points(self, it, triangles):
        """The corners of triangles."""
        return {it.corners[it.places[node]] for at in triangles for node in it.triangle(at)}


class Pairs(Case):
    def test_a_box(self):
        it = surface(UNIT_BOX)
        self.assert_whole(it)
        self.assertEqual((len(it.places), len(it.planes), len(self.shells(it))), (8, 12, 1))
        self.assertEqual(sorted(it.places), list(range(8)))

    def test_every_solid_of_the_project(self):
        for name, text in {**examples(), **gallery()}.items():
            with self.subTest(name):
                self.assert_whole(surface(text))

    def test_boxes_that_touch_are_apart(self):
        for low, high in (((1, 1, 0), (2, 2, 1)), ((1, 1, 1), (2, 2, 2)), ((1, 1, -3), (2, 2, 4)), ((1, -1, -1), (2, 0, 2))):
            with self.subTest(low):
                it = surface(UNIT_BOX + box(low, high))
                self.assert_whole(it)
                self.assertEqual(len(self.shells(it)), 2)
                for shell in self.shells(it):
                    bounds = [
                        (min(p[i] for p in self.points(it, shell)), max(p[i] for p in self.points(it, shell))) for i in range(3)
                    ]
                    self.assertIn(bounds, ([(0, 1)] * 3, list(zip(low, high))))

    def test_boxes_round_one_edge_have_nodes_of_their_own(self):
        it = surface(UNIT_BOX + box((1, 1, 0), (2, 2, 1)))
        self.assertEqual((len(it.corners), len(it.places)), (14, 16))
        self.assertEqual(
            sorted(it.corners[at][:3] for at in set(it.places) if it.places.count(at) == 2), [(1, 1, 0), (1, 1, 1)]
        )

    def test_four_wedges_round_one_edge(self):
        # Eighths of a turn that are solid and empty by turns: each piece of solid is a prism of its own.
        rim = [(2, 0), (2, 2), (0, 2), (-2, 2), (-2, 0), (-2, -2), (0, -2), (2, -2)]
        wedges = [prism([(0, 0), rim[at], rim[at + 1]], 0, 1) for at in (0, 2, 4, 6)]
        it = surface([face for wedge in wedges for face in wedge])
        self.assert_whole(it)
        self.assertEqual((len(self.shells(it)), len(it.places)), (4, 24))

    def test_faces_of_one_plane_that_touch_in_an_edge(self):
        # Two prisms whose sides at y = 0 are on one plane and touch at the z axis; nothing is solid between the two.
        left, right = prism([(-2, 0), (0, 0), (-2, 2)], 0, 3), prism([(0, 0), (2, 0), (2, 2)], 0, 3)
        it = surface(left + right)
        self.assert_whole(it)
        self.assertEqual((len(self.shells(it)), len(it.places)), (2, 12))

    def test_empty_prisms_that_touch_in_an_edge(self):
        # A plate of 4 x 4 with two square holes that touch in the middle: solid hangs together round them, and not between.
        cells = [(x, y) for x in range(4) for y in range(4) if (x, y) not in ((1, 1), (2, 2))]
        faces = []
        for x, y in cells:
            around = [(x - 1, y), (x + 1, y), (x, y - 1), (x, y + 1)]
            sides = box((x, y, 0), (x + 1, y + 1, 1))
            faces += [side for side, beside in zip(sides, around) if beside not in cells] + sides[4:]
        it = surface(faces)
        self.assert_whole(it)
        self.assertEqual(len(self.shells(it)), 1)
        # The middle of the top and that of the floor are two nodes each.
        twice = sorted(it.corners[at][:3] for at in set(it.places) if it.places.count(at) == 2)
        self.assertEqual(twice, [(2, 2, 0), (2, 2, 1)])

    def test_an_edge_that_lies_on_a_face_leaves_it_whole(self):
        # (a prism along y, whose edge at x = 1 and z = 1 lies on the block's top)
        wedge = [[(x, y, z) for z, x, y in face] for face in prism([(1, 1), (3, 0), (3, 2)], 1, 3)]
        for halves in ([(0, 2)], [(0, 1), (1, 2)]):
            # (the block's top in one piece, and cut along the edge)
            block = box((0, 0, 0), (2, 4, 1))[:5]
            block += [[(a, 0, 1), (b, 0, 1), (b, 4, 1), (a, 4, 1)] for a, b in halves]
            it = surface(block + wedge)
            self.assert_whole(it)
            self.assertEqual(len(self.shells(it)), 2)

    def test_chess_boards(self):
        for text, shells in ((board(), 8), (board(plate=True), 1), (board(plate=True, lid=True), 1)):
            it = surface(text)
            self.assert_whole(it)
            self.assertEqual(len(self.shells(it)), shells)


class Faults(Case):
    def test_what_is_open(self):
        with self.assertRaisesRegex(NotClosed, "^not closed: 4 edges do not occur equally often in both directions$"):
            surface(UNIT_BOX[1:])

    def test_faces_that_overlap(self):
        # Three edges of the small box lie on those of the large one, and both are solid there.
        with self.assertRaisesRegex(NotClosed, "^its faces overlap at 3 edges$"):
            surface(UNIT_BOX + box((0, 0, 0), (3, 3, 3)))


if __name__ == "__main__":
    unittest.main()
