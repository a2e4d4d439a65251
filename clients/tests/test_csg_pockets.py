"""Polyhedra as hulls without their bays: volumes worked by hand, points inside and outside, and what has no such form."""

import unittest

from scadserve.openscad.pockets import NotCarved, carved, flat_faces, volume6
from scadserve.openscad.reader import CsgFault, read
from scadserve.openscad.tree import UNION
from scadserve.openscad.exact_hull import Hull
from tests.test_csg2scad import bodies, lines

# (no point sees all of it: a way in from the right, and then one down and one back to the right)
HOOK = [(0, 0), (8, 0), (8, 4), (4, 4), (4, 3), (7, 3), (7, 1), (1, 1), (1, 7), (7, 7), (7, 6), (8, 6), (8, 8), (0, 8)]


def prism(outline, height, move=(0, 0, 0), turned=None):
    """The faces of an outline, counterclockwise, that is extruded and then placed, counterclockwise as seen from outside."""

    def at(point, z):
        place = (point[0], point[1], z) if turned is None else turned(point[0], point[1], z)
        return tuple(a + b for a, b in zip(place, move))

    sides = zip(outline, [*outline[1:], outline[0]])
    ends = [[at(it, 0) for it in reversed(outline)], [at(it, height) for it in outline]]
    return [*ends, *([at(p, 0), at(q, 0), at(q, height), at(p, height)] for p, q in sides)]


def box(low, high):
    """The faces of a box."""
    (x, y, z), (u, v, w) = low, high
    return prism([(0, 0), (u - x, 0), (u - x, v - y), (0, v - y)], w - z, low)


def of_cells(cells):
    """The faces of unit cubes, twice as large, without those between two of them."""
    faces = []
    for cell in cells:
        for face in box(tuple(2 * it for it in cell), tuple(2 * it + 2 for it in cell)):
            middle = [sum(axis) / 4 for axis in zip(*face)]
            beside = tuple(b + (a == 2 * b + 2) - (a == 2 * b) for a, b in zip(middle, cell))
            faces += [] if beside in cells else [face]
    return faces


def holds(carving, point):
    """Whether a point is inside."""
    if isinstance(carving, Hull):
        return all(a * point[0] + b * point[1] + c * point[2] < d for a, b, c, d in carving.facets)
    first, *others = (holds(it, point) for it in carving.parts)
    return first or any(others) if carving.operation == UNION else first and not any(others)


def carving_of(faces):
    return carved(list(flat_faces(faces)))


class Carvings(unittest.TestCase):
    def test_a_slot_and_a_hook(self):
        slotted = carving_of(prism([(0, 0), (6, 0), (6, 6), (4, 6), (4, 2), (2, 2), (2, 6), (0, 6)], 3))
        self.assertEqual([volume6(it) for it in slotted.parts], [6 * 108, 6 * 24])
        hook = carving_of(prism(HOOK, 3))
        # (64 less 1 by 2 between 4 and 6 and what is behind it, from 1 to 7 by 1 to 7, but for 3 by 1)
        self.assertEqual(volume6(hook), 6 * 3 * (64 - 2 - 36 + 3))
        for point, inside in (
            ((0.5, 4, 1), True), ((3, 4, 1), False), ((7.5, 5, 1), False), ((5, 3.5, 1), True), ((5, 2, 1), False)
        ):
            self.assertEqual(holds(hook, point), inside)

    def test_a_cavity_a_way_through_and_two_bodies(self):
        cavity = [face[::-1] for face in box((2, 2, 2), (4, 4, 4))]
        self.assertEqual(volume6(carving_of(box((0, 0, 0), (6, 6, 6)) + cavity)), 6 * (216 - 8))
        apart = carving_of(box((0, 0, 0), (2, 2, 2)) + box((4, 0, 0), (6, 2, 2)))
        self.assertEqual((apart.operation, volume6(apart)), (UNION, 6 * 16))
        ring = of_cells({(x, y, 0) for x in range(3) for y in range(3)} - {(1, 1, 0)})
        self.assertEqual(volume6(carving_of(ring)), 6 * 8 * 8)

    def test_cells_that_touch_at_an_edge_alone(self):
        for cells in (
            {(0, 0, 0), (1, 1, 0)},
            {(0, 0, 0), (1, 1, 1)},
            {(x, y, 0) for x in range(3) for y in range(3)} - {(0, 1, 0), (1, 2, 0)},
        ):
            found = carving_of(of_cells(cells))
            self.assertEqual(volume6(found), 6 * 8 * len(cells))
            for cell in [(x, y, z) for x in range(3) for y in range(3) for z in range(2)]:
                self.assertEqual(holds(found, [2 * it + 1 for it in cell]), cell in cells)

    def test_sides_that_rounding_bent_are_triangles(self):
        def slanted(x, y, z):
            # (each corner rounded by itself, so that no side with four corners stays flat)
            return round(80 * x - 33 * y + 21 * z), round(35.4 * x + 78.3 * y - 17.7 * z), round(-9.6 * x + 27.3 * y + 81.9 * z)

        faces = list(flat_faces(prism([(0, 0), (6, 0), (6, 6), (4, 6), (4, 2), (2, 2), (2, 6), (0, 6)], 3, turned=slanted)))
        self.assertGreater(len(faces), 10)
        try:
            found = carved(faces)
        except NotCarved:
            return
        self.assertGreater(volume6(found), 0)

    def test_a_body_whose_bay_has_the_same_hull_is_halved(self):
        cells = {(0, 0, 0), (0, 0, 1), (1, 0, 1), (0, 1, 1)}
        found = carving_of(of_cells(cells))
        self.assertEqual(volume6(found), 6 * 8 * 4)
        for cell in [(x, y, z) for x in range(2) for y in range(2) for z in range(2)]:
            self.assertEqual(holds(found, [2 * it + 1 for it in cell]), cell in cells)

    def test_what_has_no_such_form(self):
        # (three arms from a corner, none of whose sides is straight: no plane of a side cuts it at whole corners)
        bent = [[tuple(10 * a + (a * b + a) % 3 for a, b in zip(point, (*point[1:], point[0]))) for point in face]
                for face in of_cells({(0, 0, 0), (0, 0, 1), (1, 0, 1), (0, 1, 1)})]  # fmt: skip
        with self.assertRaises(NotCarved):
            carving_of(bent)

    def test_three_bent_sides(self):
        # (Schoenhardt's body, which has no inner edge: a prism over a triangle whose upper end is turned)
        low, high = [(0, 0, 0), (70, 0, 0), (35, 61, 0)], [(20, -9, 50), (68, 30, 50), (17, 40, 50)]
        for first in (0, 1):
            lower = [[low[at], low[at - 2], (high[at], high[at - 2])[first]] for at in range(3)]
            upper = [[(low[at - 2], low[at])[first], high[at - 2], high[at]] for at in range(3)]
            sides = [face for pair in zip(lower, upper) for face in pair]
            found = carving_of([low[::-1], high, *sides])
            self.assertEqual(isinstance(found, Hull), first == 0)


class Sources(unittest.TestCase):
    def polyhedron(self, faces):
        points = sorted({point for face in faces for point in face})
        numbers = [[points.index(it) for it in reversed(face)] for face in faces]
        return f"polyhedron(points = {[list(it) for it in points]}, faces = {numbers}, convexity = 1);"

    def test_a_polyhedron_that_no_point_sees_all_of(self):
        text = self.polyhedron(prism(HOOK, 3))
        first, *_ = lines(text, unit=1)
        self.assertEqual(first, "difference() {")
        mirrored = f"multmatrix([[-1, 0, 0, 0], [0, 1, 0, 0], [0, 0, 1, 0], [0, 0, 0, 1]]) {{ {text} }}"
        self.assertEqual(len(bodies(mirrored, 1)), len(bodies(text, 1)))

    def test_faces_back_to_back_bound_nothing(self):
        plain = box((0, 0, 0), (4, 2, 2))
        (first,) = bodies(self.polyhedron(plain), 1)
        sheet, line = [(0, 0, 0), (4, 0, 0), (4, 2, 2)], [(0, 0, 0), (4, 0, 0), (2, 0, 0)]
        for flat in (sheet, line, [*sheet, (1, 1, 1)]):
            extended = [*plain, flat, [*flat[:1], *flat[:0:-1]]]
            self.assertEqual([it.facets for it in bodies(self.polyhedron(extended), 1)], [first.facets])
        with self.assertRaises(CsgFault) as caught:
            bodies(self.polyhedron([*plain, sheet]), 1)
        self.assertEqual(caught.exception.word, "NotClosed")

    def test_a_body_that_touches_itself_along_an_edge(self):
        two = box((0, 0, 0), (2, 2, 2)) + box((2, 2, 0), (5, 5, 2))
        found = bodies(self.polyhedron(two), 1)
        self.assertEqual(sorted(volume6(it) for it in found), [6 * 8, 6 * 18])
        for overlapping in (
            box((0, 0, 0), (2, 2, 2)) * 2,
            box((0, 0, 0), (4, 4, 4)) + box((0, 0, 0), (2, 2, 4)),
            # (two wedges over one edge, of which each begins in the other)
            prism([(0, 0), (4, 0), (4, 4)], 3) + prism([(0, 0), (4, 2), (0, 4)], 3),
        ):
            with self.assertRaises(CsgFault) as caught:
                bodies(self.polyhedron(overlapping), 1)
            self.assertEqual(caught.exception.word, "NotConvex")

    def test_a_face_that_is_not_flat_is_cut_as_by_openscad(self):
        # (one corner of a cube is higher: above it lies a triangle of the half of the upper face that has the corner)
        points = [[x, y, z] for z in (0, 6) for y in (0, 6) for x in (0, 6)]
        points[7][2] = 9
        faces = [[0, 1, 3, 2], [0, 4, 5, 1], [2, 3, 7, 6], [0, 2, 6, 4], [1, 5, 7, 3]]
        for upper, more in (([4, 6, 7, 5], 18), ([6, 7, 5, 4], 36)):
            text = f"polyhedron(points = {points}, faces = {[*faces, upper]}, convexity = 1);"
            (first, *others) = bodies(text, 1)
            self.assertEqual(sum(volume6(it) for it in (first, *others)), 6 * (216 + more))
        for move in ([1, 1, 6], [4, 4, 9]):
            five = [*points, move]
            text = f"polyhedron(points = {five}, faces = {[*faces[:-1], [1, 5, 8, 7, 3], [4, 6, 7, 8, 5]]}, convexity = 1);"
            with self.assertRaises(CsgFault) as caught:
                bodies(text, 1)
            self.assertIn("isn't flat", caught.exception.said)

    def test_a_flat_face_may_have_hollow_corners(self):
        # (a star of four points, of the area 24, and a point 6 above it; its first corner is a hollow one)
        star = [(1, 1), (0, 6), (-1, 1), (-6, 0), (-1, -1), (0, -6), (1, -1), (6, 0)]
        lower, top = [(x, y, 0) for x, y in star], (0, 0, 6)
        for first in range(8):
            turned = [*lower[first:], *lower[:first]]
            sides = [[p, q, top] for p, q in zip(turned, [*turned[1:], turned[0]])]
            found = bodies(self.polyhedron([turned[::-1], *sides]), 1)
            self.assertEqual(sum(volume6(it) for it in found), 6 * 48)
            for x, y, z, is_inside in ((0, 0, 3, True), (4, 0, 1, True), (2, 2, 1, False), (-2, 2, 1, False), (0, 2, 3, True)):
                behind = [all(a * x + b * y + c * z <= d for a, b, c, d in it.facets) for it in found]
                self.assertEqual(any(behind), is_inside)

    def test_a_corner_on_an_edge_may_be_beside_it_by_a_digit(self):
        for aside in (0.00002, 0.0, -0.00002):
            points = [[x, y, z] for z in (0, 10) for y in (0, 10) for x in (0, 10)]
            points += [[5, aside, 2 * aside], [5, aside, 10 + aside]]
            faces = [[0, 8, 1, 3, 2], [4, 6, 7, 5, 9], [0, 4, 9, 8], [8, 9, 5, 1], [2, 3, 7, 6], [0, 2, 6, 4], [1, 5, 7, 3]]
            for turn in range(5):
                faces[:2] = [[*it[1:], it[0]] for it in faces[:2]]
                (body,) = bodies(f"polyhedron(points = {points}, faces = {faces}, convexity = 1);", 1)
                self.assertEqual((volume6(body), len(body.corners)), (6 * 1000, 8))

    def test_faces_that_go_through_one_another(self):
        crossed = prism(HOOK, 3) + prism([(0, 0), (2, 0), (1, 2)], 8, (0, 3, -2))
        with self.assertRaises(CsgFault) as caught:
            lines(self.polyhedron(crossed))
        self.assertEqual(caught.exception.word, "NotConvex")
        self.assertIn("go through one another", caught.exception.said)
        self.assertEqual(read("cube(size = [1, 1, 1]);")[0].name, "cube")


if __name__ == "__main__":
    unittest.main()
