"""The tool off2svg: what is in front is painted last, and the drawing has the lines that the solid has."""

import os
import random
import re
import subprocess
import unittest
import xml.etree.ElementTree as ElementTree
from fractions import Fraction
from unittest import mock

from scadserve.view import painter
from scadserve.tools import off2svg
from scadserve.view import drawing
from scadserve.solid.closing import close, line_through
from scadserve.solid.fouroff import flatten, read, turn
from scadserve.view.painter import Patch, crossing, divide, outline, painted, side, visible
from scadserve.view.painter import _sides as sides
from scadserve.view.drawing import Camera
from tests import tool_case
from tests.calls import TOP
from tests.solids import CUT_CUBE, EMPTY, box, comb, examples, gallery, off, split_box

def patches(data, view):
    """The patches of a solid in the order in which they are painted."""
    boundary = read(data)
    return list(painted(visible(painter.patches(boundary, close(boundary)), view), view))


def leaning_bars():
    """Four bars round a square hole, each with its low end under the high end of the one before: a cycle."""

    def bar(turned):
        low, high = [(0, 0, 0), (0, 2, 0), (0, 2, 1), (0, 0, 1)], [(10, 0, 4), (10, 2, 4), (10, 2, 5), (10, 0, 5)]
        ends = [[turned(x, y, z) for x, y, z in end] for end in (low, high)]
        (a, b, c, d), (e, f, g, h) = ends
        return [[a, d, c, b], [e, f, g, h], [a, b, f, e], [b, c, g, f], [c, d, h, g], [d, a, e, h]]

    return (
        bar(lambda x, y, z: (x, y, z))
        + bar(lambda x, y, z: (10 - y, x, z))
        + bar(lambda x, y, z: (10 - x, 10 - y, z))
        + bar(lambda x, y, z: (y, 10 - x, z))
    )


def drum(sides, y=0):
    """A prism of 9 over a polygon without a dent, whose corners lie on a circle of 10 round (0, y)."""
    ring = []
    for at in range(sides):
        part = Fraction(at % (sides // 4), sides // 4)
        across, up = (1 - part**2) / (1 + part**2), 2 * part / (1 + part**2)
        for _ in range(at // (sides // 4)):
            across, up = -up, across
        ring.append((10 * across, 10 * up + y))
    low, high = ([(x, y, Fraction(z)) for x, y in ring] for z in (0, 9))
    walls = [[low[at - 1], low[at], high[at], high[at - 1]] for at in range(sides)]
    return [low[::-1], high, *walls]


class Cameras(unittest.TestCase):
    def test_directions(self):
        for angles, view, place in (
            ((0, 0), (0, -1, 0), (1, 3)),
            ((90, 0), (1, 0, 0), (2, 3)),
            ((180, 0), (0, 1, 0), (-1, 3)),
            ((-90, 0), (-1, 0, 0), (-2, 3)),
            ((0, 90), (0, 0, 1), (1, 2)),
            ((0, -90), (0, 0, -1), (1, -2)),
        ):
            camera = Camera(*angles)
            self.assertEqual(camera.view, tuple(1000000 * part for part in view))
            for found, expected in zip(camera.project((2, 4, 6, 2)), place):
                self.assertAlmostEqual(found, expected, 9)

    def test_what_looks_to_the_light_is_brighter(self):
        camera = Camera(30, 30)
        top, front, right = (camera.color(plane) for plane in ((0, 0, 1, 0), (0, -1, 0, 0), (1, 0, 0, 0)))
        self.assertTrue(top > front > right, (top, front, right))


class Painting(unittest.TestCase):
    def test_a_crossing(self):
        # From (0, 0, 0) to (3, 0, 3/2) through the plane x = 1.
        self.assertEqual(crossing((1, 0, 0, 1), (0, 0, 0, 1), (6, 0, 3, 2)), (2, 0, 1, 2))
        self.assertEqual([side((1, 0, 0, 1), point) for point in ((0, 0, 0, 1), (2, 0, 1, 2), (6, 0, 3, 2))], [-1, 0, 1])

    def assert_in_order(self, data, view, rays):
        """Along rays to the viewer through points of faces, what is met later is painted later, and nothing twice."""
        rolled = random.Random(3)
        order = patches(data, view)
        pieces = [
            (at, patch.plane, [corner for corner, _ in piece]) for at, patch in enumerate(order) for piece in patch.pieces
        ]
        for _ in range(rays):
            _, _, ring = rolled.choice(pieces)
            point = inner_point(ring, rolled)
            met = []
            for at, plane, other in pieces:
                speed = sum(a * v for a, v in zip(plane, view))
                time = (plane[3] - sum(a * p for a, p in zip(plane, point))) / speed
                if covers(other, plane, [p + time * v for p, v in zip(point, view)]):
                    met.append((time, at))
            met.sort()
            self.assertTrue(met)
            for (earlier, below), (later, above) in zip(met, met[1:]):
                self.assertLess(earlier, later)
                self.assertLess(below, above)

    def test_what_is_nearer_is_painted_later(self):
        view = Camera(30, 30).view
        for name, text in {**gallery(), "cut cube": CUT_CUBE, "bars": off(leaning_bars())}.items():
            with self.subTest(name):
                self.assert_in_order(text, view, 8)

    def test_bodies_of_many_planes(self):
        # Each plane has all others behind it, so none of them divides the rest.
        data = off(drum(160))
        order = patches(data, Camera(30, 30).view)
        self.assertLess(len(order), 81 + 20)
        self.assert_in_order(data, Camera(30, 30).view, 8)
        # Two of them, one before the other, with a dent between them.
        self.assert_in_order(off(drum(100) + drum(100, 30)), (3, -20, 5), 8)

    def test_many_planes_are_not_tried_each_with_all(self):
        looked_at = []

        def counting(plane, pieces):
            looked_at.append(len(pieces))
            return sides(plane, pieces)

        counts = []
        with mock.patch("scadserve.view.painter._sides", counting):
            for size in (200, 800):
                looked_at.clear()
                patches(off(drum(size)), Camera(30, 30).view)
                counts.append(sum(looked_at))
        # Four times as many planes take less than eight times as long; all with all would take sixteen times.
        self.assertLess(counts[1], 8 * counts[0])

    def test_from_all_around(self):
        rolled = random.Random(5)
        parts = [gallery()[name] for name in ("bracket", "star", "house", "dovetail")] + [off(leaning_bars())]
        for data in parts:
            for _ in range(4):
                self.assert_in_order(data, tuple(rolled.randint(-9, 9) * 10 + 1 for _ in range(3)), 5)

    def test_a_cycle_is_cut(self):
        # Four tops, four sides to the front and to the right of them: some are in pieces.
        order = patches(off(leaning_bars()), (1, 2, 30))
        cut = [patch for patch in order if any(is_cut for loop in outline(patch) for _, is_cut in loop)]
        self.assertGreaterEqual(len(cut), 2)
        area = {}
        for patch in order:
            for piece in patch.pieces:
                area[patch.plane] = area.get(patch.plane, 0) + flat_area([corner for corner, _ in piece], patch.plane)
        boundary = read(off(leaning_bars()))
        for plane, ring in zip(boundary.planes, boundary.faces):
            if plane in area:
                area[plane] -= flat_area([boundary.corners[corner] for corner in ring], plane)
        self.assertEqual(set(area.values()), {0})


def flat_area(ring, plane):
    """Twice the area of a polygon as it is seen along one axis."""
    flat = [(Fraction(u, w), Fraction(v, w), 1) for u, v, w in flatten(ring, plane)]
    return sum(turn(flat[0], flat[i], flat[i + 1]) for i in range(1, len(flat) - 1))


def inner_point(ring, rolled):
    """A point inside a convex polygon: its corners' mean by weights by chance."""
    weights = [rolled.randint(1, 999) for _ in ring]
    return [sum(Fraction(w * corner[axis], corner[3]) for w, corner in zip(weights, ring)) / sum(weights) for axis in range(3)]


def covers(ring, plane, point):
    """Whether a point of the plane is strictly inside a convex polygon on it."""
    below = 1
    for part in point:
        below = below * part.denominator
    corner = tuple(int(part * below) for part in point) + (below,)
    *flat, seen = flatten([*ring, corner], plane)
    turns = [turn(p, q, seen) for p, q in zip(flat, flat[1:] + flat[:1])]
    return min(turns) > 0


class Outlines(unittest.TestCase):
    def test_no_line_between_neighbours_on_one_plane(self):
        top = next(patch for patch in patches(off(split_box()), (1, -1, 1)) if patch.plane == (0, 0, 1, 1))
        self.assertEqual(len(top.pieces), 2)
        loops = outline(top)
        self.assertEqual(len(loops), 1)
        self.assertEqual({corner for corner, _ in loops[0]}, {(0, 0, 1, 1), (2, 0, 1, 1), (2, 1, 1, 1), (0, 1, 1, 1)})

    def test_neighbours_that_are_parted_along_their_edge_have_no_line_there(self):
        top = next(patch for patch in patches(off(split_box()), (1, -1, 1)) if patch.plane == (0, 0, 1, 1))
        for part, (first, second) in zip(divide(top, (1, 0, 0, 1)), (((1, 0), (1, 1)), ((1, 1), (1, 0)))):
            [loop] = outline(part)
            cuts = [(p[:2], q[:2]) for (p, is_cut), (q, _) in zip(loop, loop[1:] + loop[:1]) if is_cut]
            self.assertEqual(cuts, [(first, second)])

    def test_each_line_lies_on_an_edge_between_two_planes(self):
        for name, data in {**gallery(), "cut cube": CUT_CUBE, "bars": off(leaning_bars())}.items():
            with self.subTest(name):
                boundary = read(data)
                rings = close(boundary)
                planes = {}
                for plane, ring in zip(boundary.planes, rings):
                    planes.update(((p, q), plane) for p, q in zip(ring, ring[1:] + ring[:1]))
                corners = boundary.corners
                edges = {line_through(corners[p], corners[q]) for p, q in planes if planes[p, q] != planes[q, p]}
                for patch in patches(data, Camera(30, 30).view):
                    for loop in outline(patch):
                        for (corner, is_cut), (following, _) in zip(loop, loop[1:] + loop[:1]):
                            self.assertTrue(is_cut or line_through(corner, following) in edges)

    def test_a_plate_with_two_holes(self):
        # examples/plate: the top of a plate 6 x 3 with two holes is one rectangle with two notches or holes.
        [text] = [text for name, text in examples().items() if name.startswith("plate")]
        top = next(patch for patch in patches(text, (1, -1, 2)) if patch.plane == (0, 0, 1, 1))
        loops = outline(top)
        corners = {corner[:2] for loop in loops for corner, _ in loop}
        outer = {(0, 0), (6, 0), (6, 3), (0, 3)}
        self.assertLessEqual(outer, corners)
        self.assertEqual(len(corners), 4 + 2 * 4)

    def test_a_square_is_cut_through_two_corners(self):
        square = [((x, y, 0, 1), False) for x, y in ((0, 0), (4, 0), (4, 4), (0, 4))]
        behind, ahead = divide(Patch((0, 0, 1, 0), [square]), (1, -1, 0, 0))
        self.assertEqual(behind.pieces, [[((0, 0, 0, 1), True), ((4, 4, 0, 1), False), ((0, 4, 0, 1), False)]])
        self.assertEqual(ahead.pieces, [[((0, 0, 0, 1), False), ((4, 0, 0, 1), False), ((4, 4, 0, 1), True)]])

    def test_a_corner_where_a_cut_begins_stays(self):
        ring = [((0, 0, 0, 1), False), ((2, 0, 0, 1), True), ((4, 0, 0, 1), False), ((0, 4, 0, 1), False)]
        self.assertEqual(outline(Patch((0, 0, 1, 0), [ring])), [ring])
        ring[1] = ((2, 0, 0, 1), False)
        self.assertEqual(outline(Patch((0, 0, 1, 0), [ring])), [ring[:1] + ring[2:]])

    def test_a_cut_is_no_line(self):
        square = [((0, 0, 0, 1), False), ((4, 0, 0, 1), False), ((4, 4, 0, 1), True), ((0, 4, 0, 1), False)]
        drawn = drawing.paths(outline(Patch((0, 0, 1, 0), [square])), "#ffffff", lambda corner: corner[:2])
        self.assertEqual(len(drawn), 2)
        self.assertIn('d="M0 0l4 0 0 4-4 0z"', drawn[0])
        self.assertEqual(drawn[1], '<path d="M0 4l0-4 4 0 0 4"/>')


class Tool(tool_case.Case):
    tool = off2svg

    def draw(self, data, *words):
        """The drawing of a solid, as text and as XML."""
        self.assertEqual(self.call(*words, "-o", self.path("a.svg"), self.file("a.4off", data)), (0, ""))
        text = self.bytes_of("a.svg").decode("ascii")
        return text, ElementTree.fromstring(text)

    def test_a_box_has_three_faces_to_see(self):
        text, root = self.draw(off(box((0, 0, 0), (2, 3, 4))))
        self.assertEqual(len(re.findall("<path ", text)), 3)
        self.assertEqual(len(set(re.findall('fill="(#[0-9a-f]{6})"', text))), 3)
        self.assertEqual((root.get("width"), root[0].text), ("480", "a"))

    def test_from_one_side_a_box_is_a_rectangle(self):
        # 2 wide and 4 high: 1600 tenths of a pixel, of which 12 are a margin at each end.
        text, root = self.draw(off(box((0, 0, 0), (2, 3, 4))), "--view", "0", "0", "--width", "160")
        self.assertEqual((root.get("width"), root.get("height"), root.get("viewBox")), ("160", "318", "0 0 1600 3176"))
        [path] = re.findall(' d="([^"]*)"', text)
        numbers = list(map(int, re.findall("-?[0-9]+", path)))
        self.assertEqual(sorted(map(abs, numbers[2:])), [0, 0, 0, 1576, 1576, 3152])

    def test_a_needle_is_drawn_twice_as_tall_as_wide_at_most(self):
        needle = off(box((9, 9, 0), (Fraction(9 * 10**30 + 1, 10**30), 10, 4000)))
        _, root = self.draw(needle, "--view", "0", "0")
        self.assertEqual((root.get("width"), root.get("height")), ("480", "958"))

    def test_sizes(self):
        for name in ("plate", "bracket"):
            text, _ = self.draw(gallery()[name])
            self.assertLess(len(text), 6000)

    def test_every_part_is_drawn_within_its_frame(self):
        for name, data in {**gallery(), "cut cube": CUT_CUBE, "bars": off(leaning_bars())}.items():
            with self.subTest(name):
                text, root = self.draw(data, "--view", "-200", "-15.5")
                _, _, width, height = map(int, root.get("viewBox").split())
                for path in re.findall(' d="([^"]*)"', text):
                    for part in filter(None, path.split("M")):
                        start, way = part.split("l")
                        x, y = map(int, start.split())
                        steps = iter(map(int, re.findall("-?[0-9]+", way)))
                        for step in steps:
                            x, y = x + step, y + next(steps)
                            self.assertTrue(0 < x < width and 0 < y < height)

    def test_a_name_in_another_alphabet_is_the_title(self):
        status, said = self.call("-o", self.path("a.svg"), self.file("Gehäuse <\u03a9>.4off", off(box((0, 0, 0), (1, 1, 1)))))
        self.assertEqual(status, 0, said)
        title = next(it for it in ElementTree.fromstring(self.bytes_of("a.svg")).iter() if it.tag.endswith("title"))
        self.assertEqual(title.text, "Gehäuse <\u03a9>")

    def test_many_faces(self):
        # A comb of 1,000 teeth has 6,005 faces; seen are the front, the right end, the tops, and the right of each tooth.
        text, _ = self.draw(off(comb(1000)))
        self.assertGreater(len(re.findall("<path ", text)), 1000)

    def test_faults(self):
        cube = box((0, 0, 0), (1, 1, 1))
        good = self.file("a.4off", off(cube))
        for status, words, said in (
            (1, [self.file("e.4off", EMPTY)], "e.4off: error: the solid is empty, so nothing is written\n"),
            (2, [self.file("m.4off", b"4OFF\n")], "m.4off:2: error: the second line is not 'VERTICES FACES 0'\n"),
            (2, [self.file("o.4off", off(cube[1:]))], "o.4off: error: not closed: 4 edges"),
            (2, [self.path("none")], "off2svg: cannot open none: No such file"),
            (2, ["-o", self.path("none/a.svg"), good], "off2svg: cannot write none/a.svg: No such file"),
            (2, ["-o", "", good], "off2svg: cannot write : No such file"),
            (2, ["-o", self.path("a.scad"), good], "off2svg: a.scad would be an SVG picture, but has another ending"),
            (2, ["-o", self.path("a.PNG"), good], "off2svg: a.PNG would be an SVG picture, but has another ending"),
            (2, ["--view", "30", good], "off2svg: "),
            (2, ["--view", "x", "1", good], "is not an angle from -9999 to 9999 degrees"),
            (2, ["--view", "1e9", "1", good], "is not an angle from -9999 to 9999 degrees"),
            (2, ["--width", "3", good], "is not a width"),
            (2, ["--wide", good], "off2svg: "),
        ):
            self.assert_fault(status, words, said)

    def test_through_a_link_from_a_pipe(self):
        link = self.path("link")
        os.symlink(TOP + "/bin/off2svg", link)
        done = subprocess.run([link, "--view", "-30", "20"], input=CUT_CUBE, capture_output=True, check=True)
        self.assertTrue(done.stdout.startswith(b"<svg ") and done.stdout.endswith(b"</svg>\n"))
        self.assertEqual(done.stderr, b"")


if __name__ == "__main__":
    unittest.main()
