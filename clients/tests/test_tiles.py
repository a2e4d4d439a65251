"""Tiles: how a design is cut, what each tile's source has, and how the solids of tiles are put together."""

import os
import signal
import time
import unittest
from random import Random

from scadserve.openscad.exact_hull import hull
from scadserve.openscad.reader import CsgFault
from scadserve.openscad.tree import DIFFERENCE, INTERSECTION, UNION, Join
from scadserve.server.scripts import ServerFailed
from scadserve.solid import fouroff, measures
from scadserve.solid.surface import NotClosed
from scadserve.solving import Solid, solve
from scadserve.tiles.cutting import EMPTY, FULL, Limits, Near, Tile, halved, near_leaves, whole_box, whole_tree, within
from scadserve.tiles.dividing import halves, pieces, sources
from scadserve.tiles.gluing import NotOfTile, glued, part_of
from scadserve.tiles.joined import text_of
from scadserve.tiles.making import made
from scadserve.tiles.shapes import _Shapes, leaf_pieces
from scadserve.tiles.side_by_side import done
from tests import chance
from tests.calls import PROGRAM, needs_program

SMALL = Limits(planes=60, facets=60, shapes=20)


def boxes(low, high):
    """The text of a box, worked by hand: its corners in the order in which its faces have them."""
    (a, b, c), (x, y, z) = low, high
    corners = [(a, b, c), (a, b, z), (a, y, z), (a, y, c), (x, b, c), (x, y, c), (x, y, z), (x, b, z)]
    faces = ["4 0 1 2 3", "4 4 5 6 7", "4 0 4 7 1", "4 3 2 6 5", "4 0 3 5 4", "4 1 7 6 2"]
    return ("4OFF\n8 6 0\n" + "".join(f"{i} {j} {k} 1\n" for i, j, k in corners) + "\n".join(faces) + "\n").encode()


def sides(low, high):
    """The planes of a box's sides, each as the one of two opposite ones that stands for both."""
    return {(axis == 0, axis == 1, axis == 2, place) for corner in (low, high) for axis, place in enumerate(corner)}


class Cut(unittest.TestCase):
    """What of a leaf counts in a box."""

    def setUp(self):
        self.ball = whole_tree(chance.ball((0, 0, 0), 1000, 40))

    def test_a_box_deep_inside_is_full_and_one_outside_is_empty(self):
        self.assertIs(within(self.ball, (-300, -300, -300, 300, 300, 300)), FULL)
        self.assertIs(within(self.ball, (900, 900, 900, 1000, 1000, 1000)), EMPTY)
        self.assertIs(within(self.ball, (2000, 0, 0, 2100, 100, 100)), EMPTY)

    def test_few_facets_go_through_a_small_box(self):
        near = within(self.ball, (900, -100, -100, 1100, 100, 100))
        self.assertIsInstance(near, Near)
        self.assertLess(len(near.facets), 40)

    def test_joins_with_what_is_full_or_empty_fall_away(self):
        inner = chance.box((-100, -100, -100), (200, 200, 200))
        tree = whole_tree(Join(DIFFERENCE, [chance.ball((0, 0, 0), 1000, 40), inner]))
        self.assertIs(within(tree, (-90, -90, -90, 90, 90, 90)), EMPTY)
        self.assertIs(within(tree, (110, 110, 110, 200, 200, 200)), FULL)
        # (all of the box but the small one: its own sides stand in place of the ball)
        hollow = within(tree, (-200, -200, -200, 200, 200, 200))
        self.assertEqual([len(it.leaf.planes) for it in near_leaves(hollow)], [6, 6])

    def test_no_wall_stands_on_a_facet(self):
        grid = Join(UNION, [chance.box((at, 0, 0), (10, 10, 10)) for at in (0, 10, 20, 30, 41)])
        tree = whole_tree(grid)
        for part in halved(Tile(whole_box(tree), tree)):
            self.assertFalse({part.box[0], part.box[3]} & {0, 10, 20, 30, 41, 51})

    def test_a_tile_without_a_free_place_has_no_wall(self):
        grid = Join(UNION, [chance.box((0, 0, 0), (it, it, it)) for it in (1, 2, 3)])
        tree = whole_tree(grid)
        whole = Tile((0, 0, 0, 4, 4, 4), within(tree, (0, 0, 0, 4, 4, 4)))
        self.assertIsNone(halved(whole))
        # (but for a half of the grid, at which no facet can stand)
        self.assertEqual([(it.box, it.steps) for it in halves(whole)], [((0, 0, 0, 3, 8, 8), 2), ((3, 0, 0, 8, 8, 8), 2)])
        # (what the boxes have in common ends at the one place between its walls)
        box = (1, 1, 1, 3, 3, 3)
        common = Tile(whole.box, whole_tree(Join(INTERSECTION, grid.parts))).with_half_steps()
        with self.assertRaises(CsgFault) as caught:
            halves(Tile(box, within(common.tree, box), 2, True))
        self.assertEqual(caught.exception.word, "TooManyPlanes")
        self.assertIn("between 1/2, 1/2, 1/2 and 3/2, 3/2, 3/2 of the grid", caught.exception.said)


class Shapes(unittest.TestCase):
    """The hull that stands for a leaf in a tile is the leaf there, and lies in the leaf elsewhere."""

    def assert_same(self, body, box, rolled):
        near = within(whole_tree(body), box)
        if not isinstance(near, Near):
            return 0
        points, _ = _Shapes(Tile(box, near), Limits())._points(near)
        found = hull(points)
        for _ in range(60):
            place = [rolled.randrange(2 * box[axis] + 1, 2 * box[axis + 3]) for axis in range(3)]
            is_in = all(a * place[0] + b * place[1] + c * place[2] <= 2 * d for a, b, c, d in body.hull.facets)
            # (on a facet both may differ, where that has no area in the tile)
            if any(a * place[0] + b * place[1] + c * place[2] == 2 * d for a, b, c, d in body.hull.facets):
                continue
            ours = found is not None and all(a * place[0] + b * place[1] + c * place[2] <= 2 * d for a, b, c, d in found.facets)
            self.assertEqual(ours, is_in, (box, place))
        return 1

    def test_by_chance(self):
        rolled = Random(3)
        cones = [chance.cone((0, 0, 0), 200, 0, 500, 60), chance.cone((0, 0, 0), 200, 180, 400, 90)]
        bodies = [chance.ball((10, 0, -7), 300, 30), *cones]
        count = 0
        for body in bodies:
            for _ in range(60):
                low = [rolled.randrange(-320, 300) for _ in range(3)]
                box = (*low, *(it + rolled.randrange(8, 200) for it in low))
                count += self.assert_same(body, box, rolled)
        self.assertGreater(count, 40)

    def test_a_leaf_with_a_tip_falls_into_hulls_that_make_it(self):
        leaf = whole_tree(chance.cone((0, 0, 0), 2000, 0, 900, 300)).leaf
        found = list(leaf_pieces(leaf))
        self.assertEqual(sorted({at for facets, _ in found for at in facets}), list(range(len(leaf.planes))))
        self.assertTrue(all(len(points) <= 128 for _, points in found))
        # (they may overlap, but none goes beyond the leaf, and no point of the leaf is in none)
        hulls = [hull(points) for _, points in found]
        self.assertTrue(all(leaf.holds(it) for body in hulls for it in body.corners))
        rolled = Random(5)
        inside = 0
        for _ in range(300):
            x, y, z = (rolled.randrange(low, high + 1) for low, high in zip(leaf.box, leaf.box[3:]))
            if leaf.holds((x, y, z)):
                inside += 1
                self.assertTrue(any(all(a * x + b * y + c * z <= d for a, b, c, d in body.facets) for body in hulls))
        self.assertGreater(inside, 30)


def stack(levels):
    """Thin cones on one another, as a profile that is turned round an axis: each has rings of 80 corners below and above."""
    return Join(UNION, [chance.cone((0, 0, 4 * at), 640 - 3 * at, 637 - 3 * at, 4, 80) for at in range(levels)])


class Rings(unittest.TestCase):
    """What lies between two long rings in a tile needs few points and planes, so that tiles need not be small."""

    def test_there_are_few_tiles(self):
        found = list(sources(pieces(stack(20), Limits()), Limits()))
        # (1,600 planes and more, of which a tile has 300)
        self.assertTrue(6 <= len(found) <= 24, len(found))


class Glued(unittest.TestCase):
    """A box of 2 by 1 by 1, cut in two at x = 1."""

    LEFT, RIGHT = ((0, 0, 0), (1, 1, 1)), ((1, 0, 0), (2, 1, 1))
    PLANES = sides((0, 0, 0), (2, 1, 1))

    def part(self, low, high, box):
        return part_of(*fouroff.numbers_of(boxes(low, high)), box, self.PLANES)

    def parts(self):
        return [self.part(*self.LEFT, (-1, -1, -1, 1, 2, 2)), self.part(*self.RIGHT, (1, -1, -1, 3, 2, 2))]

    def test_the_wall_is_gone(self):
        text = text_of(glued(self.parts())).text
        boundary = fouroff.read(text)
        self.assertEqual((len(boundary.corners), len(boundary.faces)), (8, 12))
        self.assertEqual(sorted(boundary.corners), sorted((x, y, z, 1) for x in (0, 2) for y in (0, 1) for z in (0, 1)))
        self.assertEqual(measures.volume(boundary).value, 2)

    def test_what_does_not_fit_is_refused(self):
        left, right = self.parts()
        with self.assertRaises(NotClosed):
            glued([left])
        with self.assertRaises(NotClosed):
            glued([left, left])
        lower = part_of(*fouroff.numbers_of(boxes((1, 0, 0), (2, 1, 2))), (1, -1, -1, 3, 2, 3), {*self.PLANES, (0, 0, 1, 2)})
        with self.assertRaises(NotClosed):
            glued([left, lower])

    def test_a_text_of_another_tile_is_told(self):
        for low, high, box, said in (
            (*self.RIGHT, (-1, -1, -1, 1, 2, 2), "a corner of it is outside of its tile"),
            ((0, 0, 0), (1, 1, 2), (-1, -1, -1, 1, 2, 3), "a face of it lies on a plane that no shape of its tile has"),
        ):
            with self.assertRaises(NotOfTile) as caught:
                self.part(low, high, box)
            self.assertEqual(str(caught.exception), said)


class SideBySide(unittest.TestCase):
    def test_each_piece_is_done_once(self):
        self.assertEqual(sorted(done(lambda it: it * it, range(20), 3)), [(it, it * it) for it in range(20)])
        self.assertEqual(list(done(lambda it: it, [], 3)), [])

    def test_a_fault_comes_through(self):
        def work(it):
            raise CsgFault(2, 3, "TooMany", f"at {it}")

        with self.assertRaises(CsgFault) as caught:
            list(done(work, [7], 2))
        self.assertEqual((caught.exception.line, caught.exception.column, caught.exception.said), (2, 3, "at 7"))

    def test_a_process_that_is_ended_is_told(self):
        with self.assertRaises(ServerFailed) as caught:
            list(done(lambda it: os.kill(os.getpid(), signal.SIGKILL), range(4), 2))
        self.assertEqual(caught.exception.status, 128 + signal.SIGKILL)

    def test_all_end_where_one_fails(self):
        def work(it):
            if it:
                time.sleep(50)
            raise ValueError(str(it))

        began = time.monotonic()
        with self.assertRaises(ValueError):
            list(done(work, range(3), 3))
        self.assertLess(time.monotonic() - began, 30)


@needs_program
class WithTheProgram(unittest.TestCase):
    """Designs by tiles and as one source: the same solid."""

    def assert_same(self, grid, limits=SMALL):
        [one] = solve([chance.one_source(grid)], server=PROGRAM)
        self.assertIsInstance(one, Solid, one)
        whole = made(grid, [PROGRAM], 2, limits)
        joined = fouroff.read(text_of(whole.surface).text)
        self.assertEqual(chance.areas(joined), chance.areas(fouroff.read(one.text)))
        self.assertEqual(len(joined.faces), len(one.triangles))
        return whole.tiles

    def test_a_ball_with_a_bore_and_boxes_that_touch(self):
        ball = Join(DIFFERENCE, [chance.ball((0, 0, 0), 200, 12), chance.cone((0, 0, -300), 60, 60, 600, 10)])
        places = [((150, -50, -50), (100, 100, 100)), ((250, 50, 50), (50, 50, 50)), ((150, -50, -50), (30, 100, 200))]
        beside = [chance.box(*it) for it in places]
        self.assertGreater(self.assert_same(Join(UNION, [ball, *beside])), 2)

    def test_designs_by_chance(self):
        for seed in range(3):
            rolled = Random(seed)
            self.assert_same(chance.design(rolled, 150))

    def test_rings_on_one_another(self):
        # (as one source 800 planes and more)
        self.assertGreater(self.assert_same(stack(10), Limits(planes=100, facets=400, shapes=80)), 8)

    def test_walls_at_halves_of_the_grid(self):
        # (steps of a stair at each place: no whole place is free, and all of it is too much for one tile)
        stair = [chance.box((at, 0, 0), (1, 1 + at, 2 + at % 3)) for at in range(9)]
        self.assertGreater(self.assert_same(Join(UNION, stair), Limits(planes=14, facets=30, shapes=4)), 2)


if __name__ == "__main__":
    unittest.main()
