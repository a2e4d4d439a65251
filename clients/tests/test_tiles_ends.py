"""How designs by tiles end otherwise: a full disk, a limit that no tile is within, and what a terminal is told meanwhile. And
that a design within the limits is made as it is without tiles, and which designs have a finer grid."""

import io
import math
import os
import re
import resource
import signal
import subprocess
import sys
import unittest
from fractions import Fraction
from unittest import mock

from scadserve.openscad.conversion import Conversion, Wanted, converted, of_any_size
from scadserve.openscad.exact_hull import hull, volume6
from scadserve.openscad.fineness import fits
from scadserve.openscad.front import Front
from scadserve.openscad.reader import CsgFault, read
from scadserve.openscad.tree import UNION, Join
from scadserve.server.replies import Complex
from scadserve.solid import measures
from scadserve.tiles.cutting import Limits
from scadserve.tiles.dividing import pieces, sources
from scadserve.tiles.joined import boundary_of
from scadserve.tiles.making import Solver, made
from scadserve.tiles.progress import Progress
from tests import chance
from tests.calls import PROGRAM, TOP, Calls, needs_program

FINE = "$fa = 12, $fs = 2"
BALL = f"sphere($fn = 60, {FINE}, r = 4);\n"


class FullDisk(Calls):
    def called(self, *words, most):
        """The status of a call that may write this many bytes to a file, and what it says."""

        def limited():
            signal.signal(signal.SIGXFSZ, signal.SIG_IGN)
            resource.setrlimit(resource.RLIMIT_FSIZE, (most, most))

        how = {"cwd": self.folder, "env": self.environment, "stdin": subprocess.DEVNULL, "capture_output": True, "check": False}
        done = subprocess.run([sys.executable, *words], preexec_fn=limited, **how)
        return done.returncode, done.stderr.decode()

    def test_a_folder_of_tiles(self):
        self.write("ball.csg", BALL)
        # (a source of a tile has some thousands of bytes, and the index many more)
        for most in (2000, 20_000):
            words = [os.path.join(TOP, "bin", "csg2scad"), "ball.csg", "--tiles", "tiles", "--jobs", "1"]
            status, said = self.called(*words, most=most)
            self.assertEqual(status, 2, said)
            self.assertIn("cannot write to the folder tiles: File too large", said)
            self.assertEqual(os.listdir(os.path.join(self.folder, "tiles")), [])

    @needs_program
    @unittest.skipUnless(os.path.exists("/dev/full"), "there is no /dev/full")
    def test_a_text(self):
        self.environment["SCADSERVE"] = PROGRAM
        csg = "sphere($fn = 44, $fa = 12, $fs = 2, r = 4);\n"
        write = f"open(sys.argv[sys.argv.index('-o') + 1], 'w').write({csg!r})\n"
        place = os.path.join(self.folder, self.write("openscad", f"#!{sys.executable}\nimport sys\n{write}"))
        os.chmod(place, 0o755)
        self.environment["OPENSCAD"] = place
        self.write("part.scad", "sphere(4);\n")
        words = [os.path.join(TOP, "bin", "scad2off"), "--by-openscad", "--jobs", "1", "part.scad", "-o", "/dev/full"]
        status, said = self.called(*words, most=10**9)
        self.assertNotEqual(status, 0)
        self.assertIn("No space left on device", said)


class Limited(unittest.TestCase):
    """A server that answers each tile with a limit."""

    def test_the_tile_that_cannot_be_halved_is_told_with_its_place(self):
        grid = Join(UNION, [chance.box((at, 0, 0), (1, 1, 1)) for at in range(3)])
        solver = Solver([], Limits(), None)
        solver._replies = lambda of_tiles: [Complex("sum", 1)] * len(of_tiles)
        with self.assertRaises(CsgFault) as caught:
            for it in pieces(grid, Limits()):
                solver(it)
        self.assertEqual(caught.exception.word, "TooManyPlanes")
        self.assertRegex(caught.exception.said, r"between -?[\d/]+, -?[\d/]+, -?[\d/]+ and [\d/]+, [\d/]+, [\d/]+ of the grid")


class Terminal(unittest.TestCase):
    def told(self, is_terminal):
        error = io.TextIOWrapper(io.BytesIO())
        error.isatty = lambda: is_terminal
        times = mock.patch("scadserve.tiles.progress.monotonic", side_effect=[100.0, 102.0, 104.0])
        with mock.patch("sys.stderr", error), times:
            progress = Progress("part.scad")
            progress(5, 0.25)
            progress(10, 0.5)
            progress.end()
        return error.buffer.getvalue().decode()

    def test_tiles_that_are_done_and_seconds_left(self):
        # (a quarter took 2 s, so three more take 6 s; a half took 4 s)
        lines = ["5 of about 20 tiles, 6 s left", "10 of about 20 tiles, 4 s left"]
        self.assertEqual(self.told(True), "".join(f"\rpart.scad: {it}\x1b[K" for it in lines) + "\r\x1b[K")

    def test_what_is_no_terminal_is_told_nothing(self):
        with mock.patch("scadserve.tiles.progress.monotonic", return_value=0.0):
            self.assertEqual(self.told(False), "")


class WithinTheLimits(unittest.TestCase):
    """A design within the limits of a source takes the way without tiles, byte for byte."""

    ANGLE = "[[0, 0], [10, 0], [10, 3], [3, 3], [3, 10], [0, 10]]"
    BORE = f"cylinder($fn = 16, {FINE}, h = 9, r1 = 1, r2 = 2, center = true);"
    DESIGNS = (
        "cube(size = [1, 2, 3.25], center = false);",
        f"difference() {{ sphere($fn = 20, {FINE}, r = 4); {BORE} }}",
        "linear_extrude(height = 5, twist = 30, slices = 3) { polygon(points = [[3, 1], [7, 1], [7, 3], [3, 3]]); }",
        f"linear_extrude(height = 8, twist = 40, slices = 4) {{ polygon(points = {ANGLE}); }}",
        f"linear_extrude(height = 2, scale = [1, 2], slices = 2) {{ circle($fn = 9, {FINE}, r = 3); }}",
        f"hull() {{ linear_extrude(height = 4, twist = 50, slices = 2) {{ circle($fn = 5, {FINE}, r = 3); }} }}",
    )

    def test_designs(self):
        for text in self.DESIGNS:
            as_before = converted(read(text), Wanted(), Front("."))
            found = of_any_size(read(text), Wanted(), Front("."))
            self.assertIsInstance(found, Conversion)
            self.assertEqual(found.text, as_before.text)
            self.assertEqual((found.unit, found.told), (as_before.unit, as_before.told))


class Finer(unittest.TestCase):
    """Where a tile has an origin of its own, a grid may be ten times as fine."""

    def test_which_hulls_have_room(self):
        # (a facet across an axis, and edges along one of a prism, may be as long as they are; slanted ones have 2,700 steps)
        box, rod, ramp = (
            chance.box((0, 0, 0), (30_000, 20_000, 9)).hull,
            chance.cone((0, 0, -15_000), 400, 400, 30_000, 24).hull,
            hull([(0, 0, 0), (9000, 0, 0), (0, 50, 0), (9000, 50, 0), (9000, 0, 700), (9000, 50, 700)]),
        )
        self.assertEqual([fits(it) for it in (box, rod, ramp)], [True, True, False])
        self.assertEqual([fits(chance.ball((0, 0, 0), 10_000, it).hull) for it in (12, 40)], [False, True])

    def test_sources_of_tiles_have_room_and_are_on_the_finer_grid(self):
        parts = [chance.ball((20_000, 0, 0), 9000, 40), chance.box((-30_000, -200, -100), (50_000, 500, 300))]
        count = 0
        for it in sources(pieces(Join(UNION, parts), Limits(), 10), Limits()):
            count += 1
            self.assertEqual(it.tile.steps, 10)
            numbers = re.findall(rb"(?<=[\[ ])-?\d+(?=[\],])", b"\n".join(it.lines))
            # (a box is written by its least corner and its sides)
            self.assertLessEqual(max(abs(int(number)) for number in numbers), 8190)
            self.assertTrue(all(abs(place) <= 4095 for place in it.box()))
        self.assertGreater(count, 20)

    def test_what_is_told_of_it(self):
        # (of the corners of a ball of 15 on steps of 1/2000 none moves by more than half a step along each axis: 0.000433)
        text = f"sphere($fn = 72, {FINE}, r = 15);"
        found = of_any_size(read(text), Wanted(), Front("."))
        self.assertEqual((found.unit, found.steps), (Fraction(1, 200), 10))
        told = r"on a grid of 1/200: corners moved by 0.0004\d? at most, since its tiles have steps of 1/2000"
        self.assertRegex(found.told[0], told)
        self.assertLess(found.off, 0.000434)
        # (where a unit is asked for, that is the grid)
        found = of_any_size(read(text), Wanted(unit=found.unit), Front("."))
        self.assertEqual((found.unit, found.steps), (Fraction(1, 200), 1))

    @needs_program
    def test_a_ball_has_the_volume_of_its_rings_at_half_angles(self):
        found = of_any_size(read(f"sphere($fn = 48, {FINE}, r = 5);"), Wanted(), Front("."))
        self.assertEqual((found.unit, found.steps), (Fraction(1, 500), 1))
        volume = measures.volume(boundary_of(made(found.grid, [PROGRAM], 1).surface)).value
        # (24 rings of 48 corners; between two of them is a frustum, and a ring's area is that of a regular polygon)
        rings = [(5 * math.cos(turn), 5 * math.sin(turn)) for turn in (math.pi * (at + 0.5) / 24 for at in range(24))]
        area = 24 * math.sin(math.pi / 24)
        whole = sum(area * (z - y) * (r * r + r * s + s * s) / 3 for (z, r), (y, s) in zip(rings, rings[1:]))
        # (each point of the surface, which is less than the sphere's, is off by what a corner moves at most)
        self.assertLess(found.off, 0.866 / 500)
        self.assertAlmostEqual(float(volume) / 500**3, whole, delta=4 * math.pi * 5**2 * found.off)
        # (and exactly it is that of the hull of the rounded corners)
        ways = [(math.cos(turn), math.sin(turn)) for turn in (math.pi * at / 24 for at in range(48))]
        corners = [(round(500 * r * x), round(500 * r * y), round(500 * z)) for z, r in rings for x, y in ways]
        self.assertEqual(volume, Fraction(volume6(hull(corners)), 6))

    @needs_program
    def test_a_ball_and_a_rod_on_the_finer_grid_have_their_volume(self):
        # (a box of 30 by 20 by 10 units, and a prism of 24 sides through it that stands out by 5 units at each end)
        parts = [chance.box((-150, -100, -50), (300, 200, 100)), chance.cone((0, 0, -100), 40, 40, 200, 24)]
        found = made(Join(UNION, parts), [PROGRAM], 1, Limits(planes=20, facets=40, shapes=9), steps=10)
        volume = float(measures.volume(boundary_of(found.surface)).value)
        area = 12 * 4**2 * math.sin(math.radians(15))
        self.assertAlmostEqual(volume, 6000 + 10 * area, delta=10 * area / 50)
        corners = {it[:3] for it in boundary_of(found.surface).corners if it[3] == 1}
        self.assertTrue({(x, y, z) for x in (-15, 15) for y in (-10, 10) for z in (-5, 5)} <= corners)


if __name__ == "__main__":
    unittest.main()
