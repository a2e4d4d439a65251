"""Designs past the limits of a source by the tools, each of which makes tiles of them by itself, and what reads the text that
is joined of them. And tiles that the server answers with a limit, which are halved."""

import math
import os
import re
import sys
import unittest
from fractions import Fraction
from unittest import mock

from scadserve.openscad.exact_hull import hull, volume6
from scadserve.openscad.tree import UNION, Join
from scadserve.server.replies import Complex, Fault
from scadserve.solid import fouroff, measures
from scadserve.solving import Solid, solve
from scadserve.tiles.cutting import Limits
from scadserve.tiles.joined import text_of
from scadserve.tiles.making import Solver, made
from scadserve.tiles.side_by_side import processors
from tests import chance
from tests.calls import PROGRAM, TOP, Calls, needs_program

FINE = "$fa = 12, $fs = 2"
# Says once that each solid has too many facets, and is the program afterwards.
LIMITED_ONCE = """#!{python}
import os, re, subprocess, sys
if os.path.exists("run"):
    os.execv({program!r}, [{program!r}, *sys.argv[1:]])
open("run", "w").close()
out = subprocess.run([{program!r}, *sys.argv[1:]], stdin=sys.stdin, stdout=subprocess.PIPE, check=True).stdout
reply = re.search(rb"solid (\\d+)\\n", out)
lines = out[reply.end() :].split(b"\\n")[int(reply[1]) :]
sys.stdout.buffer.write(out[: reply.start()] + b"complex facets\\n" + b"\\n".join(lines))
"""


def tool(name):
    return os.path.join(TOP, "bin", name)


@needs_program
class Tools(Calls):
    """With a stand-in for OpenSCAD: a ball of 44 corners round it, which has 924 sides of four corners. These are not flat when
    they are rounded, and then they are two planes each."""

    COUNT, RADIUS = 44, 4

    def setUp(self):
        super().setUp()
        self.environment["SCADSERVE"] = PROGRAM
        csg = f"sphere($fn = {self.COUNT}, {FINE}, r = {self.RADIUS});\n"
        self.environment["OPENSCAD"] = self.script("openscad", self.of_openscad(csg))
        self.write("ball.csg", csg)
        self.write("ball.scad", f"sphere({self.RADIUS}, $fn = {self.COUNT});\n")

    def of_openscad(self, csg):
        return f"#!{sys.executable}\nimport sys\nopen(sys.argv[sys.argv.index('-o') + 1], 'w').write({csg!r})\n"

    def script(self, name, text):
        place = self.path(self.write(name, text))
        os.chmod(place, 0o755)
        return place

    def made(self, *words, name="scad2off"):
        """What a call says that makes a part."""
        status, _, said = self.call(*words, tool=tool(name))
        self.assertEqual(status, 0, said)
        return said.decode()

    def volume(self):
        """That of the ball's rounded corners, in units of the grid."""
        count, rings, radius = self.COUNT, self.COUNT // 2, 1000 * self.RADIUS
        turns = [(math.cos(it), math.sin(it)) for it in (2 * math.pi * at / count for at in range(count))]
        levels = [(math.sin(it), math.cos(it)) for it in (math.pi * (at + 0.5) / rings for at in range(rings))]
        corners = [(round(radius * r * x), round(radius * r * y), round(radius * z)) for r, z in levels for x, y in turns]
        return Fraction(volume6(hull(corners)), 6)

    def test_a_text_and_what_reads_it(self):
        said = self.made("--by-openscad", "ball.scad", "-o", "ball.4off")
        proved = "the text of each tile is proved; that they join to a closed surface was checked"
        count = re.search(rf"^ball\.scad: made of (\d+) tiles; {proved}$", said, re.MULTILINE)
        self.assertGreater(int(count[1]), 2)
        self.assertNotIn("fewer", said)
        self.assertEqual(measures.volume(fouroff.read(self.read("ball.4off"))).value, self.volume())
        # (--exact allows tiles, and how many are made side by side changes nothing)
        for words in (["--exact"], ["--jobs", "1"], ["--jobs", "3"]):
            self.made("--by-openscad", *words, "ball.scad", "-o", "again.4off")
            self.assertEqual(self.read("again.4off"), self.read("ball.4off"))
        told = self.made("ball.4off", "-o", "ball.obj", name="off2stl")
        # (4000 times the cosine of a forty-fourth of half a turn is 3990)
        self.assertRegex(told, r"^ball\.4off: (\d+) faces, \1 triangles, 1 part, closed; .*box 7980 x 7980 x 7980; ")
        self.made("ball.4off", "-o", "ball.svg", name="off2svg")
        self.made("ball.4off", "-o", "ball.html", name="off2html")
        self.assertTrue(self.read("ball.svg").startswith(b"<svg"))
        self.assertIn(b"<html", self.read("ball.html"))
        status, out, said = self.call("ball.4off", "0,0,0", "4000,0,0", tool=tool("off2in"))
        self.assertEqual((status, [it.split()[-1] for it in out.splitlines()]), (0, [b"in", b"out"]), said)

    def test_a_mesh(self):
        said = self.made("--by-openscad", "ball.scad", "-o", "ball.stl", name="scad2stl")
        self.assertRegex(said, r"made of \d+ tiles; ")
        self.assertRegex(said, r" faces, \d+ triangles, 1 part, closed; unit 1 mm; box ")
        volume = float(re.search(r"volume (?:about )?([\d.]+)", said)[1])
        self.assertAlmostEqual(volume, float(self.volume()) / 1000**3, delta=0.0005)

    def test_one_source_where_it_is_asked_for(self):
        said = self.made("--by-openscad", "--fewer", "ball.scad", "-o", "fewer.4off")
        self.assertIn("fewer corners on curves", said)
        self.assertNotIn("tiles", said)
        self.assertLess(measures.volume(fouroff.read(self.read("fewer.4off"))).value, self.volume())

    def test_solve(self):
        names = {it: self.environment[it] for it in ("OPENSCAD", "SCADSERVE")}
        with mock.patch.dict(os.environ, names):
            [ball] = solve(["sphere(4, $fn = 44);"], by_openscad=True, server=PROGRAM)
        self.assertIsInstance(ball, Solid, ball)
        self.assertEqual(ball.volume, self.volume() / 1000**3)
        self.assertTrue(any("made of" in it for it in ball.told), ball.told)

    def test_a_solid_past_a_limit_of_the_server(self):
        csg = "cube(size = [1, 2, 3], center = false);\n"
        self.environment["OPENSCAD"] = self.script("openscad", self.of_openscad(csg))
        self.environment["SCADSERVE"] = self.script("server", LIMITED_ONCE.format(python=sys.executable, program=PROGRAM))
        said = self.made("--by-openscad", "ball.scad", "-o", "box.4off")
        self.assertIn("ball.scad: its solid exceeds a limit of the server, so it is made by tiles\n", said)
        self.assertEqual(measures.volume(fouroff.read(self.read("box.4off"))).value, 6 * 1000**3)


@needs_program
class Halved(unittest.TestCase):
    """Tiles that are answered with a limit are halved, and nothing of the solid is lost."""

    def test_first_answers_are_limits(self):
        ball = chance.ball((0, 0, 0), 200, 16)
        grid = Join(UNION, [ball, chance.box((150, -50, -50), (200, 100, 100))])
        whole = made(grid, [PROGRAM], 1, Limits())
        asked, replies = [], Solver._replies

        def limited(solver, of_tiles):
            asked.append(len(of_tiles))
            if len(asked) > 2:
                return replies(solver, of_tiles)
            return [Complex("corners") if len(asked) == 1 else Fault(1, 1, "TooManyPlanes")] * len(of_tiles)

        # (in this process, in which what was asked is known)
        here = mock.patch("scadserve.tiles.making.done", lambda work, found, jobs: enumerate(map(work, found)))
        with here, mock.patch.object(Solver, "_replies", limited):
            halved = made(grid, [PROGRAM], 1, Limits())
        self.assertEqual((whole.tiles, asked[:3], halved.tiles), (1, [1, 2, 4], 4))
        one, other = (fouroff.read(text_of(it.surface).text) for it in (whole, halved))
        self.assertEqual(chance.areas(one), chance.areas(other))
        self.assertEqual(measures.volume(one), measures.volume(other))


class Jobs(unittest.TestCase):
    def test_as_many_as_there_are_processors(self):
        told = []

        def done(work, found, jobs):
            told.append(jobs)
            return iter([])

        grid = Join(UNION, [chance.box((0, 0, 0), (1, 1, 1))])
        with mock.patch("scadserve.tiles.making.done", done), mock.patch("scadserve.tiles.making.glued"):
            made(grid, [])
            made(grid, [], 3)
        self.assertEqual(told, [processors(), 3])


if __name__ == "__main__":
    unittest.main()
