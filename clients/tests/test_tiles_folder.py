"""Folders of tiles: `csg2scad --tiles` writes them, `scad2off -d` makes their texts anywhere, and `off2join` joins these."""

import json
import os
import re
import shutil
import signal
import subprocess
import sys
import time
import unittest
from unittest import mock

from scadserve.openscad.reader import read
from scadserve.solid import fouroff, measures
from scadserve.tools import csg2scad, off2join
from tests.calls import PROGRAM, SCAD2OFF, TOP, Calls, needs_program
from tests.test_tiles import boxes
from tests.tool_case import Case

needs_parallel = unittest.skipUnless(shutil.which("parallel"), "GNU parallel is not installed")

# Four boxes in a row: 12 planes, and 8 with two of them alone.
CUBE = "multmatrix([[1, 0, 0, {}], [0, 1, 0, 0], [0, 0, 1, 0], [0, 0, 0, 1]]) {{ cube(size = [1, 1, 1], center = false); }}\n"
ROW = "".join(CUBE.format(x) for x in (0, 10, 20, 30))
BALL = """difference() {
    sphere($fn = 20, $fa = 12, $fs = 2, r = 4);
    cylinder($fn = 16, $fa = 12, $fs = 2, h = 9, r1 = 1, r2 = 2, center = true);
}
"""


def two_boxes(*places):
    """The text of boxes of 1 by 1 by 1 at two places along x."""
    lines = [boxes((x, 0, 0), (x + 1, 1, 1)).decode().splitlines()[2:] for x in places]
    second = [re.sub(r"(?<= )\d+", lambda it: str(int(it[0]) + 8), line) for line in lines[1][8:]]
    return "\n".join(["4OFF", "16 12 0", *lines[0][:8], *lines[1][:8], *lines[0][8:], *second, ""]).encode()


class Folder(Case):
    """Without the program: the texts are worked by hand."""

    tool = off2join

    def setUp(self):
        super().setUp()
        self.tool = csg2scad
        words = ["--unit", "1", "--tiles", self.path("tiles"), "--planes", "8", "--jobs", "2"]
        self.assertEqual(self.call(self.file("row.csg", ROW.encode()), *words)[0], 0)
        self.tool = off2join

    def put(self, name, text):
        self.file(os.path.join("tiles", name), text)

    def test_the_sources_and_their_texts(self):
        self.assertEqual(sorted(os.listdir(self.path("tiles"))), ["0001.scad", "0002.scad", "tiles.json"])
        source = self.bytes_of("tiles/0001.scad")
        self.assertEqual(source.splitlines()[:2], [b"// unit: 1", b"// tile 1 of 2 of row.csg"])
        self.assertIn(b"translate([0, 0, 0]) cube([1, 1, 1]);", source)
        self.assertNotIn(b"translate([20, 0, 0])", source)
        self.put("0001.4off", two_boxes(0, 10))
        self.put("0002.4off", two_boxes(20, 30))
        status, said = self.call(self.path("tiles"), "-o", self.path("row.4off"))
        told = "tiles: 2 tiles joined to a surface of 48 triangles, which was checked to be closed; print by off2stl --unit 1\n"
        self.assertEqual((status, said), (0, told))
        self.assertEqual(measures.volume(fouroff.read(self.bytes_of("row.4off"))).value, 4)

    def test_texts_may_be_in_several_folders(self):
        os.mkdir(self.path("one"))
        os.mkdir(self.path("other"))
        self.file("one/0002.4off", two_boxes(20, 30))
        self.file("other/0001.4off", two_boxes(0, 10))
        words = [self.path(it) for it in ("tiles", "one", "other")]
        self.assertEqual(self.call(*words, "-o", self.path("row.4off"))[0], 0)
        self.assert_fault(1, [*words[:2], "-o", self.path("new.4off")], "tiles: error: 1 of 2 tiles have no text yet: 0001")

    def test_what_is_missing_or_wrong_is_told(self):
        words = [self.path("tiles"), "-o", self.path("row.4off")]
        self.assert_fault(1, words, "tiles: error: 2 of 2 tiles have no text yet: 0001, 0002")
        self.put("0001.4off", two_boxes(20, 30))
        self.put("0002.4off", two_boxes(20, 30))
        self.assert_fault(1, words, "0001.4off: error: it isn't the text of this tile: a corner of it is outside of its tile")
        self.put("0001.4off", boxes((0, 0, 0), (2, 1, 1)))
        other = "0001.4off: error: it isn't the text of this tile: a face of it lies on a plane that no shape of its tile has"
        self.assert_fault(1, words, other)
        self.put("0001.4off", two_boxes(0, 10)[:-3])
        self.assert_fault(1, words, "0001.4off:30: error: the text breaks off")

    def test_an_index_that_is_not_whole_is_refused(self):
        words = [self.path("tiles"), "-o", self.path("row.4off")]
        index = self.bytes_of("tiles/tiles.json")
        changed = json.loads(index)
        changed["tiles"] = changed["tiles"][:1]
        for text, said in (
            (json.dumps(changed).encode(), "tiles/tiles.json: it isn't as csg2scad wrote it"),
            (index[:-9], "tiles/tiles.json: it is not an index of tiles"),
            (b"[]\n", "tiles/tiles.json: it is not an index of tiles"),
        ):
            self.put("tiles.json", text)
            self.assert_fault(2, words, said)
        os.unlink(self.path("tiles/tiles.json"))
        self.assert_fault(2, words, "cannot open tiles/tiles.json: No such file or directory")

    def test_a_folder_with_files_is_not_written_to(self):
        self.tool = csg2scad
        self.assert_fault(2, [self.path("row.csg"), "--tiles", self.path("tiles")], "the folder tiles is not empty")
        words = [self.path("row.csg"), "--tiles", self.path("new"), "--fewer"]
        self.assert_fault(2, words, "so -o and --fewer can't be given with it")

    def test_a_design_past_the_limits_is_no_one_source(self):
        self.tool = csg2scad
        ball = self.file("ball.csg", b"sphere($fn = 60, $fa = 12, $fs = 2, r = 4);\n")
        status, said = self.call(ball, "-o", self.path("ball.scad"))
        self.assertEqual((status, os.path.exists(self.path("ball.scad"))), (1, False))
        self.assertIn("ball.csg: error: TooManyPlanes: the design has more planes or shapes than a source may have\n", said)
        self.assertIn("    cure: --tiles DIR", said)
        status, said = self.call(ball, "--fewer", "-o", self.path("ball.scad"))
        self.assertEqual(status, 0)
        self.assertIn("fewer corners on curves", said)


@needs_program
class Machines(Calls):
    """With the program: two folders of texts, as two machines make them."""

    @needs_parallel
    def test_parallel_makes_the_texts(self):
        self.environment["SCADSERVE"] = PROGRAM
        self.environment["PATH"] = os.path.join(TOP, "bin") + os.pathsep + self.environment["PATH"]
        self.write("ball.csg", BALL)
        script = """set -e
            csg2scad ball.csg --tiles tiles --planes 150
            ls tiles/*.scad | sed -n 'p;n' | parallel -j 2 -n 4 scad2off --allow-empty -d one
            ls tiles/*.scad | sed -n 'n;p' | parallel -j 2 -n 4 scad2off --allow-empty -d two
            off2join tiles one two -o ball.4off
            scad2off --by-openscad ball.scad -o whole.4off"""
        bore = "cylinder(h = 9, r1 = 1, r2 = 2, center = true, $fn = 16);"
        self.write("ball.scad", f"difference() {{ sphere(r = 4, $fn = 20); {bore} }}")
        how = {"cwd": self.folder, "env": self.environment, "capture_output": True, "text": True, "check": False}
        done = subprocess.run(["sh", "-c", script], **how)
        self.assertEqual(done.returncode, 0, done.stderr)
        joined, whole = fouroff.read(self.read("ball.4off")), fouroff.read(self.read("whole.4off"))
        self.assertEqual(measures.volume(joined), measures.volume(whole))
        self.assertGreater(len([it for it in os.listdir(self.path("tiles")) if it.endswith(".scad")]), 2)


class Ended(Calls):
    """Calls that are ended from outside, and servers that fail, with a server of the test's own."""

    def setUp(self):
        super().setUp()
        self.write("part.scad", "sphere(r = 4, $fn = 60);\n")
        csg = "sphere($fn = 60, $fa = 12, $fs = 2, r = 4);\n"
        write = f"open(sys.argv[sys.argv.index('-o') + 1], 'w').write({csg!r})\n"
        self.openscad = self.script("openscad", f"import sys\n{write}")

    def script(self, name, text):
        place = self.path(self.write(name, f"#!{sys.executable}\n{text}"))
        os.chmod(place, 0o755)
        return place

    def started(self, server):
        environment = {**self.environment, "OPENSCAD": self.openscad, "SCADSERVE": server}
        words = [*SCAD2OFF, "--by-openscad", "--jobs", "2", "part.scad", "-o", "part.4off"]
        return subprocess.Popen(words, cwd=self.folder, env=environment, stderr=subprocess.PIPE, start_new_session=True)

    def test_a_server_that_is_ended_is_told_and_leaves_no_file(self):
        server = self.script("server", "import os, signal\nos.kill(os.getpid(), signal.SIGKILL)\n")
        process = self.started(server)
        _, said = process.communicate(timeout=50)
        self.assertEqual(process.returncode, 128 + signal.SIGKILL, said)
        self.assertIn(b"scad2off: the server ended with status 137", said)
        self.assertNotIn("part.4off", self.names())

    def test_ctrl_c_ends_all_of_it(self):
        note = f"open(os.path.join({self.folder!r}, f'pid.{{os.getpid()}}'), 'w')\n"
        server = self.script("server", f"import os, time\n{note}time.sleep(50)\n")
        process = self.started(server)
        began = time.monotonic()
        while len([it for it in self.names() if it.startswith("pid.")]) < 2 and time.monotonic() - began < 40:
            time.sleep(0.05)
        os.killpg(process.pid, signal.SIGINT)
        _, said = process.communicate(timeout=50)
        self.assertEqual(process.returncode, 130, said)
        self.assertNotIn(b"Traceback", said)
        self.assertNotIn("part.4off", self.names())
        for name in self.names():
            if name.startswith("pid."):
                self.assertFalse(os.path.exists(f"/proc/{name[4:]}"), name)

    def test_words_that_are_for_openscad_alone(self):
        for word in (["--fewer"], ["--jobs", "2"]):
            status, _, said = self.call(*word, "part.scad")
            self.assertEqual((status, said), (2, f"scad2off: {word[0]} is for --by-openscad\n".encode()))
        status, _, said = self.call("--by-openscad", "--jobs", "0", "part.scad")
        self.assertEqual(status, 2)
        self.assertIn(b"'0' is not a number from 1 to 999", said)

    def test_a_script_of_a_large_part_is_refused(self):
        status, out, said = self.call("--by-openscad", "--script", "part.scad", environment={"OPENSCAD": self.openscad})
        self.assertEqual((status, out), (2, b""))
        self.assertIn(b"part.scad is made by tiles, but --script prints the script of one source", said)


class Bounds(unittest.TestCase):
    """Counts past a bound are refused at their place before anything is made of them."""

    def test_fragments_slices_and_nodes(self):
        from scadserve.openscad.conversion import Wanted, of_any_size
        from scadserve.openscad.front import Front
        from scadserve.openscad.reader import CsgFault

        fine, square = "$fa = 12, $fs = 2", "{ square(size = [1, 3], center = false); }"
        for text, said in (
            (f"group() {{\n sphere($fn = 1000000, {fine}, r = 20);\n}}", "2:2: TooManyCorners: sphere: it has 1000000 corners"),
            (f"sphere($fn = 2000, {fine}, r = 9);", "1:1: TooManyCorners: sphere: with it the curves of the design have 2"),
            (
                f"linear_extrude(height = 4, twist = 9, slices = 100000000, $fn = 0, {fine}) {square}",
                "TooManyCorners: linear_extrude: it has 1",
            ),
            (f"rotate_extrude(angle = 360, $fn = 200000, {fine}) {square}", "TooManyCorners: rotate_extrude"),
            (
                "cube(size = [1, 1, 1], center = false);\n" * 101,
                "101:1: TooManyNodes: cube: the design has more than 100 nodes",
            ),
        ):
            began = time.process_time()
            # (reading as many nodes as there may be takes seconds)
            with self.assertRaises(CsgFault) as caught, mock.patch("scadserve.openscad.reader.MOST_NODES", 100):
                of_any_size(read(text), Wanted(), Front("."))
            self.assertIn(said, str(caught.exception))
            self.assertLess(time.process_time() - began, 20)


if __name__ == "__main__":
    unittest.main()
