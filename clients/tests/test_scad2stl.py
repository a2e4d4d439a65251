"""The tool scad2stl: meshes of sources in one command, each in its own unit, and what is wrong told at its place."""

import os
import re
import subprocess
import unittest
import xml.etree.ElementTree as ElementTree
import zipfile
from fractions import Fraction

from tests import touching
from tests.calls import PROGRAM, TOP, Calls, needs_program
from tests.needs import needs

CORE = "{http://schemas.microsoft.com/3dmanufacturing/core/2015/02}"


class Case(Calls):
    def make(self, *words, **how):
        """The status, the standard output and the lines of standard error of a call."""
        status, out, error = self.call(*words, tool=os.path.join(TOP, "bin", "scad2stl"), **how)
        return status, out, error.decode().splitlines()

    def box_of(self, name):
        """How long a 3MF is along each axis, in millimetres, and what it says of its unit."""
        with zipfile.ZipFile(self.path(name)) as package:
            model = ElementTree.fromstring(package.read("3D/3dmodel.model"))
        self.assertEqual(model.get("unit"), "millimeter")
        points = [[Fraction(it.get(axis)) for axis in "xyz"] for it in model.iter(CORE + "vertex")]
        said = next(it.text for it in model.iter(CORE + "metadata") if it.get("name") == "Description")
        return [max(axis) - min(axis) for axis in zip(*points)], said


class Meshes(Case):
    def test_a_mesh_of_a_source(self):
        status, out, said = self.make(self.write("part.scad", "w = 6;\n"))
        self.assertEqual(
            (status, said), (0, ["part.scad: 6 faces, 12 triangles, 1 part, closed; unit 1 mm; box 6 x 6 x 6; volume 216"])
        )
        self.assertTrue(out.startswith(b"solid part\n") and out.endswith(b"endsolid part\n"))
        self.assertEqual(out.count(b"outer loop"), 12)

    def test_standard_input(self):
        status, out, said = self.make("--unit", "1/2", "-", stdin=b"w = 6;\n")
        self.assertEqual((status, out.split(b"\n")[0], out.split(b"\n")[-2]), (0, b"solid solid", b"endsolid solid"))
        self.assertEqual(said, ["<stdin>: 6 faces, 12 triangles, 1 part, closed; unit 0.5 mm; box 3 x 3 x 3; volume 27"])

    def test_the_ending_or_the_word_says_the_format(self):
        self.write("part.scad", "w = 6;\n")
        for words, begins in (
            (["-o", "a.STL"], b"solid part\n"),
            (["-o", "a.3mf"], b"PK\3\4"),
            (["-o", "a.obj"], b"o part\n"),
            (["-o", "a.off"], b"OFF\n"),
            (["-o", "a", "--format", "binstl"], b"binary STL of part\0"),
        ):
            status, out, _ = self.make("part.scad", *words)
            self.assertEqual((status, out), (0, b""))
            self.assertTrue(self.read(words[1]).startswith(begins))

    def test_many_files(self):
        self.write("good.scad", "w = 6;\n")
        self.write("bad.scad", "cube(2.5);\n")
        os.mkdir(self.path("out"))
        self.write("out/bad.3mf", b"PK\3\4 of an earlier source")
        status, out, said = self.make("-d", "out", "--format", "3mf", "good.scad", "bad.scad", "none.scad")
        self.assertEqual((status, out, os.listdir(self.path("out"))), (2, b"", ["good.3mf"]))
        self.assertEqual(said[0], "scad2stl: cannot open none.scad: No such file or directory")
        self.assertIn("bad.scad:1:6: error: NotWhole: 2.5 is not a whole number", said)
        self.assertIn("out/bad.3mf: removed, since it was made of an earlier source", said)
        self.assertEqual(said[-1], "3 files: 1 solid, 1 fault, 1 not read or written")

    def test_half_units_and_definitions(self):
        status, _, said = self.make("--half", "-D", "w=3", self.write("part.scad", "w = 6;\n"))
        self.assertEqual((status, self.runs()[0][0]), (0, b"run --half"))
        self.assertIn("box 3 x 3 x 3", said[-1])

    def test_the_empty_solid_is_no_mesh(self):
        status, out, said = self.make("-o", "a.stl", self.write("part.scad", "//= empty\n"))
        self.assertEqual((status, out, self.names()), (1, b"", ["part.scad"]))
        self.assertEqual(said[0], "part.scad: error: Empty: this source makes no solid at all")

    def test_words(self):
        self.write("part.scad", "w = 6;\n")
        for words, said in (
            ([], "no FILE is named"),
            (["part.scad", "part.scad"], "several FILEs need -d DIR"),
            (["-o", "a.4off", "part.scad"], "a.4off would be a mesh: scad2off makes a 4OFF text of a source"),
            (["-o", "part.scad", "part.scad"], "part.scad would be a mesh: that is the ending of a source"),
            (["-o", "a.ply", "part.scad"], "the ending of a.ply is not that of a format: give --format (see scad2stl --help)"),
            (["--unit", "0", "part.scad"], "argument --unit: '0' is not a number above 0 and below 10^9 like 2, 25.4 or 1/10 "),
            (["--for", "stl", "part.scad"], "unrecognized arguments: --for"),
            (["-o", "a.stl", "-d", "out", "part.scad"], "-o and -d can't both be given"),
        ):
            with self.subTest(words):
                status, out, lines = self.make(*words)
                self.assertEqual((status, out, len(lines), self.names()), (2, b"", 1, ["part.scad"]))
                self.assertTrue(lines[0].startswith(f"scad2stl: {said}"), lines)


class Units(Case):
    def unit_of(self, source, *words):
        """The unit that is told about a source."""
        status, _, said = self.make("-o", "a.stl", *words, self.write("part.scad", source))
        self.assertEqual(status, 0, said)
        return re.search(r"; unit (\S+) mm; box (\S+) x", said[-1]).groups()

    def test_a_comment_says_it(self):
        for source, unit, side in (
            ("w = 6;\n", "1", "6"),
            ("// unit: 1/10\nw = 6;\n", "0.1", "0.6"),
            ("w = 6; // unit: 25.4 mm\r\n", "25.4", "152.4"),
            ("\n\t//unit:1/100mm\nw = 6;", "0.01", "0.06"),
            ("// unit: 1/10\n/* again */ // unit: 0.1\nw = 6;\n", "0.1", "0.6"),
            ('// the unit: 1/10\n/* // unit: 2\n// unit: 3 */ echo("// unit: 4"); // units: 5\nw = 6;\n', "1", "6"),
            ("/* unit: 1/10 */\nw = 6;\n", "0.1", "0.6"),
            ("// Unit: .5 mm\nw = 6;\n", "0.5", "3"),
            ("/** a box\r\n * UNIT: 1e-1 mm\r\n **/\r\nw = 6; /*unit:.1*/ /* the unit: 7 */", "0.1", "0.6"),
        ):
            with self.subTest(source):
                self.assertEqual(self.unit_of(source), (unit, side))

    def test_an_option_counts_more(self):
        self.assertEqual(self.unit_of("// unit: 1/10\nw = 6;\n", "--unit", "2"), ("2", "12"))
        self.assertEqual(self.unit_of("// unit: nonsense\nw = 6;\n", "--unit", "1/4"), ("0.25", "1.5"))

    def test_what_is_no_unit_is_told_at_its_place(self):
        for said in ("tenths", "0", "1/0", "-1", "", "mm", "1e9", "1/10 cm", "\xff"):
            for comment, column in ((f"  // unit: {said}\n", 3), (f"/* Unit: {said} */\n", 4)):
                with self.subTest(comment):
                    status, out, lines = self.make("-o", "a.stl", self.write("part.scad", f"w = 6;\n{comment}"))
                    self.assertEqual((status, out, self.names(), self.runs()), (1, b"", ["part.scad"], []))
                    self.assertTrue(lines[0].startswith(f"part.scad:2:{column}: error: BadUnit: "), lines)
                    self.assertTrue(lines[-1].startswith("    cure: write // unit: 1/10 once"), lines)

    def test_scad2off_tells_the_same(self):
        for source in ("// unit: tenths\nw = 6;\n", "// unit: 1/10\nw = 6;\n/* unit: 1 */\n"):
            name = self.write("part.scad", source)
            _, _, lines = self.make("-o", "a.stl", name)
            status, out, said = self.call(name)
            self.assertEqual((status, out, said.decode().splitlines()), (1, b"", lines))
        self.assertEqual(self.call(self.write("part.scad", "// unit: 1/10\nw = 6;\n"))[::2], (0, b""))

    def test_two_units_are_told(self):
        self.write("lib.scad", "\n// unit: 1/10\n")
        source = self.write("part.scad", "include <lib.scad>\n// unit: 1\n")
        status, _, lines = self.make("-o", "a.stl", source)
        self.assertEqual((status, lines[0]), (1, "part.scad:2:1: error: BadUnit: lib.scad:2 says another unit, 1/10"))
        status, _, lines = self.make("-o", "a.stl", self.write("part.scad", "// unit: 1\ninclude <lib.scad>\n"))
        self.assertEqual((status, lines[0]), (1, "lib.scad:2:1: error: BadUnit: part.scad:1 says another unit, 1"))
        self.assertIn("part.scad:2:1: note: included here", lines)

    def test_a_library_says_it_for_who_includes_it(self):
        self.write("lib.scad", "// unit: 1/10\n")
        self.assertEqual(self.unit_of("include <lib.scad>\nw = 6;\n"), ("0.1", "0.6"))

    def test_3mf_has_it(self):
        self.assertEqual(self.make("-o", "a.3mf", self.write("part.scad", "// unit: 1/8\nw = 6;\n"))[0], 0)
        self.assertEqual(self.box_of("a.3mf"), ([Fraction(3, 4)] * 3, "a unit of the source is 1/8 mm"))


#: A library, three parts in tenths and one in whole millimetres, with what each measures in millimetres.
FOLDER = {
    "lib/round.scad": "module bar(l) cube([l, 10, 10]);\n",
    "lib/tenths.scad": "// unit: 1/10\ninclude <round.scad>\nmm = 10;\n",
    "one.scad": "include <lib/tenths.scad>\nbar(25);\n",
    "two.scad": "include <lib/tenths.scad>\ncube([4 * mm, 15, 1]);\n",
    "three.scad": "// unit: 1/10\nuse <lib/round.scad>\nbar(35);\n",
    "four.scad": "use <lib/round.scad>\nbar(3);\n",
}
SIZES = {"one": (2.5, 1, 1), "two": (4, 1.5, 0.1), "three": (3.5, 1, 1), "four": (3, 10, 10)}


@needs_program
class ByTheProgram(Case):
    def setUp(self):
        super().setUp()
        self.environment = {
            **self.environment, "SCADSERVE": PROGRAM, "PATH": os.path.join(TOP, "bin") + os.pathsep + self.environment["PATH"]
        }

    def write_folder(self):
        os.mkdir(self.path("lib"))
        for name, text in FOLDER.items():
            self.write(name, text)

    def assert_sizes(self, folder):
        for name, sides in SIZES.items():
            box, said = self.box_of(os.path.join(folder, f"{name}.3mf"))
            self.assertEqual([float(it) for it in box], list(sides))
            self.assertEqual(said, f"a unit of the source is {'1' if name == 'four' else '1/10'} mm")

    def test_a_folder_with_a_library_in_one_command(self):
        self.write_folder()
        status, _, said = self.make("-d", "out", "--format", "3mf", *(f"{name}.scad" for name in SIZES))
        self.assertEqual((status, said[-1]), (0, "4 files: 4 solids, 0 faults"))
        self.assert_sizes("out")

    @needs("make")
    def test_a_folder_with_a_library_by_make(self):
        self.write_folder()
        with open(os.path.join(TOP, "docs", "RECIPES.md"), encoding="utf-8") as it:
            self.write("Makefile", re.search(r"```make\n(.*?)```", it.read(), re.DOTALL)[1])
        done = subprocess.run(["make", "-s"], cwd=self.folder, env=self.environment, capture_output=True, check=False)
        self.assertEqual(done.returncode, 0, done.stderr)
        self.assert_sizes("")
        self.write("lib/round.scad", "module bar(l) cube([2 * l, 10, 10]);\n")
        later = os.stat(self.path("one.3mf")).st_mtime + 10
        os.utime(self.path("lib/round.scad"), (later, later))
        subprocess.run(["make", "-s"], cwd=self.folder, env=self.environment, capture_output=True, check=True)
        self.assertEqual(self.box_of("one.3mf")[0], [5, 1, 1])

    def test_chess_boards(self):
        self.write("board.scad", touching.BOARD)
        self.write("plate.scad", touching.BOARD + touching.PLATE)
        status, _, said = self.make("-d", "out", "board.scad", "plate.scad")
        self.assertEqual(status, 0)
        self.assertIn(
            ", 96 triangles, 8 parts, closed, 9 edges of more than two faces; unit 1 mm; box 40 x 40 x 5; volume 4000", said[0]
        )
        self.assertIn(
            ", 114 triangles, 1 part, closed, 9 edges of more than two faces; unit 1 mm; box 40 x 40 x 7; volume 7200", said[1]
        )


if __name__ == "__main__":
    unittest.main()
