"""The package's own calls: sources in, solids and faults out, exactly, by a stand-in for the server and by the program."""

import os
import pathlib
import re
import sys
import tempfile
import unittest
from collections import Counter
from fractions import Fraction
from unittest import mock

import scadserve
from scadserve import Fault, OutOfTime, ServerFailed, Solid, solve
from scadserve.openscad.front import program
from tests.calls import PROGRAM, STAND_IN, TOP, Calls, needs_program
from tests.solids import gallery, off

STAND_IN_WORDS = (sys.executable, "-S", STAND_IN)


class Case(Calls):
    def solve(self, sources, **how):
        """What the stand-in answers; `self.runs()` has what it was given."""
        with mock.patch.dict(os.environ, self.environment):
            return solve(sources, **{"server": STAND_IN_WORDS, **how})


class Solving(Case):
    def test_texts_and_bytes_in_order(self):
        found = self.solve(["w = 2;", b"w = 3;", "cube(2.5);", "w = 4;\n"])
        self.assertEqual([type(it) for it in found], [Solid, Solid, Fault, Solid])
        self.assertEqual([it.volume for it in found if isinstance(it, Solid)], [8, 27, 64])
        self.assertEqual(len(self.runs()), 1)
        self.assertEqual(solve([], server="/no/such/server"), [])

    def test_a_fault_has_its_place_and_its_message(self):
        [fault] = self.solve(["// a part\ncube(2.5);"])
        self.assertEqual((fault.word, fault.file, fault.line, fault.column), ("NotWhole", "<source 1>", 2, 6))
        self.assertTrue(
            str(fault).startswith("<source 1>:2:6: error: NotWhole: 2.5 is not a whole number\n    cube(2.5);\n         ^\n")
        )
        self.assertIn("cure: ", fault.message)

    def test_limits_and_want_of_memory_are_faults_without_a_place(self):
        long, *others = self.solve(["a" * 2000, "//= complex facets", "//= complex solid 7", "//= nomem"])
        self.assertEqual((long.word, long.line, long.column), ("TooLong", 1, 1017))
        self.assertEqual(
            [(it.word, it.line) for it in others], [("complex facets", None), ("complex solid", None), ("nomem", None)]
        )

    def test_files_are_read_with_what_they_include(self):
        self.write("lib.scad", "w = 3;\n")
        part = pathlib.Path(self.path(self.write("part.scad", "include <lib.scad>\n")))
        bad = pathlib.Path(self.path(self.write("bad.scad", "\ninclude <none.scad>\n")))
        solid, fault, text = self.solve([part, bad, "include <lib.scad>"], folders=[self.folder])
        self.assertEqual((solid.volume, text.volume), (27, 27))
        self.assertEqual((fault.word, fault.file, fault.line, fault.column), ("NoFile", str(bad), 2, 1))
        with self.assertRaises(FileNotFoundError):
            self.solve([pathlib.Path(self.path("none.scad"))])

    def test_definitions_count(self):
        [solid] = self.solve(["w = 2;"], definitions={"w": 5})
        self.assertEqual(solid.volume, 125)
        self.solve(["w = [a, $b];"], definitions={"a": [1, (True, None)], "$b": 'x"\\\n'})
        self.assertIn(b"put 2 a=[1, [true, undef]];", self.runs()[-1][1])
        self.assertIn(b'put 3 $b="x\\"\\\\\\n";', self.runs()[-1][1])
        for name in ("1a", "a b", "a;b", "", 3):
            with self.assertRaisesRegex(ValueError, "is not a name of a variable"):
                self.solve(["w = 2;"], definitions={name: 1})

    def test_a_definition_that_no_source_uses(self):
        with self.assertRaisesRegex(ValueError, "^no source has h or k, which definitions assign$"):
            self.solve(["w = 2;", "// h\nw = 3;"], definitions={"h": 1, "w": 2, "k": 3})
        self.assertEqual(self.runs(), [])
        self.assertEqual(len(self.solve(["w = 2;", "h = 3;"], definitions={"h": 1, "w": 2})), 2)
        # (what could not be read may have it)
        self.assertEqual(self.solve(["include <none.scad>", "w = 2;"], definitions={"h": 1})[0].word, "NoFile")
        self.assertEqual(self.solve([], definitions={"h": 1}), [])

    def test_arguments_that_are_none(self):
        class Other:
            def __repr__(self):
                return "other"

        for how, kind, said in (
            ({"workers": True}, TypeError, "workers is a whole number, and not True"),
            ({"workers": 2.0}, TypeError, "workers is a whole number, and not 2.0"),
            ({"workers": 0}, ValueError, "workers is 1 to 64, and not 0"),
            ({"workers": 10**400}, ValueError, "workers is 1 to 64, and not a number of more than 30 digits"),
            ({"memo": "9"}, TypeError, "memo is a whole number, and not '9'"),
            ({"memo": 2_000_001}, ValueError, "memo is 0 to 2,000,000, and not 2000001"),
            ({"server": []}, ValueError, "a server has the name of a program, and [] has none"),
            ({"server": ""}, ValueError, "a server has the name of a program, and '' has none"),
            ({"server": [3]}, TypeError, "a server is a program or a list of words, and not [3]"),
            ({"server": 3}, TypeError, "a server is a program or a list of words, and not 3"),
            ({"half": 1}, TypeError, "half is True or False, and not 1"),
            ({"by_openscad": "no"}, TypeError, "by_openscad is True or False, and not 'no'"),
            (
                {"half": True, "by_openscad": True},
                ValueError,
                "by_openscad chooses its grid itself, so half can't be given with it",
            ),
            ({"folders": "lib"}, TypeError, "folders are a list of folders, and not 'lib'"),
            ({"time": "3"}, TypeError, "time is a number of seconds, and not '3'"),
            ({"time": -1}, ValueError, "time is 0 or more seconds and below 10^9, and not -1"),
            ({"time": float("nan")}, ValueError, "time is 0 or more seconds and below 10^9, and not nan"),
            ({"definitions": ["w=3"]}, TypeError, "definitions are values by name, and not ['w=3']"),
            ({"definitions": {"w": {1}}}, TypeError, "definitions give w a set, which the language has not"),
            ({"definitions": {"w": [Other()]}}, TypeError, "definitions give w a Other, which the language has not"),
            ({"definitions": {"w": float("inf")}}, ValueError, "definitions give w a number that is none: inf"),
            ({"definitions": {"w": [10**400]}}, ValueError, "definitions give w a number past 2^53 - 1"),
        ):
            with self.subTest(how):
                with self.assertRaises(kind) as raised:
                    self.solve(["w = 2;"], **how)
                self.assertEqual(str(raised.exception), said)
        self.assertEqual(self.runs(), [])

    def test_a_source_alone_is_no_list(self):
        for source in ("cube(1);", b"cube(1);", pathlib.Path("part.scad")):
            with self.assertRaisesRegex(
                TypeError, r"^sources are a list of texts or paths, and not one alone: solve\(\[source\]\)$"
            ):
                self.solve(source)
        with self.assertRaisesRegex(TypeError, "^source 2 is a text, bytes or a path, and not 3$"):
            self.solve(["cube(1);", 3])

    def test_words_of_the_server(self):
        self.solve(["w = 2;"], half=True, workers=2, memo=0)
        self.solve(["w = 2;"])
        self.assertEqual([words for words, _ in self.runs()], [b"run --half --workers 2 --memo 0", b"run"])
        for how in ({"workers": 0}, {"workers": 65}, {"memo": -1}, {"memo": 2_000_001}):
            with self.assertRaises(ValueError):
                self.solve(["w = 2;"], **how)

    def test_the_time_is_kept(self):
        with self.assertRaisesRegex(OutOfTime, "^the server took too long$"):
            self.solve(["//= wait"], time=0.3)
        self.assertEqual(len(self.solve(["w = 2;"], time=60)), 1)

    def test_the_server_of_the_environment(self):
        with mock.patch.dict(os.environ, {"SCADSERVE": "/no/such/server"}):
            with self.assertRaisesRegex(ServerFailed, "^/no/such/server does not start: No such file or directory$"):
                solve(["cube(1);"])

    def test_failures_of_the_server(self):
        for source, kind in (("//= status 6", scadserve.OutOfMemory), ("//= cut off", scadserve.Malformed)):
            with self.assertRaises(kind):
                self.solve([source])


class Solids(unittest.TestCase):
    def test_a_bracket(self):
        it = Solid(gallery()["bracket"])
        self.assertEqual((it.volume, it.box), (824, ((0, 0, 0), (20, 12, 16))))
        self.assertEqual((len(it.faces), len(it.triangles)), (46, 72))
        self.assertEqual({type(number) for face in it.faces for point in face for number in point}, {Fraction})

    def test_faces_and_triangles_are_closed(self):
        it = Solid(gallery()["house"])
        ways = Counter((t[i - 1], t[i]) for t in it.triangles for i in range(3))
        self.assertEqual(set(ways.values()), {1})
        self.assertTrue(all(way[::-1] in ways for way in ways))
        six = sum(
            p[i] * (
                q[(i + 1) % 3] * r[(i + 2) % 3] - q[(i + 2) % 3] * r[(i + 1) % 3]
            ) for p, q, r in it.triangles for i in range(3)
        )
        self.assertEqual(Fraction(six) / 6, it.volume)
        self.assertEqual(off(it.faces), it.text)

    def test_the_empty_solid(self):
        it = Solid(b"4OFF\n0 0 0\n")
        self.assertEqual((it.volume, it.box, it.faces, it.triangles), (0, None, [], []))
        with self.assertRaises(ValueError):
            it.mesh()

    def test_meshes(self):
        it = Solid(gallery()["bracket"])
        self.assertEqual(it.mesh().count(b"outer loop"), 72)
        lines = it.mesh("obj", Fraction(1, 10), name="a part").decode().splitlines()
        self.assertEqual((lines[0], max(float(line.split()[1]) for line in lines if line.startswith("v "))), ("o a_part", 2))
        for how, kind, said in (
            (("ply", 1), ValueError, "'ply' is not a format: stl, binstl, off, obj, 3mf are"),
            (("stl", 0), ValueError, "a unit is above 0 and below 10^9, and not 0"),
            (("stl", -1), ValueError, "a unit is above 0 and below 10^9, and not -1"),
            (("stl", 10**400), ValueError, "a unit is above 0 and below 10^9, and not a number of more than 30 digits"),
            (("stl", "1/10"), TypeError, "a unit is a whole number or a Fraction, and not '1/10'"),
            (("stl", 0.1), TypeError, "a unit is a whole number or a Fraction, and not 0.1"),
            (("stl", True), TypeError, "a unit is a whole number or a Fraction, and not True"),
        ):
            with self.subTest(how):
                with self.assertRaises(kind) as raised:
                    it.mesh(*how)
                self.assertEqual(str(raised.exception), said)
        with self.assertRaisesRegex(ValueError, "^the solid is empty, so there is nothing to write$"):
            Solid(b"4OFF\n0 0 0\n").mesh()

    def test_a_step_of_the_grid(self):
        it = Solid(gallery()["bracket"], step=Fraction(1, 4))
        self.assertEqual((it.volume, it.box), (Fraction(824, 64), ((0, 0, 0), (5, 3, 4))))
        self.assertEqual((it.place([Fraction(1, 4)] * 3), it.place([6, 1, 1])), ("in", "out"))
        self.assertEqual(max(point[0] for face in it.faces for point in face), 5)
        self.assertEqual(max(point[1] for corner in it.triangles for point in [corner[0]]), 3)
        lines = it.mesh("obj", 2).decode().splitlines()
        self.assertEqual(max(float(line.split()[1]) for line in lines if line.startswith("v ")), 10)


@needs_program
class ByTheProgram(unittest.TestCase):
    def test_solids_and_faults(self):
        sources = ["cube([1, 2, 3]);", b"cube(2.5);", "cube(w, center = true);"]
        block, fault, cube = solve(sources, half=True, definitions={"w": 3}, server=PROGRAM)
        self.assertEqual((block.volume, fault.word), (6, "NotWhole"))
        self.assertEqual(cube.box, ((Fraction(-3, 2),) * 3, (Fraction(3, 2),) * 3))

    def test_the_examples_of_the_page(self):
        with open(os.path.join(TOP, "docs", "PYTHON.md"), encoding="utf-8") as it:
            blocks = re.findall(r"```python\n(.*?)```\n+```\n(.*?)```", it.read(), re.DOTALL)
        self.assertGreaterEqual(len(blocks), 2)
        for code, printed in blocks:
            with self.subTest(code), mock.patch.dict(os.environ, {"SCADSERVE": PROGRAM}):
                out = []
                exec(code, {"print": lambda *words: out.append(" ".join(map(str, words)) + "\n")})
                self.assertEqual("".join(out), printed)


@needs_program
@unittest.skipUnless(program(), "openscad is not installed")
class ByOpenscad(unittest.TestCase):
    def solve(self, sources, **how):
        return solve(sources, by_openscad=True, server=PROGRAM, **how)

    def test_decimals_in_lengths_of_the_source(self):
        block, fault = self.solve(["cube([w, 2, 0.5]);", "cube(1;"], definitions={"w": 1.25})
        self.assertEqual((block.volume, block.box), (Fraction(5, 4), ((0, 0, 0), (Fraction(5, 4), 2, Fraction(1, 2)))))
        self.assertEqual(block.place([1, 1, Fraction(1, 4)]), "in")
        lines = block.mesh("obj").decode().splitlines()
        self.assertEqual(max(float(line.split()[1]) for line in lines if line.startswith("v ")), 1.25)
        self.assertTrue(any(it.startswith("<source 1>: ") for it in block.told), block.told)
        self.assertEqual((fault.word, type(fault)), ("Expected", Fault))
        self.assertIn("<source 2>", fault.file)
        self.assertNotIn("source.scad", fault.message)

    def test_files_with_what_they_include(self):
        with tempfile.TemporaryDirectory() as folder:
            part = pathlib.Path(folder, "part.scad")
            part.write_text("include <lib.scad>\nlinear_extrude(1.5) square(w);\n")
            pathlib.Path(folder, "lib.scad").write_text("w = 2;\n")
            [solid, text] = self.solve([part, "include <lib.scad>\ncube(w / 4);\n"], folders=[folder])
        self.assertEqual((solid.volume, text.volume), (6, Fraction(1, 8)))

    def test_openscad_is_not_there(self):
        with mock.patch.dict(os.environ, {"OPENSCAD": "/no/such/openscad"}):
            with self.assertRaisesRegex(FileNotFoundError, "OpenSCAD is not installed: '/no/such/openscad'"):
                self.solve(["cube(1);"])


if __name__ == "__main__":
    unittest.main()
