"""Tests of tools/beside-openscad.py: the meaning, run from its definitions, beside what OpenSCAD evaluates."""

import importlib.util
import os
import re
import shutil
import stat
import subprocess
import sys
import unittest
from fractions import Fraction
from functools import lru_cache
from unittest.mock import patch

from scadserve.openscad import reader
from scadserve.source.differences import forms
from tests import csg_points
from tests.calls import TOP, Calls
from tests.needs import needs

LAST = re.compile(r"(\d+) sources compared, (\d+) differ, (\d+) of them in no form of docs/differences.txt\n\Z")


@lru_cache(maxsize=None)
def tool():
    """The tool as a module."""
    spec = importlib.util.spec_from_file_location("beside_openscad", os.path.join(TOP, "tools", "beside-openscad.py"))
    found = importlib.util.module_from_spec(spec)
    spec.loader.exec_module(found)
    return found


class Points(unittest.TestCase):
    """Which points are inside an evaluated form, by shapes whose insides are known."""

    def inside(self, text, *point):
        below = 1000
        whole = tuple(int(Fraction(str(it)) * below) for it in point)
        return csg_points.union(reader.read(text))((*whole, below))

    def test_shapes(self):
        for text, within, without in (
            ("cube(size = [1, 2, 3], center = false);", (0.9, 1.9, 2.9), (1.1, 1, 1)),
            ("cube(size = [2, 2, 2], center = true);", (-0.9, -0.9, 0.9), (1.1, 0, 0)),
            ("cylinder($fn = 4, h = 4, r1 = 2, r2 = 0, center = false);", (0.4, 0.5, 2), (0.6, 0.5, 2)),
            ("cylinder($fn = 4, h = 4, r1 = 0, r2 = 2, center = true);", (0.4, 0.5, 0), (0, 0.1, -1.9)),
            ("polyhedron(points = [[0, 0, 0], [3, 0, 0], [0, 3, 0], [0, 0, 3]], faces = "
     "[[0, 1, 2], [0, 3, 1], [0, 2, 3], [1, 3, 2]]);",
             (0.9, 0.9, 0.9), (1.1, 1.1, 1.1)),
            ("linear_extrude(height = 2, center = true) { polygon(points = [[0, 0], [2, 0], [0, 2]], paths = undef); }",
             (0.9, 0.9, -0.9), (1.1, 1.1, 0)),
            ("linear_extrude(height = 2) { difference() { square(size = [3, 3], center = false); circle($fn = 4, r = 2); } }",
             (1.1, 1.1, 1), (0.9, 0.9, 1)),
        ):
            with self.subTest(text):
                self.assertEqual((self.inside(text, *within), self.inside(text, *without)), (True, False))

    def test_moves_and_joins(self):
        cube = "cube(size = [2, 2, 2], center = false);"
        moved = f"multmatrix([[0, -1, 0, 5], [1, 0, 0, 0], [0, 0, -1, 0], [0, 0, 0, 1]]) {{ {cube} }}"
        self.assertTrue(self.inside(moved, 3.5, 0.5, -1.5))
        self.assertFalse(self.inside(moved, 3.5, 0.5, 1.5))
        both = f"hull() {{ {cube} multmatrix([[1, 0, 0, 4], [0, 1, 0, 4], [0, 0, 1, 4], [0, 0, 0, 1]]) {{ {cube} }} }}"
        self.assertTrue(self.inside(both, 3, 3, 3))
        self.assertFalse(self.inside(both, 3, 0.5, 0.5))
        for word, point, so in (
            ("difference", (1.5, 1.5, 1.5), True), ("difference", (0.5, 0.5, 0.5), False),
            ("intersection", (0.5, 0.5, 0.5), True), ("intersection", (1.5, 1.5, 1.5), False),
            ("difference", (2.5, 0.5, 0.5), False), ("group", (1.5, 1.5, 1.5), True),
        ):
            text = f"{word}() {{ {cube} cube(size = [1, 1, 1], center = false); }}"
            self.assertEqual(self.inside(text, *point), so, (word, point))
        # (a node that is empty is a member)
        self.assertFalse(self.inside(f"intersection() {{ {cube} group(); }}", 1, 1, 1))
        self.assertFalse(self.inside(f"difference() {{ group(); {cube} }}", 1, 1, 1))

    def test_what_has_no_exact_meaning_is_not_read(self):
        for text in ("sphere(r = 1);", "cylinder($fn = 5, h = 1, r1 = 1, r2 = 1);", "cube(size = [1e+06, 1, 1]);"):
            with self.assertRaises(csg_points.NotRead):
                self.inside(text, 0, 0, 0)


@needs("openscad")
class Beside(Calls):
    def compared(self, *words):
        """The status, what is printed, and how many sources were compared, differ, and stand in no form."""
        words = [sys.executable, f"{TOP}/tools/beside-openscad.py", "--jobs", "2", *words]
        how = {"stdout": subprocess.PIPE, "stderr": subprocess.PIPE, "text": True, "env": self.environment}
        done = subprocess.run(words, check=False, **how)
        last = LAST.search(done.stdout)
        self.assertIsNotNone(last, done.stdout + done.stderr)
        return done.returncode, done.stdout, *map(int, last.groups())

    def test_each_row_of_the_list_differs_and_stands_in_its_form(self):
        listed = [(form.name, row) for form in forms() for row in form.rows]
        # (more points than by default: a small part that differs is not to be missed by chance)
        with patch.object(tool(), "POINTS", 200):
            found = tool().batch([tool().Case(row.source.encode() + b"\n") for _, row in listed])
        for (name, row), (outcome, names) in zip(listed, found):
            with self.subTest(row.source):
                self.assertTrue(outcome.differs, outcome.how)
                self.assertIn(name, names)

    def test_bodies_by_chance_that_once_stood_in_no_form(self):
        """Marks before `children` with an index, assignments in the braces of a call that asks for no child, and an index that
        a name stands for."""
        sources = (
            "cube(3); module m(a) !children(0); m(a=7) union(){*!cube();}",
            "module m() difference(){children(); !children($children-1);} m() {cube(3); translate([2, 2, 2]) cube(3);}",
            "cube(3); module m() {%children(0);} m() {translate([5, 0, 0]) cube(1); cube(9);}",
            "function f() = f(); module m() cube(2); m() {a = f();}",
            "c = 2; n() {cube(); cube(2, true);} module n() intersection(){children(c) cube(0); echo(c); cube(2, true);}",
        )
        found = tool().batch([tool().Case(it.encode() + b"\n", is_body=True) for it in sources])
        self.assertTrue(all(outcome.differs for outcome, _ in found))
        self.assertEqual([names for _, names in found], [*3 * [["marked-index"]], ["braces-unasked"], ["missing-child"]])

    def test_a_sample(self):
        status, printed, compared, differ, unlisted = self.compared("--rows", "60", "--chance", "1", "--seed", "5")
        self.assertEqual((status, unlisted), (0, 0), printed)
        self.assertGreater(compared - differ, 100)
        for how in ("solid", "empty", "value"):
            self.assertRegex(printed, rf"\b[1-9]\d* {how}\b")

    def test_another_openscad_is_found(self):
        other = self.path("openscad")
        with open(other, "w", encoding="ascii") as it:
            it.write("#!/bin/sh\nfor it; do :; done\nsed -i 's/difference()/union()/g' \"$it\"\n")
            it.write(f"exec {shutil.which('openscad')} \"$@\"\n")
        os.chmod(other, stat.S_IRWXU)
        self.environment["PATH"] = self.folder + os.pathsep + self.environment["PATH"]
        status, printed, _, _, unlisted = self.compared("--rows", "0", "--chance", "1", "--seed", "5")
        self.assertEqual(status, 1)
        self.assertGreater(unlisted, 0)
        self.assertRegex(printed, r"is outside here alone\n(?s:.*?)difference\(\)")


if __name__ == "__main__":
    unittest.main()
