"""Notes: each form of docs/differences.txt, asked of OpenSCAD and of the program, and told at its places alone."""

from __future__ import annotations

import os
import subprocess
import sys
import tempfile
import unittest
from concurrent.futures import ThreadPoolExecutor
from random import Random
from unittest.mock import patch

from scadserve import Fault, Solid, solve
from scadserve.source.differences import Row, explained, forms
from scadserve.source.differing import FORMS
from scadserve.source.notes import Note, _is_plain, notes_of
from scadserve.source.reading import source_of
from scadserve.source.tokens import tokens
from tests.calls import PROGRAM, TOP, Calls, needs_program
from tests.needs import needs

sys.path.insert(0, TOP)
from model.chance import source as source_by_chance  # noqa: E402

needs_openscad = needs("openscad")
ROWS = [(form.name, row) for form in forms() for row in form.rows]
SCAD2STL = os.path.join(TOP, "bin", "scad2stl")


def notes(source: str) -> list[Note]:
    return notes_of(source_of(source.encode(), "part.scad"))


def places(source: str) -> list[str]:
    """The places of a source's notes."""
    return [f"{it.line}:{it.column}" for it in notes(source)]


def box(points: list[tuple[float, ...]]) -> str:
    """The corners of the box round points, as the list of forms has them; `nothing` where there are none."""
    axes = list(zip(*points))
    return " to ".join(" ".join(f"{end(axis):g}" for axis in axes) for end in (min, max)) if points else "nothing"


#: Sources that are the same to OpenSCAD.
SAME_THERE = (
    "difference() { cube(2); if (false) cube(1); }",
    "difference() { if (true) cube(2); else cube(3); cube(1); }",
    "intersection() { if (true) cube(2); }",
    "module m() difference() { children(0); children(1); } m() { cube(2); cube(1); }",
    "intersection_for (i = [0, 1]) { echo(i); translate([i, 0, 0]) cube(2); }",
    "for (i = [1 : 9999]) if (i == 9999) cube(2);",
    "s = 1; translate([s, 0, 0]) { s = 3; cube(s); }",
    "module m(d) children(); s = 1; m(s) { t = 3; cube(t); }",
    "linear_extrude(4, false) square(2);",
    "linear_extrude(4, center = true) square(2);",
    'module m() children(); m() { echo("x"); %cube(5); cube(1); }',
    "module m() children(0); m() { *cube(5); cube(1); }",
    "module m() cube([$w, 1, 1]); hull($w = 4) m();",
    "module echoes() cube(3); cube(1); !echoes() ;",
    "cube(2); *union() { !cube(1); }",
    "linear_extrude(1) polygon([[0, 0], [2, 0], [2, 2], [0, 2]]);",
    "polygon([[0, 0], [2, 0], [2, 2], [0, 2], [0, 0], [2, 0], [2, 2], [0, 2]], paths = [[0, 1, 2, 3], [4, 5, 6, 7]]);",
    "module m() { children(); } m() intersection() { cube(1); if (true) cube(2); else cube(3); }",
    "module m() { !children(0); } m() cube(1);",
    "module m() !children(0); module k() m() { cube(1); cube(2); } k();",
    "cube(3); module m() !children([0]); m() cube(1);",
    "cube(3); module m() %children([0]); m() cube(1);",
    "cube(3); module m() { *%children(0); cube(1); } m() cube(4);",
    "cube(3); %children(0);",
    "cube(3); module m() !children(); m() cube(1);",
    "cube(3); module m() !union() { !children(0); } m() cube(1);",
    "cube(3); module m() !union() { !echo(1); cube(1); } m();",
    "module m() intersection() { cube(2); children(); } m() cube(1);",
    "module m() children([0 : 9998]); m() cube(2);",
    "module m() intersection() { cube(2); children($children - 1); } m() cube(1);",
    "c = 2; module m() intersection() { c = 1; children(c); cube(2); } m() { cube(1); cube(3); }",
    "c = 2; module m(c) intersection() { children(c); cube(2); } m(0) cube(1);",
    "cube(3); c = [0]; module m() !children(c); m() cube(1);",
    "n = 9999; for (i = [1 : n]) if (i == n) cube(2);",
    "r = [0 : 20000]; for (r = [[1, 2]]) for (i = r) cube(i);",
    "p = [[0, 0], [2, 0], [2, 2], [0, 2]]; linear_extrude(1) polygon(p);",
    "module k() cube(1); %k(); !cube(2);",
    "hull() polyhedron([[0, 0, 0], [3, 0, 0], [0, 2, 0], [0, 0, 2]], [[0, 1, 2], [0, 3, 1], [0, 2, 3], [1, 3, 2]]);",
    "polyhedron([[0, 0, 0], [3, 0, 0], [0, 2, 0], [0, 0, 2], [0, 0, 5]], [[0, 1, 2], [0, 3, 1], [0, 2, 3], [1, 3, "
    "2]]);",
    "module m(a = $q) cube(a); $q = 1; m(2, $q = 5);",
    "module m() children(); m() { $w = 7; cube($w); }",
    "$x = 1; module m() children(); m() { a = $x; cube(a); }",
    "module m() { for (i = [1 : 3]) { $i = i; children(); } } m() translate([3 * $i, 0, 0]) cube(1);",
    "module m() { cylinder(r = 2, h = 1, $fn = 4); children(); } m() { $fn = 8; cube(1); }",
    "$q = 1; module k() cube($q); module m() { k($q = 2); children(); } m() { n = $fn; cube(n + 1); }",
    "module m() { cylinder(r = 2, h = 1, $fn = 4); children(); } m() { n = $fn; cube(n + 1); }",
    "module m(a) cube(a); $q = 1; m($q = 5, a = $q);",
    "cube([1, 2] == [1, 2] ? 2 : 1);",
    't = "ab"; cube(is_undef(t[0]) ? 1 : 2);',
    "p = [1, 2, 3]; cube(p.x);",
    "function f(a, a) = a; cube(f(1, 2));",
    "module m() cube($children + 1); m();",
    "*intersection() { cube(2); if (false) cube(1); }",
    "/* intersection() { cube(2); if (false) cube(1); } */ cube(1);",
    "cube(;",
)


class Forms(unittest.TestCase):
    def test_the_list_has_each_form_that_is_noted_and_rows_with_all_answers(self) -> None:
        self.assertEqual([it.name for it in forms() if any(row.at for row in it.rows)], list(FORMS))
        for form in forms():
            self.assertTrue(form.says and form.why and form.rows, form.name)
            self.assertTrue(all(row.there and row.here and row.there != row.here for row in form.rows), form.name)
            # (what OpenSCAD refuses needs no note)
            self.assertTrue(all(bool(row.at) == (row.there != "error") for row in form.rows), form.name)

    def test_each_row_is_told_at_its_places_by_its_form_alone(self) -> None:
        for name, row in ROWS:
            with self.subTest(row.source):
                self.assertEqual(places(row.source), row.at)
                self.assertLessEqual({it.form for it in notes(row.source)}, {name})

    def test_what_is_the_same_there_has_no_note(self) -> None:
        for source in SAME_THERE:
            with self.subTest(source):
                self.assertEqual(notes(source), [])

    def test_names_that_stand_for_each_other_are_no_constants(self) -> None:
        for source in (
            "a = b; b = a; module m() intersection() { cube(2); children(a); } m() cube(1);",
            "a = [a, a]; linear_extrude(1) polygon(a);",
        ):
            self.assertEqual(notes(source), [], source)
        # (of very many names only some are gone through)
        for count, forms_found in ((7, ["missing-child"]), (30, [])):
            names = "".join(f"a{number} = a{number + 1}; " for number in range(count)) + f"a{count} = 1;"
            found = notes(f"{names} module m() intersection() {{ cube(2); children(a0); }} m() cube(1);")
            self.assertEqual([it.form for it in found], forms_found)

    def test_what_is_plain_at_once_has_no_note(self) -> None:
        """A source that is plain is looked into no further; here all are."""
        chance = Random("plain")
        pieces = "; ; ; ( ) { } [ ] , = a cube cube(2); linear_extrude(2) linear_extrude( polygon( [0,0] [2,0],[2,2], true"
        pieces += " union() union(){ a=1;"
        by_chance = ["".join(chance.choices(pieces.split(), k=chance.randrange(4, 24))) for _ in range(4_000)]
        plain = 0
        for source in [*(row.source for _, row in ROWS), *by_chance, *(source_by_chance(chance).decode() for _ in range(100))]:
            read = source_of(source.encode(), "part.scad")
            if _is_plain(tokens(read.sent())):
                plain += 1
                with self.subTest(source), patch("scadserve.source.notes._is_plain", return_value=False):
                    self.assertEqual(notes_of(read), [])
        self.assertGreater(plain, 500)

    def test_places_are_those_of_the_files(self) -> None:
        with tempfile.TemporaryDirectory() as folder:
            with open(os.path.join(folder, "lib.scad"), "w", encoding="ascii") as it:
                it.write("\nmodule both() intersection() { cube(2);\n  if (w) cube(1); }\n")
            read = source_of(
                b"use <lib.scad>\nw = 1;\n/* */ both(); cube($children + 1);\n", "part.scad", ["x=$children"], [folder]
            )
        found = [(os.path.basename(it.file), it.line, it.column, it.form) for it in notes_of(read)]
        expected = [
            ("lib.scad", 3, 3, "if-child"),
            ("part.scad", 3, 20, "children-outside"),
            ("-D x=$children", 1, 3, "children-outside"),
        ]
        self.assertEqual(found, expected)


@needs_openscad
class There(unittest.TestCase):
    """What OpenSCAD makes of each row."""

    def made(self, row: Row) -> str:
        with tempfile.TemporaryDirectory() as folder:
            source, out = os.path.join(folder, "row.scad"), os.path.join(folder, "row.off")
            with open(source, "w", encoding="ascii") as it:
                it.write(row.source)
            done = subprocess.run(["openscad", "-o", out, source], capture_output=True, text=True, check=False)
            if not os.path.exists(out):
                return "error" if "ERROR" in done.stderr else "nothing"
            with open(out, encoding="ascii") as it:
                words = [line.split() for line in it if line.strip()]
        counts, rest = (words[0][1:], words[1:]) if words[0][1:] else (words[1], words[2:])
        return box([tuple(map(float, it[:3])) for it in rest[: int(counts[0])]])

    def test_each_row(self) -> None:
        with ThreadPoolExecutor(4) as there:
            for (_, row), made in zip(ROWS, there.map(self.made, [row for _, row in ROWS])):
                self.assertEqual(made, row.there, row.source)


@needs_program
class Here(unittest.TestCase):
    """What the program makes of each row, and what `solve` notes."""

    def test_each_row(self) -> None:
        for (name, row), it in zip(ROWS, solve([row.source for _, row in ROWS], server=PROGRAM)):
            with self.subTest(row.source):
                assert isinstance(it, Solid), it
                self.assertEqual("nothing" if it.box is None else box([tuple(map(float, end)) for end in it.box]), row.here)
                self.assertEqual(
                    [(f"{note.line}:{note.column}", note.form) for note in it.notes], [(at, name) for at in row.at]
                )

    def test_faults_have_none(self) -> None:
        [it] = solve(["intersection() { cube(2.5); if (false) cube(1); }"], server=PROGRAM)
        self.assertIsInstance(it, Fault)


class Told(Calls):
    """The notes that the tools print, with a stand-in for the server."""

    SOURCE = "w = 6;\nintersection() {\n  cube(w);\n  if (w > 9) cube(1);\n}\n"
    NOTE = (
        "part.scad:4:3: note: OpenSCAD takes this for another solid: here an `if` that chooses no body is an empty child; in "
        ""
    )
    NOTE += "OpenSCAD it is not a child [if-child]\n"

    def test_both_tools_tell_them_and_all_else_stays(self) -> None:
        self.write("part.scad", self.SOURCE)
        for tool, words in ((None, ()), (SCAD2STL, ("--format", "stl"))):
            status, out, said = self.call("part.scad", *words, tool=tool)
            quiet = self.call("--no-notes", "part.scad", *words, tool=tool)
            self.assertEqual((status, said.decode().count("note:")), (0, 1))
            self.assertTrue(said.decode().startswith(self.NOTE), said)
            self.assertEqual(quiet, (status, out, said[len(self.NOTE.encode()) :]))

    def test_an_empty_solid_has_them_and_a_fault_has_none(self) -> None:
        status, _, said = self.call(self.write("part.scad", self.SOURCE + "//= empty\n"))
        self.assertEqual((status, said.decode().splitlines()[0] + "\n"), (1, self.NOTE))
        status, _, said = self.call(self.write("part.scad", self.SOURCE + "cube(2.5);\n"))
        self.assertEqual((status, said.decode().count("note:")), (1, 0))

    def test_each_form_is_explained(self) -> None:
        for form in forms():
            told = explained(form.name)
            assert told is not None
            self.assertTrue(told.startswith(f"{form.name}: {form.says}.\n"))
            self.assertTrue(all(f"    {row.source}\n" in told for row in form.rows))
        status, out, _ = self.call("--explain", "if-child")
        self.assertEqual((status, out.decode()), (0, explained("if-child")))
        self.assertIsNone(explained("none"))


if __name__ == "__main__":
    unittest.main()
