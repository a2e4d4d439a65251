"""What sources include and use: the same solids as OpenSCAD makes of them, and faults at their places in their files."""

import os
import shutil
import subprocess
import sys
import unittest
from fractions import Fraction
from unittest import mock

from scadserve.tools import scad2off
from scadserve.solid.fouroff import read
from scadserve.solid.measures import box, volume
from tests.calls import PROGRAM, STAND_IN, Calls, needs_program
from tests.needs import needs
from tests.tool_case import Case

# Of each case the files, part.scad among them, and the box and the volume of its solid, worked out by hand.
CASES = {
    "a file stands for its text": (
        {"part.scad": "include <lib.scad>\nm();", "lib.scad": "w = 3;\nmodule m() cube([w, 2, 1]);"},
        ((0, 0, 0), (3, 2, 1)), 6,
    ),
    "the last assignment counts, behind an include too": (
        {"part.scad": "include <lib.scad>\nw = 5;\nm();", "lib.scad": "w = 3;\nmodule m() cube([w, 2, 1]);"},
        ((0, 0, 0), (5, 2, 1)), 10,
    ),
    "an include may stand anywhere in a line": (
        {"part.scad": "x = include <four.scad>; cube([x, include <four.scad>, 1]); include <two.scad> m();",
         "four.scad": "4", "two.scad": "module m()\n translate([9, 0, 0]) cube(1);\n"},
        ((0, 0, 0), (10, 4, 1)), 17,
    ),
    "an include may stand in a body, and open one": (
        {"part.scad": "module m() { include <lib.scad> n(); }\nm(); include <open.scad> translate([5, 0, 0]) cube(1); }",
         "lib.scad": "module n() cube(2);", "open.scad": "union() {"},
        ((0, 0, 0), (6, 2, 2)), 9,
    ),
    "files are looked for beside the file that names them": (
        {"part.scad": "include <d/outer.scad>\nouter();", "d/outer.scad": "include <inner.scad>\nmodule outer() inner();",
         "d/inner.scad": "module inner() cube(3);", "inner.scad": "module inner() cube(9);"},
        ((0, 0, 0), (3, 3, 3)), 27,
    ),
    "a comment without the end of its line takes the rest of the line that includes it": (
        {"part.scad": "include <lib.scad> cube(5); cube(7);\ncube(2);", "lib.scad": "x = 1; // no newline"},
        ((0, 0, 0), (2, 2, 2)), 8,
    ),
    "in comments and texts there is no include": (
        {"part.scad": '// include <no.scad>\n/* use <no.scad>\n*/ cube(2); echo("include <no.scad>", "\\"use <no.scad>");'},
        ((0, 0, 0), (2, 2, 2)), 8,
    ),
    "a use takes definitions alone": (
        {"part.scad": "use <lib.scad>\nm(f(2));", "lib.scad": "cube(100); module m(x) { cube([x, 1, 1]); } if (true) cube(50); "
         "{ function f(x) = 2 * x; }\nfor (i = [0 : 3]) cube(60);\n"},
        ((0, 0, 0), (4, 1, 1)), 4,
    ),
    "each file has variables of its own": (
        {"part.scad": "use <lib.scad>\nw = 9;\nm(); translate([20, 0, 0]) cube(w);", "lib.scad": "w = 3;\nmodule m() cube(w);"},
        ((0, 0, 0), (29, 9, 9)), 27 + 729,
    ),
    "two used files have variables of their own": (
        {"part.scad": "use <a.scad>\nuse <b.scad>\na(); translate([20, 0, 0]) b();",
         "a.scad": "w = 3;\nmodule a() cube(w);", "b.scad": "w = 4; w2 = w + 1;\nmodule b() cube([w, w2, 1]);"},
        ((0, 0, 0), (24, 5, 3)), 27 + 20,
    ),
    "a file that is included by who uses and who is used is two": (
        {"part.scad": "include <c.scad>\nuse <lib.scad>\nw = 7;\nm(); translate([20, 0, 0]) pin();",
         "lib.scad": "include <c.scad>\nmodule m() pin();", "c.scad": "w = 2;\nmodule pin() cube(w);"},
        ((0, 0, 0), (27, 7, 7)), 8 + 343,
    ),
    "of two uses the later one counts": (
        {
            "part.scad": "use <a.scad>\nuse <b.scad>\nm(); n();",
            "a.scad": "module m() cube(3); module n() translate([9, 0, 0]) m();",
            "b.scad": "module m() cube(4);",
        },
        ((0, 0, 0), (12, 4, 4)), 64 + 27,
    ),
    "a use again makes it the later one": (
        {"part.scad": "use <a.scad>\nuse <b.scad>\nuse <a.scad>\nm();", "a.scad": "module m() cube(3);",
         "b.scad": "module m() cube(4);"},
        ((0, 0, 0), (3, 3, 3)), 27,
    ),
    "a module of one's own goes before a used one, which keeps its own": (
        {"part.scad": "use <lib.scad>\nmodule m() cube(2);\nm(); n();", "lib.scad": "module m() cube(3);\n"
         "module n() translate([9, 0, 0]) m();"},
        ((0, 0, 0), (12, 3, 3)), 8 + 27,
    ),
    "what a used file uses is not handed on": (
        {"part.scad": "use <outer.scad>\nouter();\nmodule inner() translate([9, 0, 0]) cube(1);\ninner();",
         "outer.scad": "use <inner.scad>\nmodule outer() inner();", "inner.scad": "module inner() cube(3);"},
        ((0, 0, 0), (10, 3, 3)), 28,
    ),
    "one's own cube is none of a used file's": (
        {"part.scad": "use <lib.scad>\nmodule cube(s) linear_extrude(1) square(s);\nm(); translate([9, 0, 0]) cube(2);",
         "lib.scad": "module m() cube(3);"},
        ((0, 0, 0), (11, 3, 3)), 27 + 4,
    ),
    "a used file's cube goes before the built-in one": (
        {"part.scad": "use <lib.scad>\nuse <other.scad>\ncube(2); "
                      "other();", "lib.scad": "module cube(s) linear_extrude(1) square(s);",
         "other.scad": "module other() translate([9, 0, 0]) cube(2);"},
        ((0, 0, 0), (11, 2, 2)), 4 + 8,
    ),
    "a parameter may have the name of a variable": (
        {"part.scad": "use <lib.scad>\nw = 1; size = 8;\nm(w = 4); m(); translate([0, 20, 0]) cube(size = w);",
         "lib.scad": "w = 3; size = 2;\nmodule m(w = w, at = w * 2) translate([at, 0, 0]) cube(size = [w, size, 1]);"},
        ((0, 0, 0), (10, 21, 1)), 9,
    ),
    "a variable of a body or of a loop may have the name of another file's": (
        {"part.scad": "use <lib.scad>\ni = 7; a = 5;\nm(); translate([20, 0, 0]) cube([a, i, 1]);",
         "lib.scad": "module m() { a = 2; for (i = [0 : 1]) translate([3 * i, 0, 0]) cube([a, 1 + i, 1]); }"},
        ((0, 0, 0), (25, 7, 1)), 2 + 4 + 35,
    ),
    "a value in a body is the outer one until its name is assigned": (
        {"part.scad": "use <lib.scad>\nw = 8;\nm();", "lib.scad": "w = 3;\nmodule m() { a = w; w = 2; cube([a, w, 1]); }"},
        ((0, 0, 0), (3, 2, 1)), 6,
    ),
    "a module in a body may have the name of another file's": (
        {"part.scad": "use <lib.scad>\nmodule pin() cube(2);\nm(); pin();",
         "lib.scad": "module m() { module pin() translate([5, 0, 0]) cube(1); pin(); }"},
        ((0, 0, 0), (6, 2, 2)), 9,
    ),
    "special variables go from who uses to what is used": (
        {"part.scad": "use <lib.scad>\n$k = 2;\nm(); translate([9, 0, 0]) m($k = 3);", "lib.scad": "module m() cube($k);"},
        ((0, 0, 0), (12, 3, 3)), 8 + 27,
    ),
    "special variables of a used file go with each call of it that isn't given others": (
        {"part.scad": "use <lib.scad>\n$k = 9;\nm(); translate([20, 0, 0]) m($k = 2); translate([40, 0, 0]) cube(f());\n"
         "translate([60, 0, 0]) both() cube($k); translate([80, 0, 0]) cube($k);",
         "lib.scad": "$k = 3;\nmodule m() cube($k); function f() = $k + 1; module both() { m(); children(); n($k = 1); }\n"
         "module n() translate([0, 0, 5]) m();"},
        ((0, 0, 0), (89, 9, 9)), 27 + 8 + 64 + 27 + 1 + 729,
    ),
    "a used file that uses another one gives it that one's": (
        {"part.scad": "use <lib.scad>\nm(2); o();\nmodule o() { module m(x) translate([0, 20, 0]) cube([x, $k, 1]); $k = 1; "
                      "m(3); }",
         "lib.scad": "use <in.scad>\n$k = 3;\nmodule m(x) { n(x); translate([9, 0, 0]) cube([x, $k, 1]); }",
         "in.scad": "w = 2; $k = w; $j = 4; module n(x) cube([x, $k, $j]);"},
        ((0, 0, 0), (11, 21, 4)), 16 + 6 + 3,
    ),
    "children see the variables of their own file": (
        {
            "part.scad": "use <lib.scad>\nd = 2;\nat() cube(d);",
            "lib.scad": "d = 5;\nmodule at() translate([d, 0, 0]) children();",
        },
        ((5, 0, 0), (7, 2, 2)), 8,
    ),
    "functions of a used file are known to assignments": (
        {
            "part.scad": "w = f(2);\ncube(w);\nuse <lib.scad>",
            "lib.scad": "k = 3; function f(x) = g(x) + k; function g(x) = x * k;",
        },
        ((0, 0, 0), (9, 9, 9)), 729,
    ),
    "a file that is included may use others": (
        {"part.scad": "include <d/lib.scad>\nm();", "d/lib.scad": "use <inner.scad>\nmodule m() inner();",
         "d/inner.scad": "s = 4;\nmodule inner() cube(s);"},
        ((0, 0, 0), (4, 4, 4)), 64,
    ),
    "two files that are used use a third": (
        {"part.scad": "use <a.scad>\nuse <b.scad>\na(); b();", "a.scad": "use <c.scad>\nmodule a() c();",
         "b.scad": "use <c.scad>\nmodule b() translate([9, 0, 0]) c();", "c.scad": "s = 2; module c() cube(s);"},
        ((0, 0, 0), (11, 2, 2)), 16,
    ),
    "a library is looked for in the folders of OPENSCADPATH": (
        {"part.scad": "use <box/lib.scad>\ninclude <more.scad>\nm(k);", "libraries/box/lib.scad": "module m(x) cube(x);",
         "libraries/more.scad": "k = 3;"},
        ((0, 0, 0), (3, 3, 3)), 27,
    ),
    "blanks may stand before the name, and Windows ends lines": (
        {"part.scad": "use\r\n  <lib.scad>\r\ninclude\t<k.scad>\r\nm(k);\r\n", "lib.scad": "module m(x)\r\n cube(x);\r\n",
         "k.scad": "k = 2;\r\n"},
        ((0, 0, 0), (2, 2, 2)), 8,
    ),
}


class Sources(Case):
    """Files of a folder of the test's own, in which the tool is called."""

    tool = scad2off
    program = STAND_IN

    def setUp(self):
        super().setUp()
        os.mkdir(self.path("log"))
        os.mkdir(self.path("here"))
        self.folder = self.path("here")
        before = os.getcwd()
        self.addCleanup(os.chdir, before)
        os.chdir(self.folder)
        log = os.path.join(os.path.dirname(self.folder), "log")
        path = os.path.dirname(sys.executable) + os.pathsep + os.environ["PATH"]
        more = {"SCADSERVE": self.program, "STAND_IN_LOG": log, "PATH": path, "OPENSCADPATH": "no:" + self.path("libraries")}
        environment = mock.patch.dict(os.environ, more)
        environment.start()
        self.addCleanup(environment.stop)

    def write_all(self, files, folder=""):
        """Writes these files into a folder, in which no others are then."""
        shutil.rmtree(self.path(folder))
        for name, text in files.items():
            os.makedirs(os.path.dirname(self.path(os.path.join(folder, name))), exist_ok=True)
            self.file(os.path.join(folder, name), text.encode())
        os.chdir(self.folder)

    def script(self, *words):
        """The script that the server would be given."""
        self.assertEqual(self.call("--script", "-o", "a.script", "part.scad", *words), (0, ""))
        return self.bytes_of("a.script")


@needs_program
class Solids(Sources):
    program = PROGRAM

    def solid(self, *words):
        """The box and the volume of what is made, and what is said."""
        status, said = self.call("part.scad", "-o", "part.4off", *words)
        self.assertEqual(status, 0, said)
        return (*measures(self.bytes_of("part.4off")), said)

    def test_each_case_is_the_solid_that_was_worked_out(self):
        names = {f"case{number}": name for number, name in enumerate(CASES)}
        for folder, name in names.items():
            for file, text in CASES[name][0].items():
                place = file if file.startswith("libraries/") else os.path.join(
                    folder, file.replace("part.scad", f"{folder}.scad")
                )
                os.makedirs(os.path.dirname(self.path(place)), exist_ok=True)
                self.file(place, text.encode())
        status, said = self.call("-d", "out", *(f"{it}/{it}.scad" for it in names))
        self.assertEqual((status, said), (0, f"{len(CASES)} files: {len(CASES)} solids, 0 faults\n"))
        for folder, name in names.items():
            with self.subTest(name):
                self.assertEqual(measures(self.bytes_of(f"out/{folder}.4off")), CASES[name][1:])

    def test_folders_of_the_words_go_before_those_of_the_environment(self):
        self.write_all({"part.scad": "include <k.scad>\ncube(k);", "a/k.scad": "k = 2;", "b/k.scad": "k = 3;",
                        "libraries/k.scad": "k = 4;"})
        for words, side in (((), 4), (("-I", "b"), 3), (("-I", "a", "-I", "b"), 2), (("-Ino", "-Ib"), 3)):
            self.assertEqual(self.solid(*words), (((0, 0, 0), (side, side, side)), side**3, ""))
        self.file("k.scad", b"k = 1;")
        self.assertEqual(self.solid("-I", "a")[1], 1)

    def test_assignments_behind_the_source_are_those_of_its_own_variables(self):
        self.write_all({"part.scad": "use <lib.scad>\ninclude <k.scad>\nm(k);", "k.scad": "k = 2;",
                        "lib.scad": "w = 3; module m(k) cube([k, w, 1]);"})
        self.assertEqual(self.solid("-D", "k=7")[1], 21)
        said = "part.scad: warning: the source never has w, which -D assigns\n"
        self.assertEqual(self.solid("-D", "w=7")[1:], (6, said))

    @needs("openscad")
    def test_each_case_is_the_solid_that_openscad_makes(self):
        for name, (files, *wanted) in CASES.items():
            with self.subTest(name):
                self.write_all(files)
                subprocess.run(["openscad", "-q", "-o", "part.off", "part.scad"], check=True, timeout=300)
                self.assertEqual(list(measures_of_off(self.bytes_of("part.off").decode())), wanted)


class Faults(Sources):
    """Faults are told in the file and the line where the text stands, those of files at the include."""

    def told(self, files, *words):
        """The lines that are said of part.scad among these files, without those of cures."""
        self.write_all(files)
        status, said = self.call("part.scad", *words)
        self.assertEqual(status, 1, said)
        return [it for it in said.splitlines() if not it.startswith("    cure: ")]

    def assert_refused(self, files, said):
        """What is first said of part.scad among these files, for which no server is asked."""
        with mock.patch("scadserve.source.answering.run", side_effect=AssertionError):
            self.assertEqual(self.told(files)[0], said)

    def test_a_fault_in_an_included_file_is_told_there_and_where_it_is_included(self):
        files = {
            "part.scad": "w=6;\n  include <d/lib.scad>\n", "d/lib.scad": "include <inner.scad>", "d/inner.scad": "\n cube(2.5);"
        }
        self.assertEqual(
            self.told(files),
            [
                "d/inner.scad:2:7: error: NotWhole: 2.5 is not a whole number",
                "     cube(2.5);",
                "          ^",
                "d/lib.scad:1:1: note: included here",
                "part.scad:2:3: note: included here",
            ],
        )

    def test_a_fault_behind_an_include_keeps_its_column_and_its_line(self):
        files = {"part.scad": "include <a.scad> cube(2.5);\n", "a.scad": "w = 3;\nx = 4;\n\n"}
        self.assertEqual(
            self.told(files),
            ["part.scad:1:23: error: NotWhole: 2.5 is not a whole number", "    include <a.scad> cube(2.5);", " " * 26 + "^"],
        )
        files = {"part.scad": "w=6;\ninclude\n<a.scad>\n//= open\n\n", "a.scad": "\n\n"}
        self.assertEqual(self.told(files)[0], "part.scad:5:1: error: Expected: can't follow what stands before it".replace(
            "can't follow", "this can't follow"))
        files = {"part.scad": "include <a.scad>\n//= open", "a.scad": "\n\n"}
        self.assertEqual(
            self.told(files), ["part.scad:3:1: error: Expected: the source ends in the middle of a statement"]
        )

    def test_a_fault_in_a_used_file_is_told_in_its_own_words(self):
        files = {"part.scad": "use <lib.scad>\nw = 3;", "lib.scad": "w = 1; cube(w); module m() { cube([w, w, w + 2.5]); }"}
        self.assertEqual(
            self.told(files),
            [
                "lib.scad:1:46: error: NotWhole: 2.5 is not a whole number",
                "    " + files["lib.scad"],
                " " * 49 + "^",
                "part.scad:1:1: note: used here",
            ],
        )
        script = self.script()
        self.assertEqual(script.count(b"_lib_w"), 4)
        self.assertNotIn(b"cube(_lib_w);", script)

    def test_missing_files_rings_and_folders_are_told_at_the_include(self):
        for files, said in (
            ({"part.scad": "cube(1); include <no.scad>"}, "part.scad:1:10: error: NoFile: there is no file no.scad"),
            ({"part.scad": "use <no.scad>"}, "part.scad:1:1: error: NoFile: there is no file no.scad"),
            ({"part.scad": "include < a.scad>", "a.scad": ""}, "part.scad:1:1: error: NoFile: there is no file  a.scad"),
            ({"part.scad": "include <d>", "d/a.scad": ""}, "part.scad:1:1: error: NoFile: d is a folder"),
            ({"part.scad": "\ninclude <part.scad>"}, "part.scad:2:1: error: Ring: part.scad is being read already"),
            ({"part.scad": "include <d/a.scad>", "d/a.scad": "use <../b.scad>", "b.scad": "include <d/a.scad>"},
             "d/../d/a.scad:1:1: error: Ring: d/../d/../b.scad is being read already"),
            ({"part.scad": "use <a.scad>", "a.scad": "use <b.scad>", "b.scad": "use <a.scad>"},
             "b.scad:1:1: error: Ring: a.scad is being read already"),
            ({"part.scad": "include <a.scad>\n*/ cube(1);", "a.scad": "cube(1);\n /* open"},
             "a.scad:2:2: error: OpenComment: this comment is not closed"),
            ({"part.scad": "use <a.scad>\n*/ cube(1);", "a.scad": "cube(1);\n /* open"},
             "a.scad:2:2: error: OpenComment: this comment is not closed"),
        ):
            with self.subTest(said=said):
                self.assert_refused(files, said)

    def test_limits_are_told_at_the_include(self):
        long, wide = "\n" * 3_000, ("x" * 1_000 + "\n") * 600
        for files, said in (
            ({"part.scad": "w=6;\ninclude <a.scad>\n include <a.scad>", "a.scad": long},
             "part.scad:3:2: error: TooManyLines: with this file a source has at most 4,096 lines"),
            ({"part.scad": "\ninclude <a.scad>" + long, "a.scad": long},
             "part.scad:2:1: error: TooManyLines: with this file a source has at most 4,096 lines"),
            ({"part.scad": "include <b.scad>", "a.scad": long, "b.scad": "include <a.scad>\ninclude <a.scad>"},
             "part.scad:1:1: error: TooManyLines: with this file a source has at most 4,096 lines"),
            ({"part.scad": "include <a.scad>\n  include <a.scad>", "a.scad": wide},
             "part.scad:2:3: error: TooLarge: with this file the source is more than a script's 1 MiB"),
            ({"part.scad": "\n use <a.scad>", "a.scad": wide * 2},
             "part.scad:2:2: error: TooLarge: a.scad has more than a script's 1 MiB"),
            ({"part.scad": "\ninclude <a.scad>", "a.scad": "\n/" + "/" * 1_016},
             "a.scad:2:1017: error: TooLong: a line of a source has at most 1,016 bytes"),
            ({"part.scad": "include <a0.scad>", "a99.scad": "", **{
                f"a{it}.scad": f"include <a{it + 1}.scad>" for it in range(99)}},
             "a63.scad:1:1: error: TooManyFiles: more than 1,024 files, or files nested more than 64 deep"),
            ({"part.scad": "include <a.scad>" * 1_025, "a.scad": ""},
             f"part.scad:1:{16 * 1_024 + 1}: error: TooManyFiles: more than 1,024 files, or files nested more than 64 deep"),
        ):
            with self.subTest(said=said):
                self.assert_refused(files, said)

    def test_bombs_of_files_end_at_once(self):
        files = {f"a{it}.scad": f"include <a{it + 1}.scad>" * 2 for it in range(40)}
        self.assertIn("error: TooManyFiles: ", self.told({"part.scad": "include <a0.scad>", **files, "a40.scad": ""})[0])
        files = {f"a{it}.scad": f"use <a{it + 1}.scad>" * 2 for it in range(40)}
        self.assertIn(
            "a40.scad:1:3: error: NotWhole", self.told({"part.scad": "use <a0.scad>", **files, "a40.scad": "x=2.5;"})[0]
        )

    def test_what_a_used_file_cannot_be_told_apart_by_is_refused(self):
        for lib, said in (
            ("$fn = 4; $fa = $fn;", "lib.scad:1:16: error: NotInProfile: $fn outside all bodies of a file that is used"),
            ("w = [1, $k];", "lib.scad:1:9: error: NotInProfile: $k outside all bodies of a file that is used"),
            ("function f() = g(); function g(x = $k) = x;\nw = f();",
             "lib.scad:2:5: error: NotInProfile: f asks for $k outside all bodies of a file that is used"),
            ("module m() { cube(1);", "lib.scad:1:22: error: Expected: the source ends in the middle of a statement"),
            ("module m() cube(1)); ", "lib.scad:1:19: error: Expected: ) can't follow what stands before it"),
        ):
            with self.subTest(lib=lib):
                self.assert_refused({"part.scad": "use <lib.scad>", "lib.scad": lib}, said)
        for call, said in (
            ("m(1, $k)", "part.scad:2:6: error: NotInProfile: $k in a call of a used file that assigns it"),
            ("m(x = [f()])", "part.scad:2:8: error: NotInProfile: f asks for $k in a call of a used file that assigns it"),
            ("m(x = g())", "part.scad:2:7: error: NotInProfile: g asks for $k in a call of a used file that assigns it"),
        ):
            files = {
                "part.scad": f"use <l.scad>\n{call};\nfunction g() = $k;",
                "l.scad": "$k = 3; function f() = 1 + $k; module m() {}",
            }
            self.assert_refused(files, said)
        said = "part.scad:2:7: error: Expected: the source ends in the middle of a statement"
        self.assert_refused({"part.scad": "use <l.scad>\ncube(1", "l.scad": ""}, said)

    def test_special_variables_are_given_behind_all_arguments(self):
        files = {"lib.scad": "$k = 3; module m(x = 1) {} function f() = 1;"}
        for call, said in (
            ("m();", b"m($k = _lib_k);"),
            ("m(2, );", b"m(2, $k = _lib_k);"),
            ("m($k = 2);", b"m($k = 2);"),
            ("m([f()]);", b"m([f($k = _lib_k)], $k = _lib_k);"),
            ("module o() { module m() {} m(); }", b"module o() { module m() {} m(); }"),
            ("_lib_k = 1; m();", b"_lib_k = 1; m($k = __lib_k);"),
        ):
            self.write_all({"part.scad": f"use <lib.scad>\n{call}", **files})
            self.assertEqual(self.script().splitlines()[1], b"a put 2 " + said)

    def test_assignments_behind_the_source_are_not_changed_by_what_is_used(self):
        files = {"part.scad": "use <a.scad>\nuse <b.scad>\nw=1;", "a.scad": "function f() = 1; function g() = f();",
                 "b.scad": "function f() = 2; $k = 3; function h() = $k;"}
        self.write_all(files)
        self.assertIn(b"w=g();", self.script("-D", "w=g()"))
        for value, column in (("f()", 5), ("1 + h()", 9)):
            status, said = self.call("part.scad", "-D", f"w={value}")
            self.assertEqual(status, 1)
            self.assertTrue(said.startswith(f"-D w={value}:1:{column}: error: NotInProfile: "), said)

    def test_other_uses_of_files_are_left_to_the_server(self):
        for source in (
            "if (true) { use <a.scad> }",
            "x = use <a.scad>;",
            "include a.scad;",
            "use <a.scad",
            "$include <a.scad>;",
            "includes <a.scad>;",
            "module m() use <a.scad>",
        ):
            self.write_all({"part.scad": source})
            self.assertEqual(self.script().splitlines()[0], b"a put 1 " + source.encode())


class Pipes(Calls):
    def test_a_source_from_a_pipe_finds_files_from_where_one_is(self):
        self.write("k.scad", "w=6;\n")
        self.assertEqual(self.call("--script", "-", stdin=b"include <k.scad>"), (0, b"a put 1 w=6;\na export\n", b""))


@needs_program
class Names(Sources):
    """What has no meaning in its own file has none with those of others beside it."""

    program = PROGRAM

    def test_a_used_file_sees_nothing_of_who_uses_it(self):
        for files, said in (
            ({"part.scad": "use <l.scad>\nmodule n() cube(2);\nm();", "l.scad": "module m() n();"},
             "l.scad:1:12: error: UnknownModule: there is no module n"),
            ({"part.scad": "use <l.scad>\nfunction f() = 2;\nm();", "l.scad": "module m() cube(f());"},
             "l.scad:1:17: error: UnknownFunction: there is no function f"),
            ({"part.scad": "use <l.scad>\nw = 2;\nm();", "l.scad": "module m() cube(w);"},
             "l.scad:1:17: error: UnknownName: w has no value here"),
            ({"part.scad": "use <l.scad>\nuse <k.scad>\nm();", "l.scad": "module m() n();", "k.scad": "module n() cube(2);"},
             "l.scad:1:12: error: UnknownModule: there is no module n"),
            (
                {"part.scad": "use <l.scad>\ncube(w);", "l.scad": "w = 3;"},
                "part.scad:2:6: error: UnknownName: w has no value here",
            ),
            ({"part.scad": "use <l.scad>\nn();", "l.scad": "use <k.scad>", "k.scad": "module n() cube(2);"},
             "part.scad:2:1: error: UnknownModule: there is no module n"),
            ({"part.scad": "use <l.scad>\nw = 2; m(5);", "l.scad": "w = 3; module m(x) cube([w, x / w, 1]);"},
             "l.scad:1:31: error: NotWhole: what / gives is not a whole number"),
        ):
            with self.subTest(said=said):
                self.write_all(files)
                status, told = self.call("part.scad")
                self.assertEqual((status, told.splitlines()[0]), (1, said))


def measures(data):
    """The box and the volume of the solid that a 4OFF text prints."""
    boundary = read(data)
    return tuple(tuple(map(int, it)) for it in zip(*box(boundary))), volume(boundary).value


def measures_of_off(text):
    """The box and the volume of a surface in the format OFF."""
    numbers = iter(text.split()[1:])
    points, faces, _ = (int(next(numbers)) for _ in range(3))
    corners = [tuple(Fraction(next(numbers)) for _ in range(3)) for _ in range(points)]
    six = Fraction(0)
    for _ in range(faces):
        ring = [corners[int(next(numbers))] for _ in range(int(next(numbers)))]
        (a, b, c) = ring[0]
        for (d, e, f), (g, h, i) in zip(ring[1:], ring[2:]):
            six += a * (e * i - f * h) - b * (d * i - f * g) + c * (d * h - e * g)
    axes = list(zip(*corners))
    return (tuple(int(min(it)) for it in axes), tuple(int(max(it)) for it in axes)), six / 6


if __name__ == "__main__":
    unittest.main()
