"""Faults that say which: the cause of each is that of docs/LANGUAGE.md, and the calls that led there are those that did."""

import os
import re
import unittest

from scadserve.source import details
from scadserve.server.scripts import Script, run
from scadserve.source.structure import NoProgram, structure_of
from scadserve.source.tokens import tokens
from tests.calls import PROGRAM, TOP, Calls, needs_program

#: Of sources with one fault its word, and what is said of it.
CASES = [
    ("cube(2, 3, 4);", "BadArgument", "this argument is surplus: cube takes size and center"),
    ("render(2, 3) cube(1);", "BadArgument", "this argument is surplus: render takes convexity alone"),
    ("union(2) cube(1);", "BadArgument", "this argument is surplus: union takes no argument"),
    ("cube(sise = 3);", "BadArgument", "cube has no parameter sise: cube takes size and center"),
    ("cube(size = 2, 4);", "BadArgument", "size is given to cube twice"),
    ("cube(2, size = 4);", "BadArgument", "size is given to cube twice"),
    ("cube(2, $fn = 4, $fn = 4);", "BadArgument", "$fn is given to cube twice"),
    ("echo(a = 1, a = 2, $b = 1, $b = 2);", "BadArgument", "$b is given to echo twice"),
    ("linear_extrude(center = true) square(2);", "BadArgument", "linear_extrude must be given its height"),
    ("polyhedron();", "BadArgument", "polyhedron must be given its points and its faces"),
    ("polyhedron(faces = [[0, 1, 2]]);", "BadArgument", "polyhedron must be given its points"),
    ("translate() cube(1);", "BadArgument", "translate must be given its v"),
    ("assert(message = \"x\");", "BadArgument", "assert must be given its condition"),
    ("cylinder(2, r = 3, r1 = 2, $fn = 4);", "BadArgument", "r is given with r1 or r2"),
    ("module m(a, b) cube(a);\nm(1, c = 2);", "BadArgument", "m has no parameter c: m takes a and b"),
    ("module m(a, b) cube(a);\nm(1, 2, cube = 2);", "BadArgument", "m has no parameter cube: m takes a and b"),
    ("function f(a) = a;\nw = f(1, f(2));", "BadArgument", "this argument is surplus: f takes a alone"),
    ("module m(a) { module m(b, c) cube(b); m(d = 1); }\nm(1);", "BadArgument", "m has no parameter d: m takes b and c"),
    ("module cube(a, b, c) {}\ncube(1, 2, 3, 4);", "BadArgument", "this argument is surplus: cube takes a, b and c"),
    ("w = abs(1, 2);", "BadArgument", "abs takes 1 argument, and is given 2"),
    ("w = min();", "BadArgument", "min takes one or more arguments, and is given none"),
    ("w = pow(2);", "BadArgument", "pow takes 2 arguments, and is given 1"),
    ("w = max(1, abs(n = 2));", "BadArgument", "arguments of abs have no names"),
    ("cube(\"4\");", "TypeMismatch", "cube wants as size a number or a list of 3 numbers, and as center true or false"),
    ("translate(3) cube(1);", "TypeMismatch", "translate wants a list of 2 or 3 numbers"),
    ("w = 3 + [1];", "TypeMismatch", "+ wants two numbers, or two lists of one length"),
    ("w = 3 - - \"a\";", "TypeMismatch", "- wants a number or a list behind it"),
    ("w = [3] - \"a\";", "TypeMismatch", "- wants two numbers, or two lists of one length"),
    ("w = (3) - \"a\";", "TypeMismatch", "- wants two numbers, or two lists of one length"),
    ("w = [\"a\" * 2];", "TypeMismatch",
     "* wants two numbers, a number and a list, or two lists of numbers of one length above 0"),
    ("w = 4 / [2];", "TypeMismatch", "/ wants two numbers, or a list and a number"),
    ("w = \"a\" < \"b\";", "TypeMismatch", "< wants two numbers"),
    ("w = [0 : \"a\"];", "TypeMismatch", "a range wants numbers"),
    ("w = 3; x = w[0];", "TypeMismatch", "an index wants a list or a text before it, and a number in it"),
    ("w = 3; x = w.x;", "TypeMismatch", ". wants a list or a text before it"),
    ("for (i = 3) cube(i);", "TypeMismatch", "for wants a list or a range for each variable"),
    ("w = abs(\"a\");", "TypeMismatch", "abs wants a number"),
    ("w = min([]);", "TypeMismatch", "min wants numbers, or one list of numbers that isn't empty"),
    ("assert(1 > 2, \"too \\\"thin\\\"\\nby 1\");", "AssertFailed", 'this assertion does not hold: too "thin" by 1'),
    ("assert(message = \"m\", condition = false);", "AssertFailed", "this assertion does not hold: m"),
    ("assert(false, [1]);", "AssertFailed", "this assertion does not hold"),
    ("assert(false);", "AssertFailed", "this assertion does not hold"),
    ("translate([0, 0, -.01]) cube(1);", "NotWhole", ".01 is not a whole number"),
]


class Tables(unittest.TestCase):
    """The tables are those of docs/LANGUAGE.md."""

    def setUp(self):
        with open(os.path.join(TOP, "docs", "LANGUAGE.md"), encoding="utf-8") as it:
            self.text = it.read()

    def test_parameters_of_modules(self):
        section = self.text.partition("\n## Built-in modules\n")[2]
        found = {}
        for names, parameters in re.findall(r"^\| (`[^|]+`) \|([^|]*)\|", section, re.MULTILINE):
            for name in re.findall(r"`(\w+)`", names):
                words = re.sub(r"= (\[[^]]*\]|\w+)", "", parameters).replace(" ", "")
                found[name.encode()] = [it.encode() for it in words.split(",") if it]
        self.assertEqual(found.pop(b"echo"), [b"any"])
        self.assertEqual(details.PARAMETERS, found)

    def test_counts_of_functions(self):
        table = self.text.partition("\n| Function | Value |\n")[2].partition("\n\n")[0]
        names = set(re.findall(r"`([a-z_]+)(?:\([a-z, ]*\))?`", re.sub(r"\|[^|]*\|\n", "|\n", table + "\n")))
        self.assertEqual({it.encode() for it in names} - {b"concat"}, set(details.COUNTS))


class Structures(unittest.TestCase):
    def test_what_is_no_program_is_none(self):
        for source, word in (
            (b"cube(1", "Expected"),
            (b"cube(1));", "Expected"),
            (b"x = ;", "Expected"),
            (b"{" * 129, "Nested"),
            (b"module m cube(1);", "Expected"),
            (b"x = (1;", "Expected"),
            (b"f(1)(2);", "Expected"),
        ):
            with self.assertRaises(NoProgram) as caught:
                structure_of(tokens([source]))
            self.assertEqual(caught.exception.word, word, source)

    def test_each_source_of_the_repository_is_a_program(self):
        for folder in ("examples", "gallery"):
            for name in sorted(os.listdir(os.path.join(TOP, folder))):
                if name.endswith(".scad"):
                    with open(os.path.join(TOP, folder, name), "rb") as it:
                        structure_of(tokens(it.read().split(b"\n")))


@needs_program
class Causes(Calls):
    def setUp(self):
        super().setUp()
        self.environment["SCADSERVE"] = PROGRAM

    def test_each_fault_says_which(self):
        for number, (source, _, _) in enumerate(CASES):
            self.write(f"{number}.scad", source)
        status, _, error = self.call("-d", "out", *(f"{it}.scad" for it in range(len(CASES))))
        self.assertEqual(status, 1)
        said = dict(re.findall(r"^(\d+)\.scad:\d+:\d+: error: (.*)$", error.decode(), re.MULTILINE))
        for number, (source, word, wanted) in enumerate(CASES):
            with self.subTest(source):
                self.assertEqual(said.get(str(number)), f"{word}: {wanted}")

    def test_cures_name_what_is_near(self):
        for source, cure in (("cube(sise = 2);", "write size"), ("cube(2, 3, 4);", "several numbers of one argument"),
                             ("cube(0.01);", "leave it out: touching faces are exact"), ("cube(0.5);", "off2stl --unit 1/10"),
                             ("\ufeffcube(1);", "save without it"), ("w = abs(n = 2);", "leave out n =")):
            said = self.call(self.write("part.scad", source))[2].decode()
            self.assertIn(f"    cure: {cure}", said.replace("write lengths in tenths, 25 for 2.5, and print by ", ""))


@needs_program
class Callers(Calls):
    """The calls that led to a fault: of several that stand in a source, those that did."""

    def setUp(self):
        super().setUp()
        self.environment["SCADSERVE"] = PROGRAM

    def notes(self, *words):
        """The places of the calls."""
        error = self.call("part.scad", *words)[2].decode()
        return re.findall(r"^(.*): note: called here$", error, re.MULTILINE)

    def test_the_calls_that_led_there_are_told(self):
        rod = "module rod(r) { assert(r > 2); cube(r); }\n"
        for source, places in (
            ("cube(0);", []),
            (rod + "rod(1);", ["2:1"]),
            (rod + "rod(3); rod(1); rod(0);", ["2:9"]),
            (rod + "module two(r) { rod(r + 1); rod(r); }\ntwo(3);\ntwo(2);", ["2:29", "4:1"]),
            (rod + "module two(r) { rod(r + 1); rod(r); }\nmodule four(r) { two(r); two(r - 1); }\nfour(9);\nfour(3);",
             ["2:29", "3:26", "5:1"]),
            # (a fault in the call's own argument is told where it stands, and nothing led there)
            (rod + "rod(3); rod(1 / 2);", []),
            # (by way of itself the call from outside led there)
            ("module down(n) { cube(n - 2); down(n - 1); }\nif (false) down(1);\ndown(4);", ["3:1"]),
            ("module a(n) { cube(n); b(n - 1); }\nmodule b(n) { a(n); }\nb(3); a(2);", ["2:15", "1:24"]),
            (
                "function half(n) = n / 2;\nfunction f(n) = half(n) + half(n + 2);\nx = f(2); y = f(3); z = f(4);",
                ["2:17", "3:15"],
            ),
            # (children are evaluated for the module that has them, and stand in the source at their own place)
            (rod + "module at() children();\nat() rod(3); at() rod(1);", ["3:19"]),
            # (a module in a body is told by the call of the one around it)
            ("module m(r) { module n() cube(r); n(); }\nm(1); m(0);", ["2:7"]),
            # (which of two definitions is meant is not told)
            ("module m(r) cube(r);\nmodule o() { module m(r) cube(r); m(0); }\no(); m(1);", ["3:1"]),
            ("module m(r) cube(r);\nmodule o() { module m(r) cube(r); }\nm(1); m(0);", []),
        ):
            with self.subTest(source):
                self.write("part.scad", source)
                self.assertEqual(self.notes(), [f"part.scad:{it}" for it in places])

    def test_faults_of_placing_have_calls_too(self):
        self.write("part.scad", "module far(x) translate([x, 0, 0]) cube(9);\nfar(1);\nfar(4090); far(5);")
        self.assertEqual(self.notes(), ["part.scad:3:1"])

    def test_an_assignment_behind_the_source_may_lead_there(self):
        self.write("part.scad", "function half(n) = n / 2;\nw = 2; x = half(4);")
        self.assertEqual(self.notes("-D", "w = half(3)"), ["-D w = half(3)"])

    def test_a_call_in_another_file_is_told_there(self):
        self.write("lib.scad", "w = 1;\nmodule rod(r) cube(r - w);\nmodule both(r) { rod(r); rod(r - 1); }")
        self.write("part.scad", "use <lib.scad>\nw = 5; rod(w);\nboth(4); both(2);")
        self.assertEqual(self.notes(), ["lib.scad:3:26", "part.scad:3:10"])

    def test_half_units_are_asked_for_again(self):
        self.write("part.scad", "module m(n) cube(n, center = true);\nm(1); m(2); m(0);")
        self.assertEqual(self.notes("--half"), ["part.scad:2:13"])

    def test_a_source_without_room_for_copies_is_told_without_them(self):
        body = "".join(f"cube(1 + {it} * n);\n" for it in range(1_000))
        self.write("part.scad", f"module m(n) {{\n{body} cube(n); }}\n" + "m(1);\n" * 40 + "m(0);")
        self.assertEqual(self.notes(), [])

    def test_the_server_answers_a_source_and_its_copies_alike(self):
        script = Script()
        client = script.client("a")
        client.source([b"module m(r) cube(r); _0(0); module _0(r) cube(r);"])
        at = client.export()
        self.assertEqual(run([script], [PROGRAM])[0]["a"][at].column, 42)


if __name__ == "__main__":
    unittest.main()
