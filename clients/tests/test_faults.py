"""Each word that the program answers has a line and a cure, and a section in docs/FAULTS.md."""

import os
import re
import tempfile
import unittest

from scadserve.source import faults
from tests.calls import TOP, Calls

WORDS = {*faults.FAULTS, *faults.LIMITS, *faults.COMPLEX, "complex", "nomem", "Empty"}


def text_of(*path):
    with open(os.path.join(TOP, *path), encoding="utf-8") as it:
        return it.read()


class Tables(unittest.TestCase):
    def test_each_kind_of_fault_of_the_program_has_a_line_and_a_cure(self):
        kinds = re.findall(r'FaultKind::\w+ => "(\w+)"', text_of("crates", "text_place", "src", "fault.rt"))
        self.assertEqual(sorted(faults.FAULTS), sorted(kinds))

    def test_each_word_of_a_session_and_of_a_script_has_a_line_and_a_cure(self):
        tables = re.findall(r"\n\| Fault \| Where \|\n\|---\|---\|\n((?:\|.*\n)+)", text_of("docs", "SPECIFICATION.md"))
        script = [re.match(r"\| (\w+)", it)[1] for it in tables[0].splitlines()]
        self.assertEqual(script[:2], ["TooLarge", "TooLong"])
        section = text_of("docs", "SPECIFICATION.md").partition("\n## Sessions\n")[2].partition("\n## ")[0]
        session = re.findall(r"(?<=\| |; )[A-Z]\w+(?= where| unless)", section) + ["BadCommand"]
        self.assertEqual(sorted(faults.LIMITS), sorted({*script, *session}))

    def test_lines_and_cures_are_short(self):
        for table in (faults.FAULTS, faults.LIMITS, faults.COMPLEX):
            for word, (said, cure) in table.items():
                with self.subTest(word=word):
                    self.assertLess(len(word + said), 110)
                    self.assertLess(len(cure), 110)
                    self.assertNotIn("\n", said + cure)


class Lines(unittest.TestCase):
    CASES = [
        ("NotWhole", b"cube(2.5);", 6, "2.5 is not a whole number"),
        ("NotWhole", b"cube(.5e1);", 6, ".5e1 is not a whole number"),
        ("NotWhole", b"w = 7 / 2;", 7, "what / gives is not a whole number"),
        ("NotWhole", b"w = pow(2, -1);", 5, "what pow gives is not a whole number"),
        ("TooLarge", b"w = 9007199254740992;", 5, "9007199254740992 is past 2^53 - 1"),
        ("TooLarge", b"w = pow(2, 53);", 5, "what pow gives is past 2^53 - 1"),
        ("TooLarge", b"w = a + b;", 7, "what + gives is past 2^53 - 1"),
        ("TooLarge", b"multmatrix([[1, 70000, 0, 0]]) cube(1);", 1, "70000 in multmatrix is past 65,535"),
        ("TooLarge", b"multmatrix(m) cube(1);", 1, "a factor of multmatrix is past 65,535, or a move past 2^53 - 1 grid steps"),
        ("TooLarge", b"translate([m, m, m]) cube(1);", 1, "what translate moves a point to is past 2^53 - 1 grid steps"),
        ("TooLarge", b"cube(m);", 1, "a length of cube is past 2^53 - 1 grid steps"),
        ("UnknownName", b"cube($x);", 6, "$x has no value here"),
        ("UnknownModule", b"cub(1);", 1, "there is no module cub"),
        ("NotInProfile", b"x = 2 ^ 3;", 7, "^ is left out of this profile of OpenSCAD"),
        ("Expected", b"a >= >= b;", 6, ">= can't follow what stands before it"),
        ("Expected", b'a "b c" d', 3, '"b c" can\'t follow what stands before it'),
        ("Expected", b'"' + b"x" * 99, 1, '"' + "x" * 39 + ".. can't follow what stands before it"),
        ("Expected", None, 1, "the source ends in the middle of a statement"),
        ("NotInProfile", b"cylinder(2, r = 3);", 1, "this form of cylinder is left out of this profile of OpenSCAD"),
        (
            "NotInProfile",
            b"hull() difference() { cube(2); cube(1); }",
            1,
            "this form of hull is left out of this profile of OpenSCAD",
        ),
        ("BadCharacter", b"\xef\xbb\xbfcube(1);", 1, "a byte order mark can't stand here"),
        ("BadCharacter", b"x = \xef\xbb\xbf\xc3\xa4;", 5, "\\ufeffä can't stand here"),
        ("BadCharacter", b"cube(\x00);", 6, "\\x00 can't stand here"),
        ("OutOfRange", b"  cube(9999);", 3, "a coordinate of cube is past 4,095, or with --half past 2,047"),
        ("SomethingNew", b"cube(1);", 1, "SomethingNew"),
    ]

    def test_what_is_wrong_names_the_token_at_the_place(self):
        for word, line, column, said in self.CASES:
            with self.subTest(word=word, line=line):
                self.assertEqual(faults.what_is_wrong(word, line, column)[0], said)

    def test_forms_of_a_word_and_divisions_have_cures_of_their_own(self):
        for word, line, column, part in (
            ("NotInProfile", b"circle(3);", 1, "$fn = 4"),
            ("NotInProfile", b"cylinder(h = 2, d = 3);", 1, "twelve corners"),
            ("NotInProfile", b"sphere(3);", 1, "docs/OPENSCAD.md"),
            ("NotInProfile", b"rotate(90, [0, 0, 1]) cube(1);", 1, "docs/OPENSCAD.md"),
            ("NotInProfile", b"hull() difference() { cube(2); cube(1); }", 1, "make its cuts outside it"),
            ("NotWhole", b"cube(2.5);", 6, "off2stl --unit 1/10"),
            ("NotWhole", b"w = 7 / 2;", 7, "(w - w % 2) / 2"),
            ("NotWhole", b"cube(1E1);", 6, "without an exponent, 10 for 1e1"),
            ("BadCharacter", b"cube(0x10);", 7, "names begin with a letter or _"),
            ("NotWhole", b"cube(0.01);", 6, "leave it out: touching faces are exact"),
            ("NotWhole", b"cube(.001);", 6, "leave it out: touching faces are exact"),
            ("NotWhole", b"cube(0.1);", 6, "off2stl --unit 1/10"),
            ("BadCharacter", b"cube(\x00);", 6, "without a byte order mark"),
            ("BadCharacter", b"\xef\xbb\xbfcube(1);", 1, "save without it"),
            ("BadCharacter", b"\xff\xfec\x00", 1, "save without it, as plain text in UTF-8"),
            ("BadCharacter", b"x = \xef\xbb\xbf1;", 5, "any byte may stand in comments"),
        ):
            with self.subTest(line=line):
                self.assertIn(part, faults.what_is_wrong(word, line, column)[1])
        for cure in [*faults.FORMS.values(), faults.EVEN]:
            self.assertLess(len(cure), 110)


class Explanations(Calls):
    DOCUMENT = "# Faults\n\nOf each.\n\n## NotWhole\n\n    cube(2.5);\n\nA cause.\n\n### Cure\n\nx\n\n## Empty\n\nNothing.\n"

    def test_a_section_is_what_stands_below_its_heading(self):
        with tempfile.NamedTemporaryFile("w", suffix=".md") as it:
            it.write(self.DOCUMENT)
            it.flush()
            self.assertEqual(
                faults.explanation("NotWhole", it.name), "## NotWhole\n\n    cube(2.5);\n\nA cause.\n\n### Cure\n\nx\n"
            )
            self.assertEqual(faults.explanation("empty", it.name), "## Empty\n\nNothing.\n")
            for word in ("Whole", "", "Cure", "Faults", "NotWhole\n"):
                self.assertIsNone(faults.explanation(word, it.name), word)

    @unittest.skipUnless(os.path.isfile(faults.DOCUMENT), "docs/FAULTS.md is not there")
    def test_each_word_is_explained(self):
        for word in sorted(WORDS):
            with self.subTest(word=word):
                self.assertIsNotNone(faults.explanation(word))
        status, out, error = self.call("--explain", "NotWhole")
        self.assertEqual((status, error), (0, b""))
        self.assertTrue(out.startswith(b"## NotWhole\n"), out)

    @unittest.skipUnless(os.path.isfile(faults.DOCUMENT), "docs/FAULTS.md is not there")
    def test_an_unknown_word_is_told(self):
        self.assertEqual(
            self.call("--explain", "Nonsense"), (
                2, b"", b"scad2off: neither docs/FAULTS.md nor docs/differences.txt explains Nonsense\n"
            )
        )


if __name__ == "__main__":
    unittest.main()
