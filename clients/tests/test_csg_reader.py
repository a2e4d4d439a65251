"""The reader of OpenSCAD's evaluated form: values, marks, places and faults."""

import math
import unittest

from scadserve.openscad import reader
from scadserve.openscad.reader import CsgFault, printed, read


class Nodes(unittest.TestCase):
    def test_a_text_as_openscad_writes_it(self):
        [node] = read(
            "multmatrix([[1, 0, 0, -2.5], [0, 1, 0, 0], [0, 0, 1, 1e+06], [0, 0, 0, 1]]) {\n"
            "\tcylinder($fn = 0, $fa = 12, $fs = 2, h = 3, r1 = .5, r2 = 0, center = true);\n%\tcube(size = [1, 2, 3]);\n}\n\n"
        )
        self.assertEqual((node.name, node.line, node.column, node.marks), ("multmatrix", 1, 1, ""))
        self.assertEqual(node.arguments[""][0], [1.0, 0.0, 0.0, -2.5])
        self.assertEqual(node.arguments[""][2], [0.0, 0.0, 1.0, 1e6])
        cylinder, cube = node.children
        self.assertEqual(cylinder.arguments, {"$fn": 0, "$fa": 12, "$fs": 2, "h": 3, "r1": 0.5, "r2": 0, "center": True})
        self.assertEqual((cube.marks, cube.line, cube.column), ("%", 3, 3))
        self.assertEqual([it.name for it in node.shown()], ["cylinder"])

    def test_values(self):
        [node] = read("polygon(points = [[0, 0], [-nan, inf]], paths = undef, convexity = true);")
        self.assertTrue(math.isnan(node.arguments["points"][1][0]))
        self.assertEqual(node.arguments["points"][1][1], math.inf)
        self.assertEqual((node.arguments["paths"], node.arguments["convexity"]), (None, True))

    def test_a_text_has_no_escapes_and_may_hold_quotation_marks(self):
        [node] = read('text(text = "a "b"\n\\c", size = 10, font = "");')
        self.assertEqual((node.arguments["text"], node.arguments["size"], node.arguments["font"]), ('a "b"\n\\c', 10, ""))
        self.assertEqual(printed([node]), 'text(text = "a \\"b\\"\\n\\\\c", size = 10.0, font = "");\n')

    def test_of_what_is_marked_as_root_the_first_is_all(self):
        nodes = read("group() { cube(size = 1); !sphere(r = 2); }\n!cube(size = 3);")
        self.assertEqual([it.name for it in nodes], ["sphere"])

    def test_names_of_files_are_made_absolute_and_what_is_not_shown_is_not_printed(self):
        nodes = read('linear_extrude(height = 1) { import(file = "a.dxf", timestamp = 5); *square(size = [1, 1]); }')
        said = printed(nodes, {"a.dxf": "/x/a.dxf"})
        self.assertEqual(said, 'linear_extrude(height = 1.0) { import(file = "/x/a.dxf");\n }\n')

    def test_deep_texts(self):
        depth = reader.DEEPEST - 1
        [node] = read("group() {" * depth + "cube(size = 1);" + "}" * depth)
        self.assertEqual(sum(1 for _ in node.all()), depth + 1)
        with self.assertRaises(CsgFault) as caught:
            read("group() {" * (depth + 2))
        self.assertEqual(caught.exception.word, "Nested")


class Faults(unittest.TestCase):
    def assert_fault(self, text, line, column):
        with self.assertRaises(CsgFault) as caught:
            read(text)
        self.assertEqual((caught.exception.line, caught.exception.column), (line, column), caught.exception)

    def test_each_has_its_place(self):
        self.assert_fault("group() {\n  cube(size = 1)\n}", 3, 1)  # (a ; or a { is missing)
        self.assert_fault("group() {\n", 2, 1)
        self.assert_fault("cube(size = );", 1, 13)
        self.assert_fault("cube(size 1);", 1, 11)
        self.assert_fault("cube(size = 1, );", 1, 16)
        self.assert_fault("}", 1, 1)
        self.assert_fault("cube(size = 1);\n $", 2, 2)
        self.assert_fault("cube(size = [1, 2);", 1, 18)
        self.assert_fault("cube(size = 1, size = 2);", 1, 16)
        self.assert_fault('text(text = "a", b = "c", size = 10);', 1, 18)  # (of the text: a", b = "c)

    def test_numbers_that_are_wanted(self):
        [node] = read("cylinder($fn = [1, inf, 2], h = true);")
        for call in (
            lambda: node.numbers("$fn", 3), lambda: node.numbers("$fn", 2), lambda: node.number("h"), lambda: node.number("r")
        ):
            with self.assertRaises(CsgFault) as caught:
                call()
            self.assertEqual((caught.exception.word, caught.exception.said[:10]), ("BadArgument", "cylinder: "))


if __name__ == "__main__":
    unittest.main()
