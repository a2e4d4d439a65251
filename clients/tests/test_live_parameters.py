"""The parameters of a source, from assignments and the comments of OpenSCAD's customizer, as OpenSCAD's manual has them."""

from __future__ import annotations

import unittest

from scadserve.live.parameters import Choice, Parameter, parameters

# Of the manual's page on the customizer, with other names, and whole numbers where it has fractions.
MANUAL = b"""/* [Drop down box:] */
// combo box for number
Numbers=2; // [0, 1, 2, 3]
// combo box for string
Strings="foo"; // [foo, bar, baz]
// labeled combo box for numbers
Labeled_values=10; // [10:L, 20:M, 30:XL]
// labeled combo box for string
Labeled_value="S"; // [S:Small, M:Medium, L:Large]
/*[ Slider ]*/
// slider widget for number with max. value
sliderWithMax =34; // [50]
// slider widget for number in range
sliderWithRange =34; // [10:100]
//step slider for number
stepSlider=2; //[0:5:100]
/* [Checkbox] */
//description
Variable = true;
/*[Spinbox] */
// spinbox with step size 23
Spinbox = 5; // 23
/* [Textbox] */
// Text box for string with max. length 8
String="length"; //8
/* [Special vector] */
Vector4=[12,34,44,23]; //[0:2:100]
/* [Hidden] */
debug = 1; // [0:1]
/* [Global] */
fragments = -4;
sum = 1 + 2;
other = Spinbox;
module part() { inner = 3; }
after = 4;
"""


def found(text: bytes) -> dict[str, Parameter]:
    return {it.name: it for it in parameters(text)}


class Customizer(unittest.TestCase):
    def test_the_example_of_the_manual(self) -> None:
        got = found(MANUAL)
        kinds = {name: it.kind for name, it in got.items()}
        numbers = ("Numbers", "Labeled_values", "sliderWithMax", "sliderWithRange", "stepSlider", "Spinbox", "fragments")
        texts = ("Strings", "Labeled_value", "String")
        wanted = {**dict.fromkeys(numbers, "number"), **dict.fromkeys(texts, "text"), "Variable": "truth", "Vector4": "list"}
        self.assertEqual(kinds, wanted)
        self.assertEqual(got["Numbers"].choices, [Choice(it, it) for it in "0123"])
        self.assertEqual(got["Strings"].choices, [Choice(f'"{it}"', it) for it in ("foo", "bar", "baz")])
        self.assertEqual(got["Labeled_values"].choices, [Choice("10", "L"), Choice("20", "M"), Choice("30", "XL")])
        self.assertEqual(
            got["Labeled_value"].choices, [Choice('"S"', "Small"), Choice('"M"', "Medium"), Choice('"L"', "Large")]
        )
        ranges = {name: (it.low, it.step, it.high) for name, it in got.items()}
        self.assertEqual(ranges["sliderWithMax"], ("0", None, "50"))
        self.assertEqual(ranges["sliderWithRange"], ("10", None, "100"))
        self.assertEqual(ranges["stepSlider"], ("0", "5", "100"))
        self.assertEqual(ranges["Spinbox"], (None, "23", None))
        self.assertEqual(ranges["String"], (None, None, "8"))
        self.assertEqual(ranges["Vector4"], ("0", "2", "100"))
        self.assertEqual(
            (got["Numbers"].section, got["Spinbox"].section, got["fragments"].section), ("Drop down box:", "Spinbox", "Global")
        )
        self.assertEqual((got["Variable"].description, got["Vector4"].description), ("description", ""))
        self.assertEqual((got["fragments"].value, got["Vector4"].value), ("-4", "[12,34,44,23]"))

    def test_the_place_of_a_value_is_counted_as_a_browser_counts(self) -> None:
        text = '// \U0001f600 ä\na = 12;\nb = "ö"; c = 3;\n'
        units = text.encode("utf-16-le")
        for it in parameters(text.encode()):
            self.assertEqual(units[2 * it.start : 2 * it.end].decode("utf-16-le"), it.value)
        self.assertEqual(list(found(text.encode())), ["a", "b", "c"])

    def test_a_source_that_is_no_program_has_its_parameters_too(self) -> None:
        self.assertEqual(list(found(b"a = 1;\nb = ;\nc = 2;\ncube(a")), ["a", "c"])
        self.assertEqual(found(b"a = 1; /* open"), {"a": Parameter("a", "number", "1", 4, 5)})

    def test_of_two_assignments_the_last_one_counts(self) -> None:
        self.assertEqual([(it.value, it.start) for it in parameters(b"a = 1;\na = 22;\n")], [("22", 11)])

    def test_only_what_stands_outside_of_bodies_and_calls(self) -> None:
        self.assertEqual(parameters(b"cube(size = 3);\nfor (i = [1 : 2]) cube(i);\nx = let (y = 1) y;\n"), [])

    def test_signs_in_texts_are_written_as_the_language_writes_them(self) -> None:
        [it] = parameters(b'a = "x"; // ["a, b":both, c"d]')
        self.assertEqual(it.choices, [Choice('"a, b"', "both"), Choice('"c\\"d"', 'c"d')])


if __name__ == "__main__":
    unittest.main()
