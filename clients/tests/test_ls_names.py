"""What an editor is told about names: hover, completion, definitions, outlines. What each name means was worked out by hand."""

import os
import unittest

from scadserve.editor import built_in
from tests.calls import TOP
from tests.editor import Case, about, place

TEXT = """// the width
// of all
w = 30;
function twice(n) = 2 * n;
module plate(w, d = twice(2)) {
  t = w;
  for (i = [0 : 2], j = [i : 3]) translate([i, j, 0]) cube([w, d, t]);
}
plate(w, d = 4);
sphere(3); other();
"""


class Hover(Case):
    def hover(self, pattern, text=TEXT, capabilities=None):
        editor, uri = self.text(text, capabilities=capabilities)
        found = editor.ask("textDocument/hover", about(uri, text, pattern))
        return found and found["contents"]["value"]

    def test_own_names(self):
        editor, uri = self.text(TEXT)
        for pattern, said in (
            ("(w) = 30", "```openscad\nw = 30;\n```\n\nthe width  \nof all\n\nvariable, line 3"),
            (r"plate\((w), d = 4", "```openscad\nw = 30;\n```\n\nthe width  \nof all\n\nvariable, line 3"),
            ("t = (w);", "```openscad\nw\n```\n\nparameter, line 5"),
            ("(plate).w, d = 4", "```openscad\nmodule plate(w, d = twice(2))\n```\n\nmodule, line 5"),
            ("= (twice)", "```openscad\nfunction twice(n) = 2 * n;\n```\n\nfunction, line 4"),
            ("w, (d) = 4", "```openscad\nd = twice(2)\n```\n\nparameter, line 5"),
            (r"\[(i) :", "```openscad\ni = [0 : 2]\n```\n\nvariable of a loop, line 7"),
        ):
            with self.subTest(pattern):
                found = editor.ask("textDocument/hover", about(uri, TEXT, pattern))
                self.assertEqual(found["contents"], {"kind": "markdown", "value": said})

    def test_what_is_built_in(self):
        editor, uri = self.text(TEXT)
        for pattern, said in (
            ("(cube)", "cube(size, center)"),
            ("(translate)", "parameters in order: `v`"),
            ("(for)", "for (i = [a : step : b])"),
            ("(sphere)", "left out: NotInProfile. Instead: unions of boxes"),
            ("(module)", "up to 64 nested calls"),
        ):
            with self.subTest(pattern):
                self.assertIn(said, editor.ask("textDocument/hover", about(uri, TEXT, pattern))["contents"]["value"])
        for pattern in ("(other)", "(30)", "(=)", "(the width)"):
            self.assertIsNone(editor.ask("textDocument/hover", about(uri, TEXT, pattern)), pattern)

    def test_a_variable_of_a_built_in_name_is_not_built_in(self):
        self.assertIn("abs = 3;", self.hover("x = (abs)", "abs = 3;\nx = abs;\n"))
        self.assertIsNone(self.hover("x = (abs)", "x = abs;\n"))

    def test_an_editor_that_shows_plain_text(self):
        editor, uri = self.text(TEXT, capabilities={"textDocument": {"hover": {"contentFormat": ["plaintext"]}}})
        self.assertEqual(editor.ask("textDocument/hover", about(uri, TEXT, "(w) = 30"))["contents"]["kind"], "plaintext")

    def test_the_page_says_something_of_each_name(self):
        with open(os.path.join(TOP, "docs", "LANGUAGE.md"), encoding="utf-8") as it:
            language = it.read()
        for name in built_in.ALL:
            self.assertIsNotNone(built_in.about(name), name)
        for name in (built_in.ALL - built_in.LEFT_OUT) | {"sphere", "text", "sqrt", "let"}:
            self.assertTrue(built_in.entries().get(name), name)
        for name in (built_in.LEFT_OUT_FUNCTIONS | built_in.LEFT_OUT_MODULES | built_in.MODULES) - {"import", "text"}:
            self.assertIn(f"`{name}", language, name)


class Completion(Case):
    def words(self, text, pattern="(@)"):
        """The words that can stand at the sign in a text, by their kind in the protocol."""
        at = place(text, pattern)
        editor, uri = self.text(text.replace("@", ""))
        found = editor.ask("textDocument/completion", {"textDocument": {"uri": uri}, "position": at})["items"]
        self.assertEqual(len({it["label"] for it in found if it["kind"] != 5}), len([it for it in found if it["kind"] != 5]))
        self.parameters = [it["insertText"] for it in found if it["kind"] == 5]
        return {it["label"]: it for it in found}

    def test_a_statement(self):
        found = self.words(TEXT + "@")
        self.assertTrue({"plate", "w", "cube", "for", "module", "difference"} <= set(found))
        self.assertFalse({"twice", "t", "d", "i", "abs", "true"} & set(found))
        self.assertEqual(found["plate"]["detail"], "module plate(w, d = twice(2))")

    def test_a_value(self):
        found = self.words(TEXT + "x = tw@;")
        self.assertTrue({"twice", "w", "abs", "true", "undef", "$fn"} <= set(found))
        self.assertFalse({"plate", "cube", "for", "t", "i"} & set(found))

    def test_the_scopes_around(self):
        found = self.words("a = 1; module m(p) { b = 2; for (i = [0 : 3]) { c = 3; @ } d = 4; } module n(q) { e = 5; }")
        self.assertTrue({"a", "p", "b", "i", "c", "d", "m", "n"} <= set(found))
        self.assertFalse({"q", "e"} & set(found))

    def test_the_parameters_of_a_call(self):
        for text, parameters in (
            (TEXT + "plate(@", ["w = ", "d = "]),
            (TEXT + "plate(w = 3, @)", ["d = "]),
            (TEXT + "x = twice(@);", ["n = "]),
            ("cube(@);", ["size = ", "center = "]),
            ("translate([1, 2, 3]) cube(3, c@);", ["size = ", "center = "]),
            ("cube(3 + @);", []),
            ("cube([@]);", []),
            ("module m(@) cube(1);", []),
        ):
            with self.subTest(text):
                self.words(text)
                self.assertEqual(self.parameters, parameters)

    def test_where_nothing_is_written(self):
        for text in (
            "// a comment @", "/* a @ */", "/* a @", 'x = "te@xt";', 'x = "te@', "module @", "x = 3@;", "function f@(x) = 1;"
        ):
            self.assertEqual(self.words(text), {}, text)
        for text in ("/* a */@", 'x = "text" @', "// a comment\n@", "x = 3 @"):
            self.assertNotEqual(self.words(text), {}, text)

    def test_the_word_that_is_written_is_none_of_them(self):
        self.assertNotIn("wid", self.words("width = 3;\nwid@\n"))
        self.assertIn("width", self.words("width = 3;\nwid@\n"))

    def test_texts_that_are_no_program(self):
        for text in (
            "w = 3;\nmodule m(p) {\n  q = 2;\n  translate([@\n",
            "w = 3 \nmodule m(p) {\n  q = 2;\n  cube([p, q, @\n}\nm(2;\n",
            "w = ;\nmodule m(p) {\n  q = 2 2;\n  for (i = ) cube(@ }\n",
            "}\nw = 3;\nmodule m(p) {\n  q = 2;\n  cube(p) sphere(@);\n}\nmodule n() {\n",
        ):
            with self.subTest(text):
                self.assertTrue({"w", "p", "q"} <= set(self.words(text)), set(self.words(text)))

    def test_names_of_other_files(self):
        self.write("lib.scad", "k = 1; module of_lib(size) cube(size); function f_lib(x) = x;")
        found = self.words("use <lib.scad>\n@")
        self.assertIn("of_lib", found)
        self.assertNotIn("k", found)
        self.assertTrue({"k", "f_lib"} <= set(self.words("include <lib.scad>\nx = @")))
        self.assertIn("size", self.words("use <lib.scad>\nof_lib(@"))


class Definition(Case):
    def places(self, editor, uri, text, pattern):
        return [
            (os.path.basename(it["uri"]), it["range"]["start"])
            for it in editor.ask("textDocument/definition", about(uri, text, pattern))
        ]

    def assert_defined(self, text, pattern, where):
        """The name at a place of a text is defined at that other one alone."""
        editor, uri = self.text(text)
        self.assertEqual(self.places(editor, uri, text, pattern), [("part.scad", place(text, where))])

    def test_scopes(self):
        for text, pattern, where in (
            ("x = 1; module m() { x = 2; cube(x); }", r"cube\((x)", "{ (x)"),
            # (the value of an assignment sees what is bound before it alone)
            ("x = 1; module m() { y = x; x = 2; cube(y); }", r"y = (x)", "^(x)"),
            ("x = 1; module m() { x = x + 1; cube(x); }", r"(x) \+", "^(x)"),
            ("n = 1; function f(n, k = n) = n + k;", r"k = (n)", "^(n)"),
            ("n = 1; function f(n, k = n) = n + k;", r"\) = (n)", r"f\((n)"),
            ("i = 1; for (i = [i : 3]) cube(i);", r"\[(i)", "^(i)"),
            ("i = 1; for (i = [i : 3]) cube(i);", r"cube\((i)", r"for \((i)"),
            ("for (i = [0 : 3], j = [i : 3]) cube(j);", r"= \[(i) :", r"for \((i)"),
            ("m() { x = 1; cube(x); } x = 2; module m() children();", r"cube\((x)", r"\{ (x)"),
            ("x = 2; m(x) { x = 1; cube(x); } module m(a) children();", r"m\((x)", "^(x)"),
            ("{ x = 1; } cube(x);", r"cube\((x)", r"\{ (x)"),
            ("if (true) { x = 1; cube(x); } else cube(x); x = 3;", r"else cube\((x)", r"(x) = 3"),
            ("module m() { module n() cube(1); n(); } module n() cube(2);", r"; (n)\(\);", r"\{ module (n)"),
            ("module m() { n(); } module n() cube(2);", r"\{ (n)", r"module (n)"),
            ("module n() cube(1); module n() cube(2); n();", r"; (n)\(\);", r"1\); module (n)"),
            ("x = 1; function x() = 2; y = x();", r"= (x)\(\)", r"function (x)"),
            ("x = 1; function x() = 2; y = x;", r"= (x);", r"^(x)"),
            ("y = let (a = 1, b = a) a + b; a = 2;", r"\) (a) \+", r"let \((a)"),
            ("a = 2; y = [let (a = 1) a, a];", r", (a)\]", r"^(a)"),
            ("a = 2; y = true ? let (a = 1) a : a;", r": (a);", r"^(a)"),
            ("f = function (k) k + 1; y = f(3);", r"(f)\(3", r"^(f)"),
            ("f = function (k) k + 1; y = f(3);", r"\) (k)", r"\((k)"),
            ("module m(size) cube(size); m(size = 3);", r"m\((size) =", r"m\((size)\)"),
        ):
            with self.subTest(text, pattern=pattern):
                self.assert_defined(text, pattern, where)

    def test_all_assignments_of_a_scope(self):
        text = "x = 1; x = 2; cube(x);"
        editor, uri = self.text(text)
        self.assertEqual(
            [it[1] for it in self.places(editor, uri, text, r"cube\((x)")], [place(text, "^(x)"), place(text, "; (x)")]
        )

    def test_a_function_that_may_be_called_before_a_variable_is_bound(self):
        text = "x = 1; module m() { y = f(); x = 2; function f() = x; cube(y); }"
        editor, uri = self.text(text)
        found = [it[1] for it in self.places(editor, uri, text, r"\) = (x)")]
        self.assertEqual(found, [place(text, r"; (x) = 2"), place(text, "^(x)")])

    def test_what_is_built_in_is_defined_nowhere(self):
        text = "cube(size = 3); x = $fn + other;"
        editor, uri = self.text(text)
        for pattern in ("(cube)", "(size)", r"(\$fn)", "(other)", "(3)"):
            self.assertEqual(self.places(editor, uri, text, pattern), [], pattern)

    def test_other_files(self):
        self.write("lib.scad", "// a library\nk = 1;\nmodule of_lib(size) cube(size);\n")
        self.write("more.scad", "module more() cube(1);\n")
        text = "use <more.scad>\ninclude <lib.scad>\nof_lib(k); more();\nof_lib(size = 2);\n"
        editor, uri = self.text(text)
        for pattern, found in (
            ("(of_lib)", ("lib.scad", {"line": 2, "character": 7})),
            (r"of_lib\((k)", ("lib.scad", {"line": 1, "character": 0})),
            ("(more)\\(", ("more.scad", {"line": 0, "character": 7})),
            ("(size) =", ("lib.scad", {"line": 2, "character": 14})),
            ("<(more)", ("more.scad", {"line": 0, "character": 0})),
            ("(include)", ("lib.scad", {"line": 0, "character": 0})),
        ):
            self.assertEqual(self.places(editor, uri, text, pattern), [found], pattern)

    def test_the_text_that_is_open_counts(self):
        self.write("lib.scad", "module of_lib() cube(1);\n")
        text = "use <lib.scad>\nof_lib();\n"
        editor, uri = self.text(text)
        lib = self.opened(editor, "lib.scad", "\n\nmodule of_lib() cube(1);\n")
        self.assertEqual(self.places(editor, uri, text, "(of_lib)"), [("lib.scad", {"line": 2, "character": 7})])
        self.change(editor, lib, 2, {"text": "\nmodule of_lib() cube(1);\n"})
        self.assertEqual(self.places(editor, uri, text, "(of_lib)"), [("lib.scad", {"line": 1, "character": 7})])

    def test_a_file_that_is_changed_by_others(self):
        self.write("lib.scad", "module of_lib() cube(1);\n")
        text = "use <lib.scad>\nof_lib();\n"
        editor, uri = self.text(text)
        for line in range(3):
            self.write("lib.scad", "\n" * line + "module of_lib() cube(1);\n")
            os.utime(self.path("lib.scad"), (line, line))
            self.assertEqual(self.places(editor, uri, text, "(of_lib)"), [("lib.scad", {"line": line, "character": 7})])

    def test_files_that_are_not_there_hide_nothing_else(self):
        text = "include <none.scad>\nuse <part.scad>\nw = 1;\ncube(w);\n"
        editor, uri = self.text(text)
        self.assertEqual(self.places(editor, uri, text, r"cube\((w)"), [("part.scad", place(text, "(w) ="))])
        self.assertEqual(self.places(editor, uri, text, "<(none)"), [])

    def test_places_behind_other_letters(self):
        text = "/* \U0001f600\u00e9 */ w = 1; /* \U0001f600 */ cube(w);\n"
        self.assert_defined(text, r"cube\((w)", "(w) =")


class Outline(Case):
    NESTED = {"textDocument": {"documentSymbol": {"hierarchicalDocumentSymbolSupport": True}}}

    def outline(self, text):
        editor, uri = self.text(text, capabilities=self.NESTED)

        def short(it):
            return (it["name"], it["kind"], [short(of) for of in it["children"]])

        return [short(it) for it in editor.ask("textDocument/documentSymbol", {"textDocument": {"uri": uri}})]

    def test_names_in_one_another(self):
        self.assertEqual(
            self.outline(TEXT + "module outer() { module inner() { a = 1; } }"),
            [("w", 13, []), ("twice", 12, []), ("plate", 2, [("t", 13, [])]), ("outer", 2, [("inner", 2, [("a", 13, [])])])],
        )

    def test_their_places(self):
        editor, uri = self.text(TEXT, capabilities=self.NESTED)
        [_, _, plate] = editor.ask("textDocument/documentSymbol", {"textDocument": {"uri": uri}})
        self.assertEqual(plate["selectionRange"], {"start": {"line": 4, "character": 7}, "end": {"line": 4, "character": 12}})
        self.assertEqual(plate["range"], {"start": {"line": 4, "character": 0}, "end": {"line": 7, "character": 1}})

    def test_in_a_list(self):
        editor, uri = self.text("module m() { a = 1; }")
        found = editor.ask("textDocument/documentSymbol", {"textDocument": {"uri": uri}})
        self.assertEqual(
            [(it["name"], it.get("containerName"), it["location"]["uri"]) for it in found], [("m", None, uri), ("a", "m", uri)]
        )

    def test_the_names_of_the_file_alone(self):
        self.write("lib.scad", "k = 1; module of_lib() cube(1);")
        self.assertEqual(self.outline("include <lib.scad>\nw = 1;\n"), [("w", 13, [])])

    def test_texts_that_are_no_program(self):
        m, n = ("m", 2, [("x", 13, [])]), ("n", 2, [])
        for text, found in (
            ("module m() {\n  x = 1;\n  cube(\n}\nmodule n() cube(1);\n", [m, n]),
            ("module m() {\n  x = 1\n}\nmodule n() cube(1);\n", [m, n]),
            ("module m() {\n  x = 1;\n", [m]),
            ("w = [1, 2\nmodule n() cube(1);\n", [("w", 13, []), n]),
            ("trans\nmodule n() cube(1);\n", [n]),
            (")) ]\nmodule n() cube(1);\n", [n]),
            ("module n(", [n]),
            ("module m() { x = 1; } }\nmodule n() cube(1);\n", [m, n]),
            ("/* open\nmodule n() cube(1);\n", []),
        ):
            with self.subTest(text):
                self.assertEqual(self.outline(text), found)


if __name__ == "__main__":
    unittest.main()
