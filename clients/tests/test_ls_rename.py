"""Renames by the language server: what is changed and what is refused. Each result was written by hand."""

import os
import pathlib
import unittest
from unittest import mock

from scadserve.editor import documents, framing
from tests.editor import Case, about, applied


class Renames(Case):
    def ask(self, text, pattern, new, **start):
        editor = self.editor()
        editor.start(**start)
        uri = self.opened(editor, "part.scad", text)
        return uri, editor.ask("textDocument/rename", {**about(uri, text, pattern), "newName": new})

    def assert_renamed(self, text, pattern, new, wanted):
        """A name of the file becomes another one, and all else stays. A name that is `n` in the wanted text is the new one."""
        uri, found = self.ask(text, pattern, new)
        self.assertEqual(list(found.get("changes", found)), [uri], found)
        self.assertEqual(applied(text, found["changes"][uri]), wanted)

    def assert_refused(self, text, pattern, new, said, **start):
        _, found = self.ask(text, pattern, new, **start)
        self.assertEqual(found.get("code"), framing.REQUEST_FAILED, found)
        self.assertIn(said, found["message"])


class OneFile(Renames):
    def test_variables_in_their_scopes(self):
        same = "x = 1; function x(x) = x; module x() cube(x(x)); x();"
        for text, pattern, wanted in (
            ("x = 1; module m() { x = 2; cube(x); } cube(x);", "^(x)", "n = 1; module m() { x = 2; cube(x); } cube(n);"),
            (
                "x = 1; module m() { x = 2; cube(x); } cube(x);",
                r"m.*\((x)\); \}",
                "x = 1; module m() { n = 2; cube(n); } cube(x);",
            ),
            ("x = 1; module m() { x = x + 1; cube(x); }", "^(x)", "n = 1; module m() { x = n + 1; cube(x); }"),
            ("x = 1; module m() { x = x + 1; cube(x); }", r"\{ (x)", "x = 1; module m() { n = x + 1; cube(n); }"),
            ("x = 1; x = 2; cube(x);", r"cube\((x)", "n = 1; n = 2; cube(n);"),
            ("x = 1; { x = 2; } cube(x);", r"cube\((x)", "n = 1; { n = 2; } cube(n);"),
            ("for (x = [0 : x]) cube(x); x = 3;", r"\((x) =", "for (n = [0 : x]) cube(n); x = 3;"),
            ("for (x = [0 : x]) cube(x); x = 3;", r"(x) = 3", "for (x = [0 : n]) cube(x); n = 3;"),
            (same, "^(x)", "n = 1; function x(x) = x; module x() cube(x(n)); x();"),
            (same, "function (x)", "x = 1; function n(x) = x; module x() cube(n(x)); x();"),
            (same, "module (x)", "x = 1; function x(x) = x; module n() cube(x(x)); n();"),
            (
                "a = [for (x = [0 : 2]) let (y = x) y + x, x]; x = 1;",
                r"\((x)",
                "a = [for (n = [0 : 2]) let (y = n) y + n, x]; x = 1;",
            ),
            (
                "m(x) { x = 1; cube(x); } x = 2; module m(a) children();",
                r"m\((x)",
                "m(n) { x = 1; cube(x); } n = 2; module m(a) children();",
            ),
            ("// x\nx = \"x\"; /* x */ echo(x); // x\n", "^// x\n(x)", "// x\nn = \"x\"; /* x */ echo(n); // x\n"),
            ("v = p.x; x = 1;", "; (x)", "v = p.x; n = 1;"),
            # (it has no value there: it is assigned later)
            ("y = x; x = 1;", "= (x)", "y = n; n = 1;"),
        ):
            with self.subTest(text, pattern=pattern):
                self.assert_renamed(text, pattern, "n", wanted)

    def test_parameters_with_the_arguments_of_calls(self):
        text = "module m(a, b) cube([a, b, 1]); module k(a) m(a = a, b = 2); function m(a) = a; x = m(a = 1);\nm(a = 3);"
        wanted = "module m(n, b) cube([n, b, 1]); module k(a) m(n = a, b = 2); function m(a) = a; x = m(a = 1);\nm(n = 3);"
        for pattern in (r"m\((a), b", r"\[(a)", r"m\((a) = a", r"m\((a) = 3"):
            self.assert_renamed(text, pattern, "n", wanted)

    def test_longer_and_shorter_names_on_one_line(self):
        self.assert_renamed(
            "x=1;y=x+x*x;cube(x);",
            "^(x)",
            "a_long_name",
            "a_long_name=1;y=a_long_name+a_long_name*a_long_name;cube(a_long_name);",
        )
        self.assert_renamed("long=1;y=long+long;", "^(long)", "n", "n=1;y=n+n;")

    def test_a_name_that_may_mean_either_of_two(self):
        text = "x = 1; module m() { y = f(); x = 2; function f() = x; cube(y); } module k() { x = 3; cube(x); }"
        wanted = "n = 1; module m() { y = f(); n = 2; function f() = n; cube(y); } module k() { x = 3; cube(x); }"
        for pattern in ("^(x)", r"; (x) = 2", r"= (x); cube"):
            self.assert_renamed(text, pattern, "n", wanted)

    def test_what_cannot_be_renamed(self):
        text = "$k = 1; x = abs(cube); cube(size = x, center = true); sphere(other); 3 + 4;"
        for pattern, said in (
            (r"(\$k)", "$k is a special variable"),
            ("(abs)", "abs is built in"),
            (r"(cube)\(size", "cube is built in"),
            ("(size)", "size is built in"),
            ("(true)", "true is a word of the language"),
            ("(sphere)", "sphere is built in"),
            ("(other)", "other is defined nowhere"),
            ("(3) \\+", "there is no name here"),
        ):
            with self.subTest(pattern):
                self.assert_refused(text, pattern, "n", said)
                editor, uri = self.text(text)
                found = editor.ask("textDocument/prepareRename", about(uri, text, pattern))
                self.assertIn(said, found["message"])

    def test_names_that_none_can_have(self):
        for new, said in (
            ("3d", "is not a name"),
            ("", "is not a name"),
            ("a b", "is not a name"),
            ("$x", "is not a name"),
            ("\u00e9", "is not a name"),
            ("for", "is a word"),
        ):
            self.assert_refused("x = 1; cube(x);", "^(x)", new, said)
        for new in ("cube", "sphere", "abs"):
            self.assert_refused("function m() = 1; x = m();", r"(m)\(\) = 1", new, f"{new} is built in")

    def test_clashes(self):
        for text, pattern in (
            ("x = 1; n = 2; cube(x);", "^(x)"),
            ("x = 1; module m() { n = 2; cube([x, n, 1]); }", "^(x)"),
            ("n = 1; module m() { x = 2; cube([x, n, 1]); }", r"\{ (x)"),
            ("x = 1; cube(n);", "^(x)"),
            ("module m(x, n) cube([x, n, 1]);", r"\((x)"),
            ("module x() cube(1); module n() cube(2); x();", "^module (x)"),
            ("module x() cube(1); module m() { module n() cube(2); x(); }", "^module (x)"),
            ("for (x = [0 : 2], n = [x : 3]) cube([x, n, 1]);", r"\((x)"),
            ("y = let (n = 1) x + n; x = 2;", r"; (x)"),
        ):
            with self.subTest(text):
                self.assert_refused(text, pattern, "n", "n has a meaning of its own where x stands")

    def test_the_same_name_where_it_meets_no_other(self):
        self.assert_renamed(
            "module m() { x = 1; cube(x); } module k() { n = 2; cube(n); }",
            "(x) = 1",
            "n",
            "module m() { n = 1; cube(n); } module k() { n = 2; cube(n); }",
        )
        self.assert_renamed(
            "x = 1; module n() cube(x); function n() = 2;", "^(x)", "n", "n = 1; module n() cube(n); function n() = 2;"
        )

    def test_the_name_that_it_has(self):
        _, found = self.ask("x = 1; cube(x);", "^(x)", "x")
        self.assertEqual(found, {"changes": {}})

    def test_a_text_that_is_no_program(self):
        self.assert_refused("x = 1;\ncube(x;\n", "^(x)", "n", "part.scad:2:7 is not a program yet")

    def test_what_is_asked_before(self):
        text = "w = 1; cube(w);"
        editor, uri = self.text(text)
        found = editor.ask("textDocument/prepareRename", about(uri, text, r"cube\((w)"))
        self.assertEqual(
            found, {"range": {"start": {"line": 0, "character": 12}, "end": {"line": 0, "character": 13}}, "placeholder": "w"}
        )

    def test_edits_of_a_version(self):
        text = "w = 1; cube(w);"
        can = {"workspace": {"workspaceEdit": {"documentChanges": True}}}
        uri, found = self.ask(text, "^(w)", "n", capabilities=can)
        [change] = found["documentChanges"]
        self.assertEqual(change["textDocument"], {"uri": uri, "version": 1})
        self.assertEqual(applied(text, change["edits"]), "n = 1; cube(n);")


class ManyFiles(Renames):
    LIB = "k = 1;\nmodule of_lib(size) cube([size, k, 1]);\nfunction f(x) = x + k;\n"

    def result(self, found):
        """The files that are changed, each with its new text."""
        changed = {}
        for uri, edits in found["changes"].items():
            name = os.path.basename(uri)
            changed[name] = applied(self.texts[name], edits)
        return changed

    def files(self, **texts):
        self.texts = {f"{name}.scad": text for name, text in texts.items()}
        for name, text in self.texts.items():
            self.write(name, text)

    def renamed(self, name, pattern, new, **start):
        editor = self.editor()
        editor.start(**start)
        uri = self.opened(editor, name, self.texts[name])
        return editor.ask("textDocument/rename", {**about(uri, self.texts[name], pattern), "newName": new})

    def test_all_files_that_use_it(self):
        self.files(
            lib=self.LIB,
            one="use <lib.scad>\nof_lib(size = f(2)); k = 3;\n",
            two="include <lib.scad>\nof_lib(k);\n",
            three="module of_lib() cube(1);\nof_lib();\n",
        )
        for name, pattern in (("lib.scad", "(of_lib)"), ("one.scad", "(of_lib)"), ("two.scad", "(of_lib)")):
            self.assertEqual(
                self.result(self.renamed(name, pattern, "box")),
                {
                    "lib.scad": self.LIB.replace("of_lib", "box"),
                    "one.scad": self.texts["one.scad"].replace("of_lib", "box"),
                    "two.scad": self.texts["two.scad"].replace("of_lib", "box"),
                },
            )
        found = self.result(self.renamed("two.scad", r"\((k)\)", "key"))
        self.assertEqual(found, {"lib.scad": self.LIB.replace("k", "key"), "two.scad": "include <lib.scad>\nof_lib(key);\n"})
        found = self.result(self.renamed("lib.scad", r"\((size)", "side"))
        self.assertEqual(set(found), {"lib.scad", "one.scad"})
        self.assertIn("of_lib(side = f(2))", found["one.scad"])

    def test_files_of_other_folders_of_the_editor(self):
        os.mkdir(self.path("sub"))
        self.files(lib=self.LIB)
        self.texts["user.scad"] = "use <../lib.scad>\nof_lib(2);\n"
        self.write("sub/user.scad", self.texts["user.scad"])
        found = self.renamed("lib.scad", "(of_lib)", "box", workspaceFolders=[{"uri": self.uri(""), "name": "all"}])
        self.assertEqual(set(self.result(found)), {"lib.scad", "user.scad"})

    def test_a_clash_in_another_file(self):
        self.files(lib=self.LIB, one="include <lib.scad>\nmodule box() cube(1);\nbox(); of_lib(2);\n")
        found = self.renamed("lib.scad", "(of_lib)", "box")
        self.assertIn("box has a meaning of its own where of_lib stands", found["message"])

    def test_a_file_outside_stays(self):
        os.mkdir(self.path("outside"))
        os.mkdir(self.path("inside"))
        self.write("outside/lib.scad", self.LIB)
        self.texts = {"inside/part.scad": "use <lib.scad>\nof_lib(2);\n"}
        editor = self.editor(folders=[self.path("outside")])
        editor.start(rootUri=self.uri("inside"))
        text = self.texts["inside/part.scad"]
        uri = self.opened(editor, "inside/part.scad", text)
        found = editor.ask("textDocument/rename", {**about(uri, text, "(of_lib)"), "newName": "box"})
        self.assertIn("which is outside of the folders of this work", found["message"])

    @unittest.skipIf(os.geteuid() == 0, "root may write all files")
    def test_a_file_that_cannot_be_written(self):
        self.files(lib=self.LIB, part="use <lib.scad>\nof_lib(2);\n")
        os.chmod(self.path("lib.scad"), 0o444)
        self.assertIn("which can't be written", self.renamed("part.scad", "(of_lib)", "box")["message"])

    def test_another_file_that_is_no_program(self):
        self.files(lib=self.LIB, one="use <lib.scad>\nof_lib(;\n", two="cube(;\n")
        self.assertIn("one.scad:2:8 is not a program yet", self.renamed("lib.scad", "(of_lib)", "box")["message"])

    def test_more_files_than_are_looked_at(self):
        self.files(lib=self.LIB, one="x = 1;", two="x = 2;")
        with mock.patch.object(documents, "MOST_FILES", 2), mock.patch("scadserve.editor.renaming.MOST_FILES", 2):
            self.assertIn("more than 2 sources", self.renamed("lib.scad", "(of_lib)", "box")["message"])

    def test_the_text_that_is_open_counts(self):
        self.files(lib=self.LIB, one="use <lib.scad>\nof_lib(2);\n")
        editor = self.editor()
        editor.start()
        new = "\n\n" + self.LIB
        uri = self.opened(editor, "lib.scad", new)
        one = self.opened(editor, "one.scad", "use <lib.scad>\ncube(1);  of_lib(2);\n")
        found = editor.ask("textDocument/rename", {**about(uri, new, "(of_lib)"), "newName": "box"})["changes"]
        self.assertEqual(found[uri][0]["range"]["start"], {"line": 3, "character": 7})
        self.assertEqual(found[one][0]["range"]["start"], {"line": 1, "character": 10})

    def test_references(self):
        self.files(lib=self.LIB, one="use <lib.scad>\nof_lib(size = f(2)); k = 3;\n")
        editor = self.editor()
        editor.start()
        uri = self.opened(editor, "lib.scad", self.LIB)
        found = editor.ask("textDocument/references", about(uri, self.LIB, "^(k)"))
        self.assertEqual(
            [(os.path.basename(it["uri"]), it["range"]["start"]["line"]) for it in found],
            [("lib.scad", 0), ("lib.scad", 1), ("lib.scad", 2)],
        )
        self.assertEqual(editor.ask("textDocument/references", about(uri, self.LIB, "(cube)")), [])

    def test_names_with_odd_letters_in_paths(self):
        self.texts = {}
        name = "a part#1 \u00e9%.scad"
        text = "w = 1; cube(w);"
        editor = self.editor()
        editor.start()
        uri = self.opened(editor, name, text)
        self.assertEqual(uri, pathlib.Path(self.folder, name).as_uri())
        self.write(name, text)
        found = editor.ask("textDocument/rename", {**about(uri, text, "^(w)"), "newName": "n"})
        self.assertEqual(applied(text, found["changes"][uri]), "n = 1; cube(n);")


if __name__ == "__main__":
    unittest.main()
