"""What is said about texts while one types: faults at their places, old ones ended, costly ones that cost no other text
anything.
"""

import os
import queue
import sys
import time
import unittest

from scadserve.source.sources import Spot
from scadserve.source.telling import Message
from tests.calls import PROGRAM, needs_program
from tests.editor import PATIENCE, STAND_IN_WORDS, Case, place

# A server that never answers a script with these words, and leaves a file while it runs and another one where it was ended.
SLOW = """import os, signal, subprocess, sys, time
script = sys.stdin.buffer.read()
if b"slow" not in script:
    sys.exit(subprocess.run({words!r} + sys.argv[1:], input=script).returncode)
def end(*_):
    if os.path.isdir({folder!r}):
        open({folder!r} + "/ended%d" % os.getpid(), "w").close()
    os._exit(1)
signal.signal(signal.SIGTERM, end)
open({folder!r} + "/began%d" % os.getpid(), "w").close()
time.sleep(100)
"""


class Checks(Case):
    def test_a_fault_with_its_place_and_cure(self):
        editor, uri = self.text("// \u00e9\n/* \U0001f600 */ cube(2.5);\n")
        [fault] = editor.diagnostics(uri)
        self.assertEqual(fault["range"], {"start": {"line": 1, "character": 14}, "end": {"line": 1, "character": 17}})
        self.assertEqual((fault["code"], fault["source"], fault["severity"]), ("NotWhole", "scadserve", 1))
        said, cure = fault["message"].split("\n")
        self.assertEqual(said, "2.5 is not a whole number")
        self.assertTrue(cure.startswith("cure: write lengths in tenths"), cure)

    def test_faults_come_and_go_as_one_types(self):
        editor, uri = self.text("cube(2);\n")
        self.assertEqual(editor.diagnostics(uri, 1), [])
        typed = {"start": {"line": 0, "character": 6}, "end": {"line": 0, "character": 6}}
        self.change(editor, uri, 2, {"range": typed, "text": ".5"})
        self.assertEqual([it["code"] for it in editor.diagnostics(uri, 2)], ["NotWhole"])
        self.change(editor, uri, 3, {"range": {**typed, "end": {"line": 0, "character": 8}}, "text": ""})
        self.assertEqual(editor.diagnostics(uri, 3), [])

    def test_many_changes_in_a_row_are_checked_once(self):
        editor, uri = self.text("cube(2);\n")
        for version in range(2, 30):
            self.change(editor, uri, version, {"text": f"cube({version}.5);\n"})
        self.assertEqual([it["message"][:4] for it in editor.diagnostics(uri, 29)], ["29.5"])
        with self.assertRaises(queue.Empty):
            editor.diagnostics(uri, seconds=0.5)

    def test_what_is_closed_has_no_faults(self):
        editor, uri = self.text("cube(2.5);\n")
        self.assertEqual(len(editor.diagnostics(uri)), 1)
        editor.notify("textDocument/didClose", {"textDocument": {"uri": uri}})
        self.assertEqual(editor.diagnostics(uri), [])

    def test_a_fault_at_the_end(self):
        editor, uri = self.text("//= open\n")
        [fault] = editor.diagnostics(uri)
        self.assertEqual(
            (fault["code"], fault["message"].split("\n")[0]), ("Expected", "the source ends in the middle of a statement")
        )
        self.assertEqual(fault["range"], {"start": {"line": 1, "character": 0}, "end": {"line": 1, "character": 0}})

    def test_what_tells_of_the_whole(self):
        for asked, code, severity in (("complex facets", "complex facets", 1), ("nomem", "nomem", 2), ("empty", None, 0)):
            editor, uri = self.text(f"//= {asked}\nmodule m() cube(1);\n")
            found = editor.diagnostics(uri)
            self.assertEqual([(it["code"], it["severity"]) for it in found], [(code, severity)] if code else [])
            self.assertTrue(all(it["range"]["start"] == {"line": 0, "character": 0} for it in found))

    def test_an_empty_solid_is_told_of_a_source_that_shows_something(self):
        editor, uri = self.text("//= empty\nmodule m() cube(1);\n*m();\n")
        self.assertEqual([(it["code"], it["severity"]) for it in editor.diagnostics(uri)], [("Empty", 2)])

    def test_limits_are_told_before_anything_is_sent(self):
        editor, uri = self.text("x = 1;\n//" + "x" * 2_000 + "\n")
        [fault] = editor.diagnostics(uri)
        self.assertEqual((fault["code"], fault["range"]["start"]), ("TooLong", {"line": 1, "character": 1_016}))

    def test_files_that_are_included(self):
        self.write("lib.scad", "w = 1;\nh = 2.5;\n")
        editor, uri = self.text("// first\ninclude <lib.scad>\ncube(w);\n")
        [fault] = editor.diagnostics(uri)
        self.assertEqual(fault["range"]["start"], {"line": 1, "character": 0})
        self.assertIn("lib.scad:2:5: 2.5 is not a whole number", fault["message"])
        there = fault["relatedInformation"][0]["location"]
        self.assertEqual((there["uri"], there["range"]["start"]), (self.uri("lib.scad"), {"line": 1, "character": 4}))
        # (the text that is open there counts, and its change is one of what includes it)
        lib = self.opened(editor, "lib.scad", "w = 2;\n")
        self.change(editor, uri, 2, {"text": "include <lib.scad>\ncube(w);\n"})
        self.assertEqual((editor.diagnostics(uri, 2), editor.diagnostics(lib)), ([], []))
        self.change(editor, lib, 2, {"text": "w = 3.5;\n"})
        self.assertEqual([len(editor.diagnostics(*it)) for it in ((uri, 2), (lib, 2))], [1, 1])
        editor.notify("textDocument/didClose", {"textDocument": {"uri": lib}})
        self.assertIn("lib.scad:2:5: 2.5", editor.diagnostics(uri)[0]["message"])

    def test_a_fault_in_another_file_is_shown_at_the_call_that_leads_there(self):
        self.write("lib.scad", "module m() cube(2.5);\n")
        editor, uri = self.text("use <lib.scad>\ncube(1);\nm();\n")
        [fault] = editor.diagnostics(uri)
        self.assertEqual(fault["range"], {"start": {"line": 2, "character": 0}, "end": {"line": 2, "character": 1}})

    def test_a_file_that_is_not_there(self):
        editor, uri = self.text("x = 1;\nuse <none.scad>\n")
        [fault] = editor.diagnostics(uri)
        self.assertEqual((fault["code"], fault["range"]["start"]), ("NoFile", {"line": 1, "character": 0}))
        self.write("none.scad", "")
        editor.notify("workspace/didChangeWatchedFiles", {"changes": [{"uri": self.uri("none.scad"), "type": 1}]})
        self.assertEqual(editor.diagnostics(uri), [])

    def test_folders_of_included_files(self):
        os.mkdir(self.path("more"))
        self.write("more/lib.scad", "w = 1;\n")
        editor = self.editor(folders=[self.path("more")])
        editor.start()
        self.assertEqual(editor.diagnostics(self.opened(editor, "part.scad", "include <lib.scad>\n")), [])

    def test_a_text_without_a_file(self):
        editor = self.editor()
        editor.start()
        item = {"uri": "untitled:Untitled-1", "languageId": "openscad", "version": 1, "text": "cube(2.5);\n"}
        editor.notify("textDocument/didOpen", {"textDocument": item})
        self.assertEqual([it["code"] for it in editor.diagnostics("untitled:Untitled-1")], ["NotWhole"])

    def test_notes_are_information(self):
        def notes(source):
            yield Message(
                "part.scad:1:6",
                "Other",
                "it is another solid there",
                "write it otherwise",
                Spot(source.name, 1, 6, b"cube(2);"),
            )

        editor = self.editor(notes=notes)
        editor.start()
        [note] = editor.diagnostics(self.opened(editor, "other.scad", "cube(2);\n"))
        self.assertEqual((note["severity"], note["code"], note["range"]["start"]), (3, "Other", {"line": 0, "character": 5}))

    def test_places_that_openscad_takes_for_another_solid(self):
        text = "intersection() { cube(2); if (false) cube(1); }\n"
        editor, uri = self.text(text)
        [note] = editor.diagnostics(uri)
        self.assertEqual((note["severity"], note["code"], note["range"]["start"]), (3, "if-child", place(text, "(if)")))
        self.assertIn("OpenSCAD takes this for another solid: ", note["message"])
        self.assertNotIn("cure", note["message"])
        # (a fault comes first)
        self.change(editor, uri, 2, {"text": "cube(2.5);" + text})
        self.assertEqual([it["code"] for it in editor.diagnostics(uri, 2)], ["NotWhole"])

    def test_a_server_that_is_not_there(self):
        editor = self.editor(server=["/no/such/server"])
        editor.start()
        uri = self.opened(editor, "part.scad", "cube(2);\n")
        said = editor.wait(lambda it: it.get("method") == "window/showMessage")["params"]
        self.assertEqual(
            (said["type"], said["message"]), (1, "scadls: /no/such/server does not start: No such file or directory")
        )
        self.assertEqual(editor.diagnostics(uri), [])
        # (it is said once, and all else goes on)
        self.change(editor, uri, 2, {"text": "cube(3);\n"})
        editor.diagnostics(uri, 2)
        self.assertEqual(editor.ask("textDocument/documentSymbol", {"textDocument": {"uri": uri}}), [])
        with self.assertRaises(queue.Empty):
            editor.wait(lambda it: it.get("method") == "window/showMessage", 0.1)


class Costly(Case):
    def setUp(self):
        super().setUp()
        self.write("slow.py", SLOW.format(words=list(STAND_IN_WORDS), folder=self.log))
        self.words = [sys.executable, "-S", self.path("slow.py")]

    def runs_of(self, kind):
        return {it[len(kind) :] for it in os.listdir(self.log) if it.startswith(kind)}

    def wait_for(self, fits):
        end = time.monotonic() + PATIENCE
        while not fits():
            self.assertLess(time.monotonic(), end)
            time.sleep(0.01)

    def test_a_newer_text_ends_the_export_of_the_old_one(self):
        editor = self.editor(self.words, seconds=90)
        editor.start()
        uri = self.opened(editor, "part.scad", "// slow\n")
        self.wait_for(lambda: self.runs_of("began"))
        self.change(editor, uri, 2, {"text": "cube(2.5);\n"})
        self.assertEqual([it["code"] for it in editor.diagnostics(uri, 2)], ["NotWhole"])
        self.wait_for(lambda: self.runs_of("ended") == self.runs_of("began"))

    def test_one_costly_text_costs_no_other_one_its_answer(self):
        editor = self.editor(self.words, seconds=90)
        editor.start()
        self.opened(editor, "slow.scad", "// slow\n")
        self.wait_for(lambda: self.runs_of("began"))
        for name in ("one", "two"):
            self.assertEqual(len(editor.diagnostics(self.opened(editor, f"{name}.scad", "cube(2.5);\n"))), 1)
        self.assertEqual(self.runs_of("ended"), set())

    def test_the_time_is_over(self):
        editor = self.editor(self.words, seconds=0.5)
        editor.start()
        [told] = editor.diagnostics(self.opened(editor, "part.scad", "// slow\n"))
        self.assertEqual((told["code"], told["severity"]), ("OutOfTime", 2))
        self.assertEqual(
            told["message"],
            "it takes longer than 0.5 s, and was ended\ncure: make it simpler, or start scadls with more --seconds",
        )
        self.wait_for(lambda: self.runs_of("ended") == self.runs_of("began"))

    def test_the_end_of_the_conversation_ends_what_runs(self):
        for end in (lambda it: (it.ask("shutdown"), it.notify("exit")), lambda it: it.notify("exit"), lambda it: it.close()):
            editor = self.editor(self.words, seconds=90)
            editor.start()
            before = self.runs_of("began")
            self.opened(editor, "part.scad", "// slow\n")
            self.wait_for(lambda: self.runs_of("began") > before)
            end(editor)
            self.statuses.get(timeout=PATIENCE)
            self.wait_for(lambda: self.runs_of("ended") >= self.runs_of("began"))

    def test_a_signal_ends_what_runs(self):
        self.write("server", f"#!{sys.executable} -S\n" + SLOW.format(words=list(STAND_IN_WORDS), folder=self.log))
        os.chmod(self.path("server"), 0o755)
        editor, process = self.program(SCADSERVE=self.path("server"))
        editor.start()
        self.opened(editor, "part.scad", "// slow\n")
        self.wait_for(lambda: self.runs_of("began"))
        process.terminate()
        self.assertEqual(process.wait(PATIENCE), 143)
        self.wait_for(lambda: self.runs_of("ended") == self.runs_of("began"))


@needs_program
class ByTheProgram(Case):
    def test_faults_of_the_program(self):
        text = "module post(h) cylinder(h = h, r = 2, $fn = 8);\npost(3);\ncube([1, 2, 3]);\n"
        editor = self.editor([PROGRAM], seconds=50)
        editor.start()
        uri = self.opened(editor, "part.scad", text)
        [fault] = editor.diagnostics(uri)
        self.assertEqual((fault["code"], fault["range"]["start"]), ("NotInProfile", place(text, "(cylinder)")))
        called = [(it["message"], it["location"]["range"]["start"]) for it in fault["relatedInformation"]]
        self.assertEqual(called, [("called here", place(text, r"\n(post)"))])
        self.change(editor, uri, 2, {"text": text.replace("8", "4").replace("3]);", "3])")})
        [fault] = editor.diagnostics(uri, 2)
        self.assertEqual(fault["code"], "Expected")
        self.change(editor, uri, 3, {"text": text.replace("8", "4")})
        self.assertEqual(editor.diagnostics(uri, 3), [])


if __name__ == "__main__":
    unittest.main()
