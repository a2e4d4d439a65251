"""Tests of tools/again.py, which says on docs/GATE.md what is proved again after a change."""

import contextlib
import importlib.util
import io
import sys
import tempfile
import unittest
from pathlib import Path

from tests.calls import TOP

sys.path.insert(0, str(Path(TOP, "tools")))

SPEC = importlib.util.spec_from_file_location("again", Path(TOP, "tools", "again.py"))
again = importlib.util.module_from_spec(SPEC)
sys.modules["again"] = again
SPEC.loader.exec_module(again)

PAGE = "# The gate\n\n<!-- made by tools/again.py -->\n<!-- end -->\n"
CRATES = """# text: bytes
plain_text: itoa
text_place: plain_text
export_limits:
# planes: sides
plane_polygon: plain_text
plane_table: plane_polygon
# shapes: boxes
primitives: text_place
# evaluation: from a program to its tree
scad_builtin: text_place
scad_func: scad_builtin
scad_modules: scad_builtin primitives
# scripts: words
run_words: plain_text
script_reader: plain_text
reply_text: text_place script_reader export_limits
"""


class Again(unittest.TestCase):
    """Houses in a folder of the test's own."""

    def setUp(self):
        folder = tempfile.TemporaryDirectory()
        self.addCleanup(folder.cleanup)
        self.top = Path(folder.name)
        (self.top / "docs").mkdir()
        self.page = self.top / "docs" / "GATE.md"
        self.page.write_text(PAGE)
        self.crates = self.top / "crates.txt"
        self.crates.write_text(CRATES)

    def call(self, *words):
        with contextlib.redirect_stdout(io.StringIO()) as out, contextlib.redirect_stderr(io.StringIO()):
            return again.main(list(words), self.top), out.getvalue()

    def row(self, name):
        return next(it for it in self.page.read_text().splitlines() if it.startswith(f"| {name} |"))

    def test_the_page_of_this_repository(self):
        with contextlib.redirect_stdout(io.StringIO()) as out:
            self.assertEqual(again.main(["--check"]), 0, out.getvalue())
        self.assertEqual(out.getvalue(), "")

    def test_what_is_written(self):
        self.assertEqual(self.call(), (0, ""))
        words = "| a fault word | `text_place` | 6 | text_place; primitives; all of *evaluation*; reply_text |"
        self.assertEqual(self.row("a fault word"), words)
        self.assertEqual(self.row("a command"), "| a command | `script_reader` | 2 | script_reader, reply_text |")
        cut = "| a cut of a polygon | `plane_polygon`, `plane_table` | 2 | all of *planes* |"
        self.assertEqual(self.row("a cut of a polygon"), cut)
        self.assertEqual(self.row("a module"), "| a module | `scad_modules` | 1 | scad_modules |")

    def test_a_page_is_out_of_date_until_it_is_written(self):
        status, out = self.call("--check")
        self.assertEqual((status, self.page.read_text()), (1, PAGE))
        self.assertIn("out of date", out)
        self.call()
        self.assertEqual(self.call("--check"), (0, ""))

    def test_a_fault_word_below_a_plane(self):
        self.crates.write_text(CRATES.replace("plane_table: plane_polygon", "plane_table: plane_polygon text_place"))
        status, out = self.call()
        self.assertEqual((status, out), (1, "crates.txt: a fault word proves plane_table again, which is of planes\n"))

    def test_a_command_below_many_crates(self):
        more = "".join(f"reader_{number}: script_reader\n" for number in range(11))
        self.crates.write_text(CRATES + more)
        self.assertEqual(self.call(), (1, "crates.txt: a command proves 13 crates again, and may prove 12\n"))

    def test_a_change_that_begins_in_no_crate(self):
        self.crates.write_text(CRATES.replace("run_words: plain_text\n", ""))
        status, out = self.call()
        told = "tools/again.py: a word of the command line begins in run_words, which is no crate\n"
        self.assertEqual((status, out), (1, told))

    def test_minutes(self):
        names = [line.split(":")[0] for line in CRATES.splitlines() if not line.startswith("#")]
        rows = "".join(f"{name:20}{60:8}{30:8}{30:8}\n" for name in names)
        times = self.top / "docs" / "gate-times.txt"
        times.write_text("crate                  proof   tests   edits\n" + rows)
        self.assertEqual(self.call(), (0, ""))
        self.assertEqual(self.row("a command"), "| a command | `script_reader` | 2 | 4 | script_reader, reply_text |")
        times.write_text(rows.replace("run_words ", "gone_words"))
        self.assertEqual(self.call(), (1, "docs/gate-times.txt: it has no time of run_words\n"))

    def test_a_page_without_a_place_for_the_table(self):
        self.page.write_text("# The gate\n")
        self.assertEqual(self.call(), (1, "docs/GATE.md: it has no place for the table\n"))

    def test_wrong_words(self):
        self.assertEqual(self.call("--anew")[0], 2)


if __name__ == "__main__":
    unittest.main()
