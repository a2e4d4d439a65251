"""Tests of tools/house.py, which keeps the crates in their layers and the page on the architecture in step."""

import contextlib
import importlib.util
import io
import sys
import tempfile
import unittest
from pathlib import Path

from tests.calls import TOP



def loaded(name, *where):
    spec = importlib.util.spec_from_file_location(name, Path(TOP, *where))
    found = importlib.util.module_from_spec(spec)
    sys.modules[name] = found
    spec.loader.exec_module(found)
    return found


house = loaded("house", "tools", "house.py")
edits = loaded("edits", "bench", "edits.py")

PAGE = """# How it is built

<!-- made by tools/house.py: picture -->
<!-- end -->

`low_words` stands below `high_words`, which calls `read_words`.

<!-- made by tools/house.py: table -->
<!-- end -->
"""


class House(unittest.TestCase):
    """Houses of two crates or more in a folder of the test's own."""

    def setUp(self):
        folder = tempfile.TemporaryDirectory()
        self.addCleanup(folder.cleanup)
        self.top = Path(folder.name)
        (self.top / "docs").mkdir()
        self.page = self.top / "docs" / "ARCHITECTURE.md"
        self.page.write_text(PAGE)
        self.crate("low_words", "//! Words.\n\npub fn read_words() {}\n")
        self.crate("high_words", "//! What is made\n//! of words. And more.\n//!\n//! More.\n")
        self.list("# ground: words\nlow_words: itoa\n\n# roof: what is made of words\nhigh_words may_wait=2: low_words\n")

    def crate(self, name, text):
        source = self.top / "crates" / name / "src"
        source.mkdir(parents=True)
        (source / "lib.rt").write_text(text)

    def list(self, text):
        (self.top / "crates.txt").write_text(text)

    def call(self, *words):
        with contextlib.redirect_stdout(io.StringIO()) as out, contextlib.redirect_stderr(io.StringIO()):
            return house.main(list(words), self.top), out.getvalue()

    def assert_fault(self, said):
        """After --write one fault is left, which has these words."""
        status, out = self.call("--write")
        self.assertEqual((status, out.count("\n")), (1, 1), out)
        self.assertIn(said, out)

    def test_the_page_of_this_repository(self):
        with contextlib.redirect_stdout(io.StringIO()) as out:
            self.assertEqual(house.main([]), 0, out.getvalue())
        self.assertEqual(out.getvalue(), "")

    def test_what_is_measured_by_phases_is_of_crates_or_of_libraries(self):
        known = {*house.read(Path(TOP)).crates, *house.OF_THE_KIT, "core", "std_alloc", "std_collections"}
        names = {it.split("::")[0] for it in [*edits.FRAME, *[name for names in edits.PHASES.values() for name in names]]}
        self.assertEqual(names - known, set())

    def test_a_page_is_out_of_date_until_it_is_written(self):
        status, out = self.call()
        self.assertEqual(status, 1)
        self.assertIn("out of date", out)
        self.assertEqual(self.page.read_text(), PAGE)
        self.assertEqual(self.call("--write"), (0, ""))
        self.assertEqual(self.call(), (0, ""))

    def test_what_is_written(self):
        self.call("--write")
        page = self.page.read_text()
        self.assertIn(
            "    roof    what is made of words\n            high_words\n\n    ground  words\n            low_words\n", page
        )
        self.assertIn(
            "| Layer | Crate | Stands on | What it is |\n|---|---|---|---|\n| ground | low_words | `itoa` | Words |\n", page
        )
        self.assertIn("| roof | high_words | low_words | What is made of words |\n", page)

    def test_a_crate_that_stands_on_a_higher_layer(self):
        self.list("# ground: words\nlow_words: high_words\n# roof: what is made of words\nhigh_words:\n")
        self.assert_fault("low_words stands on high_words, which is of a higher layer")

    def test_a_crate_that_reaches_what_its_layer_must_not_know(self):
        self.crate("roof_words", "//! What is made of those.\n")
        layers = "# ground: words\nlow_words:\n# walls: what is made of words\nhigh_words: low_words\n# roof: more\n"
        self.list(layers + "# must not know: ground\nroof_words: high_words\n")
        self.assert_fault("roof_words reaches low_words of ground, which its layer must not know")
        self.list(layers + "roof_words: high_words\n")
        self.assertEqual(self.call("--write"), (0, ""))

    def test_a_layer_that_one_must_not_know_and_that_is_not_below_it(self):
        for name in ("cellar", "roof"):
            self.list(
                f"# ground: words\n# must not know: {name}\nlow_words:\n# roof: what is made of words\nhigh_words: low_words\n"
            )
            self.assert_fault(f"there is no layer {name} below the one that must not know it")

    def test_a_crate_that_stands_on_a_library_that_none_may(self):
        self.list("# ground: words\nlow_words: itoa libc\n\n# roof: what is made of words\nhigh_words may_wait=2: low_words\n")
        self.assert_fault("low_words stands on libc, which is neither a crate nor a library that crates may stand on")

    def test_a_crate_before_the_first_layer(self):
        self.list("low_words:\n# roof: what is made of words\nhigh_words: low_words\n")
        self.assert_fault("low_words stands in no layer")

    def test_a_crate_that_stands_on_itself(self):
        self.list("# ground: words\nlow_words: high_words\nhigh_words: low_words\n")
        status, out = self.call("--write")
        self.assertEqual(status, 1)
        self.assertIn("chain of more than 10 crates", out)

    def test_a_chain_of_eleven_crates(self):
        for number in range(11):
            self.crate(f"link_{number}", "//! A link.\n")
        links = [f"link_{number}: link_{number - 1}" for number in range(1, 11)]
        self.list("\n".join(["# ground: words", "low_words:", "high_words:", "link_0:", *links]))
        self.assert_fault("link_10 ends a chain of more than 10 crates")

    def test_a_crate_that_says_nothing_of_itself(self):
        self.crate("mute_words", "#![tactic(auto)]\n")
        self.list("# ground: words\nlow_words:\nhigh_words: low_words\nmute_words:\n")
        self.assert_fault("crates/mute_words/src")

    def proof(self, crate, name, text):
        file = self.top / "crates" / crate / "proofs" / name
        file.parent.mkdir(parents=True, exist_ok=True)
        file.write_text(text)

    def test_an_import_of_proofs_that_are_not_shared(self):
        self.proof("low_words", "Own.antt", "use Rattle.low_words.proofs.Other.{x}\n")
        self.call("--write")
        self.assertEqual(self.call(), (0, ""))
        self.proof("high_words", "High.antt", "use Rattle.std.proofs.Common.{y}\nuse Rattle.low_words.proofs.Own.{x}\n")
        told = "it imports Own of low_words, which stands in no folder of lemmas"
        self.assert_fault(f"crates/high_words/proofs/High.antt: {told}")

    def test_an_import_of_proofs_that_are_not_shared_in_a_body(self):
        with (self.top / "crates" / "high_words" / "src" / "lib.rt").open("a") as source:
            source.write("ghost use Rattle.low_words.proofs.Own.{x};\n")
        self.assert_fault("crates/high_words/src/lib.rt: it imports Own of low_words")

    def test_proofs_that_are_not_shared_in_a_tactic(self):
        with (self.top / "crates" / "high_words" / "src" / "lib.rt").open("a") as source:
            source.write("#[tactic(auto, using(crate::proofs::High::y, low_words::proofs::Own::x))]\n")
        self.assert_fault("crates/high_words/src/lib.rt: it imports Own of low_words")

    def test_lemmas_that_are_shared(self):
        self.proof("low_words", "lemmas/Shared.antt", "x = refl\n")
        self.proof("high_words", "main/Answers.antt", "use Rattle.low_words.proofs.lemmas.Shared.{x}\n")
        self.assertEqual(self.call("--write"), (0, ""))
        self.proof("high_words", "main/Answers.antt", "")
        self.assert_fault("crates/low_words/proofs/lemmas/Shared.antt: no other crate imports it")

    def test_a_name_that_is_no_crate(self):
        self.page.write_text(PAGE + "\n`gone_words` was a crate.\n")
        self.assert_fault("gone_words is not a crate")

    def test_a_page_without_a_place_for_the_table(self):
        self.page.write_text(PAGE.partition("<!-- made by tools/house.py: table")[0])
        self.assert_fault("no place for the picture and the table")

    def test_how_many_functions_may_wait(self):
        self.call("--write")
        log = self.top / "log"
        log.write_text(
            "== low_words\nlogic=proved functions=1 sum=0\n== high_words\nlogic=proved functions=3 may-wait=2 sum=0\n"
        )
        self.assertEqual(self.call("--gate", str(log)), (0, ""))
        log.write_text("== low_words\nlogic=proved functions=1 may-wait=1 sum=0\nrt: high_words is kept\n")
        self.assertEqual(self.call("--gate", str(log)), (1, "crates.txt: 1 functions of low_words may wait, and not 0\n"))
        log.write_text("== high_words\nlogic=proved functions=3 sum=0\n")
        self.assertEqual(self.call("--gate", str(log)), (1, "crates.txt: 0 functions of high_words may wait, and not 2\n"))

    def test_other_words(self):
        self.assertEqual(self.call("--compare")[0], 2)


if __name__ == "__main__":
    unittest.main()
