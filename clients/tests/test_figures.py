"""The page of figures is made of what measurements print: tables and plots of lines as they print them."""

from __future__ import annotations

import subprocess
import sys
import tempfile
import unittest
import xml.etree.ElementTree
from pathlib import Path

from tests.calls import TOP

sys.path.insert(0, str(Path(TOP, "bench")))

import figures  # noqa: E402

HEAD = "4 of a processor; 2026-12-02; commit 0123456789ab; load 0.1\n"
PEERS = """4 of a processor; 25 GB of memory; load 0.1
source                         scadserve M instr.    openscad   ratio  answer
a cube alone                      0.8 ms      0.3       40 ms      50  3 solid 16
plate with 10 holes               1.6 ms      2.3      180 ms     112  9 solid 90
plate with 100 holes              7.0 ms              3160 ms     451  9 solid 900
"""
EDITS = """source                export                       ms     CPU ms   M instr.   of first    reading       rest
100 parts             first                       7.9        7.3       44.1       1.00         1%         9%
                      the same again              1.8        1.7        9.1       0.21         4%        23%

a source of 0.20 MB, read and evaluated: 5 CPU ms a megabyte
"""
CLIENTS = """clients                        processors workers with memory.sh  without it
8, own designs                          4        1           50.0        58.0
"""


class Tables(unittest.TestCase):
    def test_the_table_of_both_programs(self) -> None:
        self.assertEqual(
            figures.peers_table(PEERS)[2:],
            [
                "| a cube alone | 0.8 | 0.3 | 0.04 | 50 |",
                "| plate with 10 holes | 1.6 | 2.3 | 0.18 | 112 |",
                "| plate with 100 holes | 7.0 | - | 3.16 | 451 |",
            ],
        )

    def test_the_other_tables(self) -> None:
        edits = ["| 100 parts | first | 7.3 | 44.1 | 1.00 |", "|  | the same again | 1.7 | 9.1 | 0.21 |"]
        self.assertEqual(figures.edits_table(EDITS)[2:], edits)
        self.assertEqual(figures.clients_table(CLIENTS)[2:], ["| 8, own designs | 4 | 1 | 50.0 | 58.0 |"])
        self.assertEqual(figures.printed_table("| a | b |\nelse\n"), ["| a | b |"])


class Page(unittest.TestCase):
    def setUp(self) -> None:
        folder = tempfile.TemporaryDirectory()
        self.addCleanup(folder.cleanup)
        self.top = Path(folder.name)
        (self.top / "docs").mkdir()
        (self.top / "kept").mkdir()

    def test_the_page_and_the_plots(self) -> None:
        (self.top / "kept/peers.txt").write_text(HEAD + PEERS)
        figures.write(self.top / "kept", self.top)
        page = (self.top / figures.PAGE).read_text()
        self.assertIn("*4 of a processor; 2026-12-02; commit 0123456789ab; load 0.1.*\n\n| Source |", page)
        self.assertIn("Not measured yet: `sh bench/figures.sh worst`.", page)
        for name, family in ((figures.PEERS, "plate with 100 holes"), (figures.GROWTH, "plate holes")):
            self.assertIn(f"]({Path(name).name})", page)
            found = xml.etree.ElementTree.parse(self.top / name)
            texts = "".join(it.text or "" for it in found.iter() if it.tag.endswith("text"))
            self.assertIn(family, texts)
        # (two bars in the first plot, beside its ground, and two ways in the second: the cube alone is of no family)
        bars, ways = (Path(self.top, it).read_text() for it in (figures.PEERS, figures.GROWTH))
        self.assertEqual((bars.count("<rect"), ways.count("<polyline")), (3, 2))

    def test_what_prints_no_row_is_a_fault(self) -> None:
        (self.top / "kept/peers.txt").write_text(HEAD + "peers: openscad isn't installed\n")
        with self.assertRaisesRegex(figures.Failed, "peers: no row"):
            figures.write(self.top / "kept", self.top)

    def test_words_that_are_no_measurement(self) -> None:
        words = ["sh", str(Path(TOP, "bench/figures.sh")), "nothing"]
        done = subprocess.run(words, stdout=subprocess.PIPE, stderr=subprocess.PIPE, text=True, check=False)
        self.assertEqual((done.returncode, done.stdout), (2, ""))
        self.assertIn("nothing is not a measurement", done.stderr)


if __name__ == "__main__":
    unittest.main()
