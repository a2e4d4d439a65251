"""Slicers read what off2stl writes as it is meant. Where they are not installed, the tests are skipped."""

import os
import re
import subprocess
import unittest

from scadserve.solid.fouroff import read
from scadserve.solid.measures import volume
from tests import touching
from tests.others_case import Case, by_chance, known, needs_admesh, needs_prusa_slicer, number_in


class Reading(Case):
    def assert_admesh(self, texts):
        """admesh finds all as it is meant, of texts with their shells by name, and mends nothing."""
        outputs = self.read_by({name: text for name, (text, _) in texts.items()}, lambda file: ["admesh", file])
        for (name, _), said in outputs.items():
            with self.subTest(name):
                self.assertRegex(said, r"Total disconnected facets +: +0 +0\n")
                for kind in ("Degenerate facets", "Edges fixed", "Backwards edges", "Facets removed", "Facets added"):
                    self.assertRegex(said, rf"{kind} +: +0\n")
                text, shells = texts[name]
                self.assertEqual(number_in(said, "Number of parts"), shells)
                self.assert_near(number_in(said, "Volume"), volume(read(text)).value)

    def assert_prusa_slicer(self, texts, endings):
        """PrusaSlicer finds all as it is meant, of texts with their shells by name."""
        files = self.written({name: text for name, (text, _) in texts.items()}, endings)
        # (of many files in one call it says one behind the other)
        command = ["prusa-slicer", "--info", *files.values()]
        said = subprocess.run(command, cwd=self.folder, stdout=subprocess.PIPE, check=True).stdout.decode()
        sections = dict(re.findall(r"^\[(\d+\.\w+)\]\n((?:\w+ = .*\n)+)", said, re.MULTILINE))
        self.assertEqual(set(sections), set(map(os.path.basename, files.values())))
        for (name, ending), file in files.items():
            section = sections[os.path.basename(file)]
            with self.subTest(name, ending=ending):
                self.assertIn("manifold = yes\n", section)
                text, shells = texts[name]
                self.assertEqual(number_in(section, "number_of_parts"), shells)
                self.assert_near(number_in(section, "\nvolume"), volume(read(text)).value)

    def chance(self):
        solids = by_chance(200)
        return {str(at): (touching.text_of(it), sum(touching.parts_and_hollows(it))) for at, it in enumerate(solids)}

    @needs_admesh
    def test_admesh(self):
        self.assert_admesh(known())

    @needs_admesh
    def test_admesh_reads_solids_by_chance(self):
        self.assert_admesh(self.chance())

    @needs_prusa_slicer
    def test_prusa_slicer(self):
        self.assert_prusa_slicer(known(), ("stl", "3mf", "obj"))

    @needs_prusa_slicer
    def test_prusa_slicer_reads_solids_by_chance(self):
        self.assert_prusa_slicer(self.chance(), ("stl", "3mf"))


if __name__ == "__main__":
    unittest.main()
