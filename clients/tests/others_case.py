"""Tests that have other programs read what off2stl writes."""

import os
import random
import re
import subprocess
from concurrent.futures import ThreadPoolExecutor

from scadserve.tools import off2stl
from tests import tool_case, touching
from tests.needs import needs
from tests.solids import box, gallery, off

#: How many pieces the parts of the gallery have that are not one.
PIECES = {"cups": 4, "dovetail": 2, "burr": 6, "cabinet": 3}
needs_admesh = needs("admesh")
needs_prusa_slicer = needs("prusa-slicer")
needs_openscad = needs("openscad")


def known():
    """Texts by name, with how many shells each has: those of its pieces and those of hollows in them."""
    hollow = [face[::-1] for face in box((1, 1, 1), (2, 2, 2))]
    found = {name: (text, PIECES.get(name, 1)) for name, text in gallery().items()}
    found["board"] = (touching.board(), 8)
    found["board on a plate"] = (touching.board(plate=True), 1)
    found["board between plates"] = (touching.board(plate=True, lid=True), 1)
    found["hollow"] = (off(box((0, 0, 0), (3, 3, 3)) + hollow), 2)
    return found


def by_chance(count):
    """This many solids that touch themselves at edges and corners, as lists of tetrahedra."""
    rolled = random.Random(1965)
    return [touching.some(rolled) for _ in range(count)]


def number_in(said, what):
    """The number that an output has behind these words; 0 where there are none."""
    found = re.search(what + r"[ :=]+(-?[0-9.]+(?:e[+-][0-9]+)?)", said)
    return float(found[1]) if found else 0


class Case(tool_case.Case):
    tool = off2stl

    def run_all(self, commands):
        """The outputs of commands, by what they are called."""

        def run(command):
            return subprocess.run(command, cwd=self.folder, stdout=subprocess.PIPE, stderr=subprocess.STDOUT, check=False)

        with ThreadPoolExecutor(os.cpu_count()) as pool:
            return dict(zip(commands, (it.stdout.decode() for it in pool.map(run, commands.values()))))

    def written(self, texts, endings=("stl",)):
        """The files that are written of texts, by the names of these and the endings."""
        files = {}
        for at, (name, text) in enumerate(texts.items()):
            for ending in endings:
                files[name, ending] = self.path(f"{at}.{ending}")
                status, line = self.call("-o", files[name, ending], self.file(f"{at}.4off", text))
                self.assertEqual(status, 0, line)
        return files

    def read_by(self, texts, command, endings=("stl",)):
        """What a command says of what is written of each text, by its name and the ending of the file."""
        return self.run_all({which: command(file) for which, file in self.written(texts, endings).items()})

    def assert_near(self, number, exact):
        """A number is what was meant, in single precision."""
        self.assertLess(abs(number - float(exact)), 1e-5 * float(exact) + 1e-5)
