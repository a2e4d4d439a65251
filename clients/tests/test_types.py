"""The types of the package: `mypy --strict` finds nothing wrong in it, nor in a program of typical use, which runs."""

from __future__ import annotations

import os
import shutil
import subprocess
import sys
import tempfile
import unittest

from tests.calls import PROGRAM, TOP, needs_program

CLIENTS = os.path.join(TOP, "clients")
USE = os.path.join(CLIENTS, "tests", "typical_use.py")


def checked(*files: str, cache: str) -> str:
    """What mypy says of these."""
    words = ["mypy", "--strict", "--cache-dir", cache, "--no-error-summary", *files]
    how = {**os.environ, "MYPYPATH": CLIENTS}
    done = subprocess.run(words, cwd=CLIENTS, env=how, stdout=subprocess.PIPE, stderr=subprocess.STDOUT, text=True, check=False)
    return done.stdout


@unittest.skipUnless(shutil.which("mypy"), "mypy is not installed")
class Types(unittest.TestCase):
    def test_the_package_and_a_program_of_typical_use(self) -> None:
        with tempfile.TemporaryDirectory() as cache:
            self.assertEqual(checked("scadserve", USE, cache=cache), "")
            # (what is wrong is found by it)
            wrong = os.path.join(cache, "wrong.py")
            with open(wrong, "w", encoding="utf-8") as it:
                it.write("from scadserve import solve\n\nsolve([3])\nsolve(['cube(1);'], workers='2')\n")
            said = checked(wrong, cache=cache)
        self.assertIn('wrong.py:3: error: List item 0 has incompatible type "int"', said)
        self.assertIn('wrong.py:4: error: Argument "workers" to "solve" has incompatible type "str"', said)


@needs_program
class Use(unittest.TestCase):
    def test_it_runs(self) -> None:
        with tempfile.TemporaryDirectory() as folder:
            how = {**os.environ, "PYTHONPATH": CLIENTS, "SCADSERVE": PROGRAM}
            words = [sys.executable, USE, os.path.join(folder, "part.scad")]
            done = subprocess.run(
                words, cwd=folder, env=how, stdout=subprocess.PIPE, stderr=subprocess.PIPE, text=True, check=False
            )
        self.assertEqual(done.returncode, 0, done.stderr)
        self.assertEqual(done.stdout, "6 3 [] True\n27 3 [] True\nNotWhole Solid\n")
        self.assertIn("NotWhole <source 2> 1 6", done.stderr)


if __name__ == "__main__":
    unittest.main()
