"""Tests of tools/differ.py: the program agrees with its meaning on sources made by chance, and one that doesn't is found."""

import os
import re
import signal
import stat
import subprocess
import sys
import unittest

from tests.calls import PROGRAM, TOP, Calls, needs_program

LAST = re.compile(r"(\d+) sources that agree, seed 4117; (\d+) that differ\n\Z")
ENDED = re.compile(r"(\d+) sources that agree, seed 4117; 0 that differ; ended by (\w+)\n\Z")


@needs_program
class Differ(Calls):
    def compared(self, batches, server):
        """The status, what is printed, and how many sources of this many batches agree and how many differ."""
        words = [sys.executable, os.path.join(TOP, "tools", "differ.py"), "600", "4117"]
        words += ["--jobs", "1", "--batches", str(batches), "--server", server]
        done = subprocess.run(words, stdout=subprocess.PIPE, stderr=subprocess.PIPE, text=True, check=False)
        last = LAST.search(done.stdout)
        self.assertIsNotNone(last, done.stdout + done.stderr)
        return done.returncode, done.stdout, int(last[1]), int(last[2])

    def test_the_program_agrees(self):
        status, printed, agree, differ = self.compared(2, PROGRAM)
        self.assertEqual((status, agree, differ), (0, 512, 0), printed)
        # (what they agree on is of all kinds)
        for kind in ("solid", "empty", "TypeMismatch", "Expected", "UnknownName"):
            self.assertRegex(printed, rf"\b[1-9]\d* {kind}\b")

    def test_it_tells_the_count_from_time_to_time_and_where_a_signal_ends_it(self):
        words = [sys.executable, os.path.join(TOP, "tools", "differ.py"), "600", "4117", "--each", "0", "--jobs", "1"]
        words += ["--server", PROGRAM]
        for sent in (signal.SIGINT, signal.SIGTERM):
            with subprocess.Popen(words, stdout=subprocess.PIPE, stderr=subprocess.PIPE, text=True) as run:
                told = run.stderr.readline()
                run.send_signal(sent)
                printed, more = run.communicate()
            self.assertEqual(told, "256 sources that agree, seed 4117; 0 that differ\n")
            self.assertNotIn("Traceback", more)
            last = ENDED.search(printed)
            self.assertIsNotNone(last, printed)
            self.assertEqual((run.returncode, last[2]), (1, sent.name))
            self.assertGreaterEqual(int(last[1]), 256)

    def test_a_program_that_joins_otherwise_is_found(self):
        wrong = self.path("wrong")
        with open(wrong, "w", encoding="ascii") as it:
            it.write(f"#!/bin/sh\nLC_ALL=C sed 's/difference()/union     ()/g' | exec '{PROGRAM}' \"$@\"\n")
        os.chmod(wrong, stat.S_IRWXU)
        status, printed, _, differ = self.compared(1, wrong)
        self.assertEqual(status, 1)
        self.assertGreater(differ, 0)
        # (each is told by a short source that has the word)
        told = re.findall(r"^(?:half )?solid: .*\n(.*difference.*)$", printed, re.MULTILINE)
        self.assertEqual(len(told), differ, printed)
        self.assertLess(max(map(len, told)), 120, printed)


if __name__ == "__main__":
    unittest.main()
