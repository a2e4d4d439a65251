"""Calls of the tools at the top of the repository, in a folder of the test's own, with a stand-in for the server."""

import os
import subprocess
import sys
import tempfile
import unittest

TOP = os.path.dirname(os.path.dirname(os.path.dirname(os.path.realpath(__file__))))
STAND_IN = os.path.join(TOP, "clients", "tests", "stand_in.py")
# What `rt ci` has built, or another program that is to be tested.
PROGRAM = os.environ.get("SCADSERVE") or os.path.join(TOP, "crates", "scadserve", "out", "scadserve")
needs_program = unittest.skipUnless(os.access(PROGRAM, os.X_OK), "the program is not built")

# (without the packages of the machine, which Python is slow to look for)
SCAD2OFF = [sys.executable, "-S", os.path.join(TOP, "bin", "scad2off")]


class Calls(unittest.TestCase):
    """A test that calls tools in the folder `self.folder`; `self.log` has what the server was sent."""

    def setUp(self):
        folder = tempfile.TemporaryDirectory()
        self.addCleanup(folder.cleanup)
        self.log = os.path.join(folder.name, "log")
        self.folder = os.path.join(folder.name, "here")
        os.mkdir(self.log)
        os.mkdir(self.folder)
        # (the stand-in runs by this very Python, and not by a script that looks for one)
        path = os.path.dirname(sys.executable) + os.pathsep + os.environ["PATH"]
        self.environment = {**os.environ, "SCADSERVE": STAND_IN, "STAND_IN_LOG": self.log, "PATH": path}

    def path(self, name):
        return os.path.join(self.folder, name)

    def write(self, name, text):
        """Writes a file, and gives its name."""
        with open(self.path(name), "wb") as it:
            it.write(text if isinstance(text, bytes) else text.encode())
        return name

    def read(self, name):
        with open(self.path(name), "rb") as it:
            return it.read()

    def names(self):
        """The names of all files, hidden ones too."""
        return sorted(os.listdir(self.folder))

    def call(self, *words, stdin=b"", tool=None, environment=None):
        """The status, the standard output and the standard error of a call, of scad2off where no tool is named."""
        how = {"cwd": self.folder, "env": {**self.environment, **(environment or {})}, "timeout": 100}
        done = subprocess.run([*([tool] if tool else SCAD2OFF), *words], input=stdin, capture_output=True, **how)
        return done.returncode, done.stdout, done.stderr

    def runs(self):
        """The words and the script of each run of the server so far."""
        found = []
        for number in range(len(os.listdir(self.log)) // 2):
            with open(os.path.join(self.log, f"{number}.words"), "rb") as words:
                with open(os.path.join(self.log, f"{number}.script"), "rb") as script:
                    found.append((words.read(), script.read()))
        return found
