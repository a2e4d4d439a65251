"""A test of one of the tools, with a folder of its own."""

import io
import os
import tempfile
import unittest
from unittest import mock


class Case(unittest.TestCase):
    """Calls of the tool whose module is `tool`."""

    tool = None

    def setUp(self):
        folder = tempfile.TemporaryDirectory()
        self.addCleanup(folder.cleanup)
        self.folder = folder.name

    def path(self, name):
        return os.path.join(self.folder, name)

    def file(self, name, data):
        """The path of a new file with these bytes."""
        with open(self.path(name), "wb") as file:
            file.write(data)
        return self.path(name)

    def bytes_of(self, name):
        with open(self.path(name), "rb") as file:
            return file.read()

    def call(self, *words):
        """The status of a call, and what it says on standard error, with the folder's name left out."""
        with mock.patch("sys.stderr", io.TextIOWrapper(io.BytesIO())) as error:
            status = self.tool.main(words)
            return status, error.buffer.getvalue().decode().replace(self.folder + os.sep, "")

    def assert_fault(self, status, words, said):
        """A call ends with this status and with one line, of which this is a part, and changes no name in the folder."""
        before = sorted(os.listdir(self.folder))
        found, line = self.call(*words)
        self.assertEqual((found, line.count("\n"), line[-1:]), (status, 1, "\n"), line)
        self.assertIn(said, line)
        self.assertEqual(sorted(os.listdir(self.folder)), before)
