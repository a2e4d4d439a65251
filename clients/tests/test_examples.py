"""The sources of examples/ have the lines that the scripts beside them put."""

import glob
import os
import unittest

from scadserve.server.replies import Session, commands_of
from tests.calls import TOP


class Sources(unittest.TestCase):
    def test_each_client_of_a_script_has_its_lines_as_a_source(self):
        wanted = {}
        for path in glob.glob(os.path.join(TOP, "examples", "*.script")):
            with open(path, "rb") as it:
                clients = commands_of(it.read())
            for name, commands in clients.items():
                session = Session()
                for command in commands:
                    session.answer(command)
                stem = path[: -len(".script")]
                wanted[stem if len(clients) == 1 else f"{stem}-{name.decode()}"] = session.lines
        self.assertGreaterEqual(len(wanted), 7)
        self.assertEqual(sorted(f"{it}.scad" for it in wanted), sorted(glob.glob(os.path.join(TOP, "examples", "*.scad"))))
        for stem, lines in wanted.items():
            with self.subTest(source=stem), open(f"{stem}.scad", "rb") as it:
                self.assertEqual(it.read(), b"".join(line + b"\n" for line in lines))


if __name__ == "__main__":
    unittest.main()
