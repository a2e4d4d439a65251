"""The rooms of the package: which may import which, and that no import is left over."""

from __future__ import annotations

import importlib.util
import re
import shutil
import subprocess
import sys
import tempfile
import unittest
from pathlib import Path

from tests import calls

TOP = Path(calls.TOP)
sys.path.insert(0, str(TOP / "tools"))

from rooms import PACKAGE, ROOMS, faults  # noqa: E402


class Rooms(unittest.TestCase):
    """What tools/rooms.py finds in the package, and in packages of a few lines."""

    def setUp(self) -> None:
        folder = tempfile.TemporaryDirectory()
        self.addCleanup(folder.cleanup)
        self.package = Path(folder.name)
        self.write("low/words.py", "")
        self.write("high/calls.py", "from ..low.words import word\n")

    def write(self, module: str, text: str) -> None:
        file = self.package / module
        file.parent.mkdir(exist_ok=True)
        file.write_text(text, encoding="utf-8")

    def faults(self, rooms: dict[str, tuple[str, ...]]) -> list[str]:
        return [*faults(self.package, rooms)]

    def test_each_room_imports_what_it_may(self) -> None:
        self.assertEqual([*faults(PACKAGE, ROOMS)], [])

    def test_a_package_that_keeps_to_its_table(self) -> None:
        self.assertEqual(self.faults({"low": (), "high": ("low",)}), [])

    def test_an_import_that_its_room_may_not_have(self) -> None:
        for text in (
            "from ..high import calls\n",
            "from .. import high\n",
            "import scadserve.high.calls\n",
            "def late():\n    from ..high.calls import call\n",
            "from typing import TYPE_CHECKING\n\nif TYPE_CHECKING:\n    from scadserve.high import calls\n",
        ):
            with self.subTest(text=text):
                self.write("low/words.py", text)
                line = len(text.splitlines())
                self.assertEqual(self.faults({"low": (), "high": ("low",)}), [f"low/words.py:{line}: low may not import high"])

    def test_a_table_with_a_circle(self) -> None:
        self.write("low/words.py", "from ..high import calls\n")
        circle = self.faults({"low": ("high",), "high": ("low",)})
        self.assertEqual(circle, ["low may import high, which the table doesn't list before it"])

    def test_rooms_that_the_table_or_the_package_lacks(self) -> None:
        found = self.faults({"low": (), "other": ()})
        self.assertEqual(found[0], "high/calls.py:1: high may not import low")
        self.assertEqual(found[1:], ["high is not in the table", "other is in the table, and not there"])

    def test_what_may_be_imported_and_never_is(self) -> None:
        self.write("top.py", "")
        self.assertEqual(self.faults({"top": (), "low": ("top",), "high": ("low",)}), ["low may import top, and never does"])


def pyflakes() -> list[str] | None:
    """The words that start pyflakes, of this Python or of another one; None where it isn't installed."""
    if importlib.util.find_spec("pyflakes"):
        return [sys.executable, "-m", "pyflakes"]
    found = shutil.which("pyflakes3") or shutil.which("pyflakes")
    return [found] if found else None


@unittest.skipUnless(pyflakes(), "pyflakes is not installed")
class Imports(unittest.TestCase):
    """Names that a file imports and never uses."""

    def found(self, *paths: str) -> list[str]:
        """What pyflakes finds, but for lines that say why they are as they are, and names that are imported to be exported."""
        said = subprocess.run(
            [*(pyflakes() or ()), *paths], stdout=subprocess.PIPE, stderr=subprocess.PIPE, text=True, check=False
        )
        lines = said.stderr.splitlines()
        for line in said.stdout.splitlines():
            file, number, _ = line.split(":", 2)
            text = Path(file).read_text(encoding="utf-8").splitlines()[int(number) - 1]
            if "# noqa" not in text and not re.search(r"\b(\w+) as \1\b", text):
                lines.append(line)
        return lines

    def test_pyflakes_finds_nothing(self) -> None:
        self.assertEqual(self.found(*(str(TOP / it) for it in ("clients", "tools", "bench", "model"))), [])

    def test_what_is_left_over_is_found(self) -> None:
        with tempfile.TemporaryDirectory() as folder:
            file = Path(folder) / "left.py"
            file.write_text("import os\nimport sys as sys\nimport re  # noqa: F401\n", encoding="utf-8")
            self.assertEqual([it.split(" ", 1)[1] for it in self.found(str(file))], ["'os' imported but unused"])


if __name__ == "__main__":
    unittest.main()
