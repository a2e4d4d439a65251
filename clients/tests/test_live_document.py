"""docs/LIVE.md: its lines of curl, run as they stand there, its numbers, and the service of the systemd of a user."""

from __future__ import annotations

import os
import re
import shutil
import subprocess
import tempfile
import unittest
import zipfile
from pathlib import Path

from scadserve.live import downloads, serving
from scadserve.live.exports import SHARED_PART
from scadserve.live.folder import MOST_BYTES
from scadserve.live.media import FORMATS
from scadserve.solid.formats import WRITERS
from scadserve.tools.catalogue import parser_of
from scadserve.calls.mesh_words import ending_of
from tests import live_case
from tests.calls import PROGRAM, TOP, needs_program
from tests.needs import needs
from tests.test_live_guard import BAD

PAGE = Path(TOP, "docs", "LIVE.md")
SERVICE = Path(TOP, "clients", "scadserve", "live", "scadlive.service")


def console() -> list[tuple[str, str]]:
    """Each command of the page, with what it prints."""
    found: list[tuple[str, str]] = []
    for block in re.findall(r"```console\n(.*?)```", PAGE.read_text("utf-8"), re.DOTALL):
        for line in block.splitlines(keepends=True):
            if line.startswith("$ "):
                found.append((line[2:].rstrip("\n"), ""))
            else:
                found[-1] = (found[-1][0], found[-1][1] + line)
    return found


@needs_program
@needs("curl")
class Commands(live_case.Case):
    server = PROGRAM
    words = ("--seconds", "600")

    def test_each_line_prints_what_the_page_says(self) -> None:
        commands = console()
        self.assertGreater(len(commands), 5)
        with tempfile.TemporaryDirectory() as folder:
            shutil.copytree(Path(TOP, "examples"), Path(folder, "examples"))
            for command, printed in commands:
                self.assertTrue(command.startswith("curl ") and "127.0.0.1:4780" in command, command)
                words = command.replace("127.0.0.1:4780", self.live.host)
                done = subprocess.run(
                    ["sh", "-c", words], cwd=folder, stdout=subprocess.PIPE, check=False, timeout=live_case.PATIENCE
                )
                # (what ends without a newline, as the first bytes of a picture, stands on a line of its own in the page)
                self.assertEqual(done.stdout.decode().rstrip("\n"), printed.rstrip("\n"), command)
            with zipfile.ZipFile(Path(folder, "bracket.3mf")) as package:
                self.assertIn(b'<vertex x="2" y="1.2" z="0.2"/>', package.read("3D/3dmodel.model"))
            self.assertIn('"word":"NotWhole"', Path(folder, "fault.json").read_text())


class Numbers(unittest.TestCase):
    def test_what_the_page_says_of_limits_is_so(self) -> None:
        text = " ".join(PAGE.read_text("utf-8").split())
        defaults = {it.dest: it.default for it in parser_of("scadlive")._actions}
        for said in (
            f"A test sends {len(BAD)} bad requests",
            f"read within {serving._READ:g} seconds, and answered within {serving._WRITE:g} more",
            f"At most {serving._MOST_CONNECTIONS} connections",
            f"`--jobs` runs ({defaults['jobs']})",
            f"`--seconds` ({defaults['seconds']:g})",
            f"http://127.0.0.1:{defaults['port']}/",
        ):
            self.assertIn(said, text)
        self.assertEqual((SHARED_PART, MOST_BYTES), (0.25, 1 << 20))
        for name in FORMATS:
            self.assertIn(f"`{name}`", text)
        self.assertEqual(list(FORMATS), list(downloads._WRITERS))
        self.assertEqual({it: FORMATS[it].ending for it in WRITERS}, {it: ending_of(it) for it in WRITERS})


@needs("systemd-analyze")
class Service(unittest.TestCase):
    def test_systemd_finds_nothing_wrong_with_it(self) -> None:
        with tempfile.TemporaryDirectory() as folder:
            unit = Path(folder, "scadlive.service")
            unit.write_text(SERVICE.read_text().replace("ExecStart=scadlive", f"ExecStart={TOP}/bin/scadlive"))
            how = {**os.environ, "XDG_RUNTIME_DIR": folder, "HOME": folder}
            done = subprocess.run(
                [
                    "systemd-analyze", "--user", "verify", str(unit)
                ], env=how, stdout=subprocess.PIPE, stderr=subprocess.STDOUT, check=False
            )
            told = [it for it in done.stdout.decode().splitlines() if "scadlive" in it]
        self.assertEqual((done.returncode, told), (0, []), done.stdout)


if __name__ == "__main__":
    unittest.main()
