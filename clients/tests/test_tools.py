"""The tools by name: their starters, versions, man pages and completion, all from the parsers that --help is made of."""

from __future__ import annotations

import os
import re
import subprocess
import sys
import tempfile
import unittest
from pathlib import Path
from typing import Sequence

from scadserve.tools import completion
from scadserve.tools import manual
from scadserve.tools.catalogue import STARTER, STARTERS, TOOLS, parser_of
from scadserve.version import VERSION
from tests.calls import TOP, Calls
from tests.needs import needs

ALL = (STARTER, *TOOLS)
needs_man = needs("man")
needs_bash = needs("bash")
needs_zsh = needs("zsh")


class Starters(Calls):
    def test_each_tool_is_listed_and_has_a_starter(self) -> None:
        self.assertEqual(sorted(it.name for it in Path(TOP, "bin").iterdir()), sorted(TOOLS))
        for place in STARTERS:
            self.assertTrue(os.access(os.path.join(TOP, place), os.X_OK), place)

    def test_each_tells_its_version_and_its_help(self) -> None:
        self.assertRegex(VERSION, r"\A\d+\.\d+\.\d+\Z")
        # (no rt and no program is started for these)
        self.environment["PATH"] = f"{os.path.dirname(sys.executable)}:/usr/bin:/bin"
        self.write("scadserve.py", "raise SystemExit('that of the folder of the call')")
        for place in STARTERS:
            name, tool = os.path.basename(place), os.path.join(TOP, place)
            self.assertEqual(self.call("--version", tool=tool), (0, f"{name} {VERSION}\n".encode(), b""))
            status, out, error = self.call("--help", tool=tool)
            self.assertEqual((status, out[: len(name) + 8], error), (0, f"usage: {name} ".encode(), b""))
            self.assertIn(b"--version", out)

    def test_a_version_that_cannot_be_written_is_told(self) -> None:
        for place, status in ((STARTER, 5), ("bin/off2svg", 2)):
            name = os.path.basename(place)
            words = ["sh", "-c", '"$0" --version >/dev/full', os.path.join(TOP, place)]
            done = subprocess.run(words, stderr=subprocess.PIPE, check=False)
            self.assertEqual(done.returncode, status)
            self.assertEqual(done.stderr.decode(), f"{name}: cannot write standard output: No space left on device\n")

    def test_the_version_stands_in_one_place(self) -> None:
        for file in ("pyproject.toml", "tools/release.sh", "tools/wheel.py", "scadserve", "clients/scadserve/version.py"):
            self.assertNotIn(f'"{VERSION}"', Path(TOP, file).read_text("utf-8"), file)


class Pages(unittest.TestCase):
    """The man pages."""

    def shown(self, name: str) -> str:
        """A page as man shows it, in one line."""
        with tempfile.TemporaryDirectory() as folder:
            file = Path(folder, f"{name}.1")
            file.write_text(manual.page(name), "utf-8")
            how = {**os.environ, "LC_ALL": "C.UTF-8", "MANWIDTH": "200", "MAN_KEEP_FORMATTING": "", "MANOPT": "--nj --nh"}
            words = ["man", "--warnings=w", "-E", "UTF-8", "-l", str(file)]
            done = subprocess.run(words, env=how, stdout=subprocess.PIPE, stderr=subprocess.PIPE, check=False)
            self.assertEqual((done.returncode, done.stderr.decode()), (0, ""), name)
            return " ".join(done.stdout.decode().split())

    @needs_man
    def test_man_shows_all_that_help_says_and_warns_of_nothing(self) -> None:
        for name in ALL:
            parser, shown = parser_of(name), self.shown(name)
            for action in parser._actions:
                for said in (*action.option_strings, manual.help_of(parser, action), manual.value_of(action)):
                    self.assertIn(" ".join(said.split()), shown, name)
            for text in (parser.description, parser.epilog or ""):
                self.assertIn(" ".join((text or "").split()), shown, name)
            self.assertIn(f"scadserve {VERSION}", shown)

    def test_letters_that_begin_commands_are_text(self) -> None:
        self.assertEqual(manual._text(".SH a-b\\c 'd' `e`"), r"\&.SH a\-b\ec \(aqd\(aq \(gae\(ga")


class Completion(unittest.TestCase):
    def setUp(self) -> None:
        folder = tempfile.TemporaryDirectory()
        self.addCleanup(folder.cleanup)
        self.folder = folder.name
        for name in ("a b.4off", "part.scad", "part.4off", "other.txt"):
            Path(folder.name, name).touch()
        Path(folder.name, "parts").mkdir()

    def in_bash(self, *words: str) -> list[str]:
        """What bash proposes for the last of these words."""
        script = completion.bash(words[0])
        script += 'COMP_WORDS=("$@"); COMP_CWORD=$(($# - 1)); complete -p "$1" >/dev/null || exit 9\n'
        script += '"_$1"; printf "%s\\n" "${COMPREPLY[@]}"'
        return self.said(["bash", "--norc", "-c", script, "bash", *words])

    def in_zsh(self, name: str) -> list[str]:
        """What zsh is told about a tool's words."""
        return self.said(["zsh", "-f", "-c", f'_arguments() {{ print -rl -- "$@" }}\n{completion.zsh(name)}'])

    def said(self, words: Sequence[str]) -> list[str]:
        done = subprocess.run(words, cwd=self.folder, stdout=subprocess.PIPE, stderr=subprocess.PIPE, check=False)
        self.assertEqual((done.returncode, done.stderr.decode()), (0, ""))
        return [it for it in done.stdout.decode().split("\n") if it]

    @needs_bash
    def test_bash_completes_options_values_and_files(self) -> None:
        self.assertEqual(self.in_bash("off2stl", "--f"), ["--format"])
        for words in (("--format", ""), ("--format", "="), ("--format", "=", "")):
            self.assertIn("binstl", self.in_bash("off2stl", *words))
        self.assertEqual(self.in_bash("off2stl", "--format", "=", "bi"), ["binstl"])
        self.assertEqual(self.in_bash("off2stl", "--unit", ""), [])
        self.assertEqual(sorted(self.in_bash("off2stl", "")), ["a b.4off", "part.4off", "parts"])
        self.assertEqual(sorted(self.in_bash("scad2off", "p")), ["part.scad", "parts"])
        self.assertEqual(self.in_bash("scad2off", "-d", ""), ["parts"])
        self.assertEqual(self.in_bash("scadserve", ""), ["run", "demo"])
        for name in ALL:
            options = [option for it in parser_of(name)._actions for option in it.option_strings]
            self.assertEqual(self.in_bash(name, "-"), options)

    @needs_zsh
    def test_zsh_is_told_of_each_option_with_its_help(self) -> None:
        self.assertIn("*:FILE:_files -g \"*.scad\"", self.in_zsh("scad2off"))
        self.assertIn("::FILE:_files -g \"*.4off\"", self.in_zsh("off2svg"))
        self.assertIn("1:word:(run demo)", self.in_zsh("scadserve"))
        for name in ALL:
            told = self.in_zsh(name)
            for action in parser_of(name)._actions:
                said = re.sub(r"([\[\]:\\])", r"\\\1", manual.help_of(parser_of(name), action))
                for option in action.option_strings:
                    pattern = rf"(\*|\([^)]*\)){re.escape(option)}[=+]?\[{re.escape(said)}\](:.*)?"
                    self.assertEqual(len([it for it in told if re.fullmatch(pattern, it)]), 1, option)


if __name__ == "__main__":
    unittest.main()
