"""The examples of the pages, run as they stand there: commands with what they print, Python with what it prints, and sources.

In a block of `console` each line behind `$` is a command, and what stands below it is what it prints on both streams; a line
`..` stands for any number of lines. The blocks of a page share a folder, in which the top of the repository is seen by name.
A page is to be read so: no other block has a line behind `$`.
"""

from __future__ import annotations

import os
import re
import shutil
import subprocess
import sys
import tempfile
import unittest
from pathlib import Path
from typing import Iterator, NamedTuple

from scadserve import Solid, solve
from tests.calls import PROGRAM, TOP, needs_program

# The generated page has no commands, and those of the live page want its server, with which test_live_document runs them.
OTHERS = ("STATEMENT.md", "LIVE.md")
PAGES = [Path(TOP, "README.md"), *(it for it in sorted(Path(TOP, "docs").glob("*.md")) if it.name not in OTHERS)]
# What a page sees of the repository, and may not write to.
SEEN = ("bin", "bench", "clients", "docs", "examples", "gallery", "library")
# Programs that a block of commands may need beside the tools.
BESIDE = ("openscad", "admesh", "prusa-slicer")


class Block(NamedTuple):
    """A block of code: its page, the number of its first line inside, what its fence says, and its lines."""

    page: Path
    first: int
    kind: str
    lines: list[str]

    def place(self, line: int = 0) -> str:
        """A line of it, from 0."""
        return f"{self.page.relative_to(TOP)}:{self.first + line}"


class Step(NamedTuple):
    """A command at its line, and the lines that it prints."""

    at: int
    command: str
    printed: list[str]


def blocks(page: Path) -> Iterator[Block]:
    """The blocks of code of a page, in order, also those in lists."""
    kind, first, lines = None, 0, []
    for number, line in enumerate(page.read_text(encoding="utf-8").splitlines(), 1):
        fence = re.fullmatch(r" *```(\w*)", line)
        if fence and kind is None:
            kind, first, lines = fence[1], number + 1, []
        elif fence:
            assert kind is not None
            yield Block(page, first, kind, lines)
            kind = None
        elif kind is not None:
            lines.append(line)


def steps(block: Block) -> list[Step]:
    """The commands of a block with what they print. A `\\` at the end of a line of a command has the next one go on with it."""
    found: list[Step] = []
    is_open = False
    for at, line in enumerate(block.lines):
        if is_open:
            found[-1] = found[-1]._replace(command=f"{found[-1].command}\n{line}")
        elif line.startswith("$ "):
            found.append(Step(at, line[2:], []))
        else:
            found[-1].printed.append(line)
        is_open = line.endswith("\\") and (is_open or line.startswith("$ "))
    return found


def is_printed(wanted: list[str], found: list[str]) -> bool:
    """Whether lines are those that are wanted, where `..` stands for any."""
    form = "".join(r"(?:.*\n)*" if it == ".." else re.escape(it) + r"\n" for it in wanted)
    return re.fullmatch(form, "".join(f"{it}\n" for it in found)) is not None


class Pages(unittest.TestCase):
    def test_commands_with_what_they_print_stand_in_blocks_that_are_run(self) -> None:
        for page in PAGES:
            for block in blocks(page):
                if block.kind == "console":
                    self.assertTrue(block.lines[0].startswith("$ "), block.place())
                else:
                    found = [block.place(at) for at, line in enumerate(block.lines) if line.startswith("$ ")]
                    self.assertEqual(found, [], f"a block of {block.kind!r} isn't run")

    def test_commands_without_are_read_by_the_shell_and_name_tools_that_are_there(self) -> None:
        for block in (it for page in PAGES for it in blocks(page) if it.kind == "sh"):
            text = "\n".join(block.lines)
            done = subprocess.run(["sh", "-n"], input=text, capture_output=True, text=True, check=False)
            self.assertEqual((done.returncode, done.stderr), (0, ""), block.place())
            for tool in re.findall(r"(?<![\w/.])((?:bin|tools|bench)/[\w.-]+)", text):
                self.assertTrue(os.access(Path(TOP, tool), os.X_OK) or tool.endswith(".sh"), f"{block.place()}: {tool}")

    def test_what_is_wanted_may_leave_lines_open(self) -> None:
        self.assertTrue(is_printed(["a.", "..", "b"], ["a.", "x", "y", "b"]))
        self.assertFalse(is_printed(["a.", "..", "b"], ["ab", "x", "b"]))
        self.assertFalse(is_printed(["a"], ["a", "b"]))

    def test_the_table_of_a_script_has_its_lines_and_replies(self) -> None:
        text = PAGES[0].read_text(encoding="utf-8")
        rows = re.findall(
            r"^\| `((?:left|right) [^`]*)` \| `([^`]*)`(?:, and (?:`([^`]*)`|\d+ lines[^|]*))? \|", text, re.MULTILINE
        )
        script = Path(TOP, "examples/edits.script").read_text(encoding="ascii").splitlines()
        self.assertEqual([command for command, *_ in rows], script)
        output = Path(TOP, "examples/edits.output").read_text(encoding="ascii")
        for name in ("left", "right"):
            replies = output.partition(f"== {name}\n")[2].partition("== ")[0].splitlines()
            wanted = [line for command, *said in rows if command.startswith(name) for line in said if line]
            self.assertEqual([it for it in replies if it in wanted], wanted, name)


@needs_program
class Run(unittest.TestCase):
    def setUp(self) -> None:
        folder = tempfile.TemporaryDirectory()
        self.addCleanup(folder.cleanup)
        self.folder = Path(folder.name)
        for name in SEEN:
            (self.folder / name).symlink_to(Path(TOP, name))
        server = self.folder / "scadserve"
        server.write_text(f"#!/bin/sh\nexec '{PROGRAM}' \"$@\"\n")
        server.chmod(0o755)
        path = os.pathsep.join([str(self.folder / "bin"), os.path.dirname(sys.executable), os.environ["PATH"]])
        clients = os.path.join(TOP, "clients")
        self.environment = {
            **os.environ, "PATH": path, "SCADSERVE": str(server), "PYTHONPATH": clients, "PYTHONDONTWRITEBYTECODE": "1"
        }

    def printed(self, *words: str) -> str:
        """What a command prints, on both streams."""
        done = subprocess.run(
            words,
            cwd=self.folder,
            env=self.environment,
            stdout=subprocess.PIPE,
            stderr=subprocess.STDOUT,
            timeout=60,
            check=False,
        )
        return done.stdout.decode()

    def run_page(self, page: Path) -> int:
        """Runs the commands of a page, and gives how many there were."""
        count = 0
        for block in (it for it in blocks(page) if it.kind == "console"):
            needed = [it for it in BESIDE if re.search(rf"\b{it}\b", "\n".join(block.lines))]
            if not all(map(shutil.which, needed)):
                continue
            for step in steps(block):
                found = self.printed("sh", "-c", step.command).splitlines()
                shown = "\n".join(found)
                self.assertTrue(is_printed(step.printed, found), f"{block.place(step.at)}: {step.command} prints\n{shown}")
                count += 1
        return count

    def test_commands_of_the_first_page(self) -> None:
        self.assertGreaterEqual(self.run_page(PAGES[0]), 4)

    def test_commands_of_the_other_pages(self) -> None:
        self.assertGreaterEqual(sum(map(self.run_page, PAGES[1:])), 6)

    def test_python_prints_what_stands_below_it(self) -> None:
        count = 0
        for page in PAGES:
            found = list(blocks(page))
            for block, below in zip(found, found[1:]):
                is_below = below.kind == "" and below.first == block.first + len(block.lines) + 2
                if block.kind == "python" and is_below:
                    # (scripts are run by ./scadserve, unless another server is told)
                    code = "\n".join(block.lines).replace("run([script])", f"run([script], [{PROGRAM!r}])")
                    out = self.printed(sys.executable, "-c", code)
                    self.assertEqual(out.splitlines(), below.lines, block.place())
                    count += 1
        self.assertGreaterEqual(count, 3)

    def test_each_block_of_python_has_what_it_prints_below_it(self) -> None:
        for page in PAGES:
            ends = [it.first for it in blocks(page) if it.kind == ""]
            for block in (it for it in blocks(page) if it.kind == "python"):
                self.assertIn(
                    block.first + len(block.lines) + 2, ends, f"{block.place()}: a block without a word of what it prints"
                )

    def test_sources_are_solids(self) -> None:
        found = [it for page in PAGES for it in blocks(page) if it.kind == "openscad"]
        self.assertTrue(found)
        for block, it in zip(found, solve(["\n".join(it.lines) for it in found], server=PROGRAM)):
            self.assertIsInstance(it, Solid, f"{block.place()}: {it}")


if __name__ == "__main__":
    unittest.main()
