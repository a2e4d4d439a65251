"""The documents: what they say of words, places, links and sources, compared with the program and with one another.

Each section of docs/FAULTS.md has a source or a command, its answer, the cause and the cure; where the proved program is
built, each is run. A block below a cure is a source that is answered by a solid. Without it, the forms are tested alone.
"""

from __future__ import annotations

import os
import re
import shlex
import shutil
import subprocess
import sys
import unittest
from pathlib import Path
from typing import NamedTuple

from tests import calls
from tests.calls import PROGRAM, needs_program

TOP = Path(calls.TOP)
DOCUMENTS = [*sorted(TOP.glob("*.md")), TOP / "crates/README.md", *sorted((TOP / "docs").rglob("*.md"))]

SECTION = re.compile(
    r"## (?P<word>\w+)\n\n(?:(?P<block>(?:    .+\n)+)|Source: none is known.+\n)\n"
    r"Answer: `(?P<answer>[^`\n]+)`\n\nCause: (?P<cause>.+?)\n\nCure: (?P<cure>.+?)\n(?:\n(?P<cured>(?:    .+\n)+))?",
    re.DOTALL,
)
# What the words of the answers are read from.
WORDS = {
    "crates/text_place/src/fault.rt": r'FaultKind::\w+ => "(\w+)"',
    "crates/reply_text/src/text.rt": r'SessionFault::\w+ => "(\w+)"'
    r'|PassedLimit::\w+(?:\(node\))? => (?:\{\s*)?push_text\(out, "(\w+)',
    "crates/script_reader/src/fault_line.rt": r'=> b"(\w+)"',
    "crates/script_service/src/status.rt": r"^    (\w+),$",
}
# Answers that no source is known to have.
UNKNOWN = {"corners", "vertices", "nomem", "NoMemory"}


class Section(NamedTuple):
    """A word of docs/FAULTS.md: a source, or commands behind `$`, the answer, and a source that has none of it."""

    source: list[str]
    answer: str
    cured: list[str]


def lines(block: str) -> list[str]:
    return [it[4:] for it in (block or "").splitlines()]


def sections() -> dict[str, Section]:
    """The sections by word. Raises AssertionError at one of another form."""
    found = {}
    for text in re.split(r"^(?=## )", (TOP / "docs/FAULTS.md").read_text(encoding="utf-8"), flags=re.MULTILINE)[1:]:
        match = SECTION.fullmatch(text.rstrip("\n") + "\n")
        assert match, f"another form: {text.splitlines()[0]}"
        found[match["word"]] = Section(lines(match["block"]), match["answer"], lines(match["cured"]))
    return found


def script_of(sources: list[list[str]]) -> str:
    """A script of clients that put and export a source each."""
    return "".join(
        f"c{number} put {at} {line}\n" for number, source in enumerate(sources) for at, line in enumerate(source, 1)
    ) + "".join(f"c{number} export\n" for number in range(len(sources)))


def output(sources: list[list[str]]) -> str:
    """What the program, started as ./scadserve does it, answers exports of up to 16 sources."""
    words = ["sh", "-c", '. "$0/memory.sh" && exec "$@"', TOP, PROGRAM, "run"]
    return subprocess.run(words, input=script_of(sources).encode(), stdout=subprocess.PIPE, check=True).stdout.decode()


def answers(sources: list[list[str]]) -> list[str]:
    """What the exports of up to 16 sources are answered, without the numbers."""
    said = output(sources)
    exports = re.findall(r"^\d+ ((?:solid|fault|complex|nomem).*)$", said, re.MULTILINE)
    assert len(exports) == len(sources), said[:200]
    return exports


class Faults(unittest.TestCase):
    """docs/FAULTS.md."""

    def test_each_word_has_a_section(self) -> None:
        wanted = {"complex", "nomem", "Empty", "NoFile", "Ring", "TooManyFiles", "BadUnit", "Warned", "TooCoarse"}
        for file, pattern in WORDS.items():
            found = re.findall(pattern, (TOP / file).read_text(encoding="utf-8"), re.MULTILINE)
            self.assertTrue(found, file)
            wanted |= {word for it in found for word in ([it] if isinstance(it, str) else it) if word}
        self.assertEqual(set(sections()), wanted)

    def test_the_table_names_each_section_once(self) -> None:
        text = (TOP / "docs/FAULTS.md").read_text(encoding="utf-8")
        named = re.findall(r"\[(\w+)\]\(#(\w+)\)", text[: text.index("\n## ")])
        self.assertEqual(sorted(word for word, _ in named), sorted(sections()))
        self.assertTrue(all(word.lower() == anchor for word, anchor in named))

    def test_only_these_words_have_no_source(self) -> None:
        self.assertEqual({word for word, it in sections().items() if not it.source}, UNKNOWN)

    @needs_program
    def test_sources_have_their_answers(self) -> None:
        found = [(word, it) for word, it in sections().items() if it.source and not it.source[0].startswith("$")]
        for at in range(0, len(found), 16):
            said = answers([it.source for _, it in found[at : at + 16]])
            for (word, it), answer in zip(found[at : at + 16], said):
                self.assertEqual(answer, it.answer, word)

    @needs_program
    def test_cured_sources_are_solids(self) -> None:
        found = [(word, it.cured) for word, it in sections().items() if it.cured]
        for at in range(0, len(found), 16):
            for (word, _), answer in zip(found[at : at + 16], answers([it for _, it in found[at : at + 16]])):
                self.assertTrue(answer.startswith("solid ") and answer != "solid 2", f"{word}: {answer}")

    @needs_program
    def test_commands_have_their_answers(self) -> None:
        for word, it in sections().items():
            needs_openscad = any("--by-openscad" in line for line in it.source)
            if it.source and it.source[0].startswith("$") and (shutil.which("openscad") or not needs_openscad):
                command = "\n".join(it.source)[2:].replace("./scadserve", shlex.quote(PROGRAM))
                said = subprocess.run(
                    command, shell=True, cwd=TOP, stdout=subprocess.PIPE, stderr=subprocess.DEVNULL, check=False
                )
                printed = [re.sub(r"^\d+ ", "", line) for line in said.stdout.decode().splitlines()]
                self.assertIn(it.answer, printed, word)


class Places(unittest.TestCase):
    """Links and places in all documents."""

    def test_links_lead_to_files_and_headings(self) -> None:
        for document in DOCUMENTS:
            for target in re.findall(r"\]\(([^)\s]+)\)", document.read_text(encoding="utf-8")):
                if "://" in target:
                    continue
                path, _, anchor = target.partition("#")
                file = document.parent / path if path else document
                with self.subTest(document=document.name, target=target):
                    self.assertTrue(file.exists())
                    if anchor:
                        self.assertIn(anchor, headings(file))

    def test_tools_can_be_run_by_their_names(self) -> None:
        for tool in re.findall(r"(?<!sh )`?\b(tools/[\w-]+\.\w+)", "".join(it.read_text(encoding="utf-8") for it in DOCUMENTS)):
            self.assertTrue(os.access(TOP / tool, os.X_OK), tool)

    def test_readme_is_short(self) -> None:
        self.assertLessEqual(len((TOP / "README.md").read_text(encoding="utf-8").splitlines()), 100)

    def test_lines_of_functions_are_right(self) -> None:
        said = subprocess.run([sys.executable, TOP / "tools/document-lines.py"], stdout=subprocess.PIPE, check=False)
        self.assertEqual((said.returncode, said.stdout.decode()), (0, ""))


def headings(file: Path) -> list[str]:
    """The anchors of a document's headings: lower case, spaces as hyphens, all else but letters and digits left out."""
    found = re.findall(r"^#+ (.+)$", file.read_text(encoding="utf-8"), re.MULTILINE)
    return [re.sub(r"[^a-z0-9 -]", "", it.lower()).replace(" ", "-") for it in found]


if __name__ == "__main__":
    unittest.main()
