"""The tools by name, each with the parser of its words. Help, man pages, completion and releases are made from these."""

from __future__ import annotations

from importlib import import_module
from typing import Sequence

from ..calls.words import Words, say_bad
from ..ending import BadCall

#: Each is a module of this package that has `main` and `parser`, and a file of the same name in `bin/` that starts it.
TOOLS = ("scad2off", "scad2stl", "off2stl", "off2svg", "off2html", "off2in", "off2join", "csg2scad", "scadlive", "scadls")
#: The starter of the program, whose words are read by the program, and told here.
STARTER = "scadserve"
#: All starters, by their place from the top.
STARTERS = (STARTER, *(f"bin/{name}" for name in TOOLS))
STATUSES = (
    "The status is 0 where the whole output was written, 2 where the words are others, 3 where the input is not a script, 4 "
    "where it can't be read, 5 where the output can't be written, and 6 where memory ran out. Where no proved program of "
    "these sources is there, it is 125 where an unproved run gave no answer, and 127 where there is no rt to run them. "
    "SCADSERVE_BOOT=no in the environment leaves out the program that comes with the sources, in boot/."
)


def parser_of(name: str) -> Words:
    """The parser of a tool's words, or of those that the starter hands to the program."""
    if name == STARTER:
        return _starter_words()
    words = import_module(f".{name}", __package__).parser()
    assert isinstance(words, Words)
    return words


def _starter_words() -> Words:
    """The words of the program, as docs/SPECIFICATION.md has them."""
    about = "Answers a script of edits and exports with the solids of OpenSCAD sources: the server, of proved answers."
    words = Words(STARTER, about, STATUSES)
    words.usage = "scadserve run [--workers N] [--memo W] [--share S] [--half] [--tally] | demo N"
    words.add_argument("run", choices=["run"], metavar="run", help="answer the script on standard input, once it is read")
    words.add_argument("demo", choices=["demo"], metavar="demo N", help="serve a script of its own, of N parts for each client")
    words.add_argument("--workers", metavar="N", help="how many workers an export may have, 1 to 64; else 4")
    words.add_argument("--memo", metavar="W", help="how much the memo of solids may hold, 0 to 2,000,000; else 500,000")
    words.add_argument("--share", metavar="S", help="what of it is kept for each client, 0 to 125,000, 16 S at most W; else 0")
    words.add_argument("--half", action="store_true", help="corners may lie at half units")
    words.add_argument("--tally", action="store_true", help="end the output with a line that says what the memo did")
    return words


def main(words: Sequence[str]) -> int:
    """Tells the help or the version of a tool, where its name is followed by that word, with the status of the program."""
    try:
        parser_of(words[0]).parse_args(words[1:])
    except BadCall as bad:
        say_bad(words[0], bad)
        return 5
    return 0
