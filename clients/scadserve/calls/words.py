"""The words of the tools: one parser for each, which no option is told to by a part of its name.

`source_words` are those that each tool takes which reads sources, and `outs_of` is where what it makes of each goes.
"""

from __future__ import annotations

import argparse
import contextlib
import os
import re
from typing import TYPE_CHECKING, Mapping, NoReturn, Sequence

from ..ending import BadCall
from ..files import called, reason, say, write_file
from ..source.lengths import length_argument
from ..version import VERSION

if TYPE_CHECKING:
    from ..openscad.conversion import Wanted


class Words(argparse.ArgumentParser):
    """The words of a tool. Wrong ones raise BadCall."""

    def __init__(self, tool: str, description: str, epilog: str | None = None) -> None:
        super().__init__(prog=tool, description=description, epilog=epilog, formatter_class=_Help, allow_abbrev=False)
        self.add_argument("--version", action=_Version, nargs=0, help="show the version and exit")

    def print_help(self, file: object = None) -> None:
        """Writes the help as all else is written."""
        write_out("-", self.format_help().encode())

    def error(self, message: str) -> NoReturn:
        """Raises the fault of a call."""
        raise BadCall(f"{message} (see {self.prog} --help)")

    def of_files(self, words: Sequence[str]) -> argparse.Namespace:
        """What these words ask for, of a parser with `files`: options and files in any order, and files alone behind `--`."""
        words = list(words)
        end = words.index("--") if "--" in words else len(words)
        asked = self.parse_intermixed_args(words[:end])
        asked.files += words[end + 1 :]
        return asked


class _Help(argparse.HelpFormatter):
    """What writes a help as wide as the terminal is. (argparse makes one for each word, and would load `shutil` for that.)"""

    def __init__(self, prog: str) -> None:
        super().__init__(prog, width=_columns() - 2)


def _columns() -> int:
    """How wide the terminal is: what COLUMNS says, or what it says itself, or else 80."""
    said = os.environ.get("COLUMNS", "")
    with contextlib.suppress(OSError):
        return int(said) if said.isdecimal() and int(said) else os.get_terminal_size(1).columns or 80
    return 80


class _Version(argparse.Action):
    """Writes the tool's name and the version, and ends."""

    def __call__(self, parser: argparse.ArgumentParser, *_: object) -> NoReturn:
        write_out("-", f"{parser.prog} {VERSION}\n".encode())
        parser.exit()


def write_out(out: str, data: bytes) -> None:
    """Writes a file whole or not at all; `-` is standard output. Raises BadCall."""
    try:
        write_file(out, data)
    except BrokenPipeError:
        raise
    except (OSError, ValueError) as error:
        raise BadCall(f"cannot write {called(out, 'standard output')}: {reason(error)}") from None


def say_bad(tool: str, bad: BadCall) -> None:
    """Says each line of a call that is wrong."""
    say("".join(f"{tool}: {it}\n" for it in bad.args))


def source_words(words: Words, made: str, ending: str) -> None:
    """The words of a tool that makes things of this kind and with this ending of sources."""
    files = "an OpenSCAD source; `-` is standard input; each word after `--` is a FILE"
    words.add_argument("files", nargs="*", metavar="FILE", help=files)
    words.add_argument("-o", dest="out", metavar="OUT", help=f"write the {made} to the file OUT, whole or not at all")
    words.add_argument(
        "-d",
        dest="folder",
        metavar="DIR",
        help=f"write the {made} of each FILE to DIR/NAME{ending}, and at the end print how many were made",
    )
    words.add_argument("--half", action="store_true", help="corners may lie at half units")
    words.add_argument(
        "-D",
        dest="definitions",
        metavar="NAME=VALUE",
        action="append",
        type=definition,
        default=[],
        help="assign a variable after the source's own lines, so that this value counts",
    )
    reading_words(words)


def reading_words(words: Words) -> None:
    """The words of each tool that reads sources with what they include."""
    words.add_argument(
        "-I",
        dest="folders",
        metavar="DIR",
        action="append",
        default=[],
        help="look in DIR too for files that a source includes or uses, before the folders of OPENSCADPATH",
    )
    words.add_argument("--no-notes", action="store_true", help="don't note forms of which OpenSCAD makes another solid")


def seconds_argument(text: str) -> float:
    """A time in seconds. Raises ArgumentTypeError."""
    try:
        seconds = float(text)
    except ValueError:
        seconds = 0.0
    # (no clock counts further, and neither is a number that is none)
    if not 0 < seconds <= 1_000_000:
        raise argparse.ArgumentTypeError(f"{text!r} is not a number of seconds above 0")
    return seconds


def front_end_words(words: Words) -> None:
    """The words of a tool that reads sources by OpenSCAD too."""
    words.add_argument(
        "--by-openscad",
        action="store_true",
        help="let OpenSCAD evaluate the source, and build the solid of its corners, rounded to a grid; changes are reported",
    )
    front_end_wishes(words, "with --by-openscad: ")
    jobs_word(words, "with --by-openscad: how many tiles of a large part are made at the same time")


def front_end_wishes(words: Words, when: str = "") -> None:
    """What may be asked of a design that OpenSCAD has evaluated."""
    words.add_argument("--exact", action="store_true", help=f"{when}refuse a slice that can only be made as a hull")
    words.add_argument("--flat", type=length_argument, metavar="H", help=f"{when}make a flat design H high")
    words.add_argument("--strict", action="store_true", help=f"{when}treat what OpenSCAD warns of, or leaves out, as a fault")
    words.add_argument(
        "--tolerance",
        type=length_argument,
        metavar="D",
        help=f"{when}refuse a solid that is off by more than D; default: a hundredth of its size",
    )
    of_fewer = "leave out corners of curves if one source would have too many planes, however far off that is"
    words.add_argument("--fewer", action="store_true", help=f"{when}{of_fewer}")


def wanted_of(asked: argparse.Namespace) -> Wanted:
    """What is asked for by these words. Raises BadCall."""
    # (the front end is loaded where it is asked for alone, so that the tools start quickly)
    from ..openscad.conversion import Wanted

    if asked.exact and asked.fewer:
        raise BadCall("--exact and --fewer can't both be given")
    return Wanted(
        is_exact=asked.exact, height=asked.flat, tolerance=asked.tolerance, may_be_fewer=asked.fewer, is_strict=asked.strict
    )


def jobs_word(words: Words, what: str) -> None:
    """The word for how much is done side by side."""
    words.add_argument("--jobs", type=_jobs, metavar="N", help=f"{what}; default: one for each processor")


def test_front_end(asked: argparse.Namespace) -> None:
    """Raises BadCall where words go with OpenSCAD's front end alone, or not with it."""
    for word in ("exact", "flat", "strict", "tolerance", "fewer", "jobs"):
        if getattr(asked, word) and not asked.by_openscad:
            raise BadCall(f"--{word} is for --by-openscad")
    if asked.half and asked.by_openscad:
        raise BadCall("--by-openscad chooses its grid itself, so --half can't be given with it")


def _jobs(text: str) -> int:
    if not re.fullmatch("[1-9][0-9]{0,2}", text):
        raise argparse.ArgumentTypeError(f"{text!r} is not a number from 1 to 999")
    return int(text)


def definition(text: str) -> str:
    """One assignment, without the `;` behind it. Raises ArgumentTypeError."""
    # (what reads sources is loaded later, so that a server can be begun before)
    from ..source.structure import NoProgram, structure_of
    from ..source.tokens import tokens

    text = text.strip(" ").rstrip("; ")
    try:
        found = structure_of(tokens([text.encode("utf-8", "surrogateescape") + b";"]))
    except NoProgram:
        found = None
    if "\n" in text or found is None or [(it.first, it.last + 1) for it in found.assignments] != [(0, len(found.tokens))]:
        raise argparse.ArgumentTypeError(f"{text!r} is not one NAME=VALUE")
    return text


def test_outs(asked: argparse.Namespace, made: str, others: Mapping[str, str]) -> None:
    """Raises BadCall where the words of one call say several ways for what it makes, or OUT has the ending of other things."""
    if not asked.files:
        raise BadCall("no FILE is named")
    if asked.out is not None and asked.folder is not None:
        raise BadCall("-o and -d can't both be given")
    other = others.get(os.path.splitext(asked.out or "-")[1].lower())
    if other:
        raise BadCall(f"{asked.out} would be {made}: {other}")
    if asked.files.count("-") > (asked.folder is None):
        raise BadCall("`-` is read once, and has no name for -d")


def outs_of(files: Sequence[str], out: str | None, folder: str | None, ending: str, of: str = ".scad") -> list[str]:
    """The file that what is made of each file goes to, which has this ending in place of another one; `-` is standard
    output. Raises BadCall where two go to one."""
    if folder is None:
        return ["-" if out is None else out] * len(files)
    outs: dict[str, str] = {}
    for file in files:
        name = os.path.basename(file)
        place = os.path.join(folder, (name[: -len(of)] if name.endswith(of) else name) + ending)
        if place in outs:
            raise BadCall(f"{outs[place]} and {file} would both be written to {place}")
        outs[place] = file
    return list(outs)
