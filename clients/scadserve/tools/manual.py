"""Man pages of the tools and of the starter, from the words that --help says.

    python3 -m scadserve.manual DIR    # DIR/scad2off.1 and so on
"""

from __future__ import annotations

import argparse
import re
import sys
from pathlib import Path
from typing import Sequence

from ..version import VERSION
from .catalogue import STARTER, TOOLS, parser_of

# What stands for another letter in a man page, or begins a command there.
_OTHERS = {"\\": r"\e", "-": r"\-", "`": r"\(ga", "'": r"\(aq", "^": r"\(ha", "~": r"\(ti"}


def help_of(parser: argparse.ArgumentParser, action: argparse.Action) -> str:
    """What --help says of an option or of a file, without its layout."""
    return (action.help or "") % {**vars(action), "prog": parser.prog}


def value_of(action: argparse.Action) -> str:
    """What --help calls the value of an option, or a file; empty where there is none."""
    if action.option_strings and action.nargs == 0:
        return ""
    if action.metavar is None and action.choices is not None:
        return "{" + ",".join(map(str, action.choices)) + "}"
    return " ".join(action.metavar) if isinstance(action.metavar, tuple) else str(action.metavar or action.dest.upper())


def page(name: str) -> str:
    """The man page of a tool."""
    parser = parser_of(name)
    # (argparse has no public list of what was added to a parser)
    options = [it for it in parser._actions if it.option_strings]
    files = [it for it in parser._actions if not it.option_strings]
    about = parser.description or ""
    usage = " ".join(parser.format_usage().split()).partition(f"{name} ")[2]
    lines = [f'.TH {name.upper()} 1 "" "scadserve {VERSION}" "scadserve"', ".SH NAME"]
    lines += [_text(f"{name} - {_begun_small(about).rstrip('.')}")]
    lines += [".SH SYNOPSIS", f".B {_text(name)}", _text(usage), ".SH DESCRIPTION", _text(about)]
    for heading, actions in (("ARGUMENTS", files), ("OPTIONS", options)):
        lines += [f".SH {heading}"] * bool(actions)
        for action in actions:
            lines += [".TP", _head(action), _text(help_of(parser, action))]
    lines += [".SH NOTES", _text(parser.epilog)] if parser.epilog else []
    others = [it for it in (STARTER, *TOOLS) if it != name]
    lines += [".SH SEE ALSO", *[f".BR {_text(it)} (1){',' * (it != others[-1])}" for it in others]]
    return "\n".join(lines) + "\n"


def _head(action: argparse.Action) -> str:
    """The names of an option with its value, or the name of a file."""
    names = ", ".join(rf"\fB{_text(it)}\fR" for it in action.option_strings)
    value = rf"\fI{_text(value_of(action))}\fR" if value_of(action) else ""
    return " ".join(it for it in (names, value) if it)


def _text(said: str) -> str:
    """A text as a man page has it, so that each letter is shown as it is and none is a command."""
    plain = " ".join(said.split())
    shown = "".join(_OTHERS.get(it, it) for it in plain)
    return rf"\&{shown}" if re.match(r"[.]", shown) else shown


def _begun_small(about: str) -> str:
    return about[:1].lower() + about[1:]


def main(words: Sequence[str]) -> int:
    """Writes each page to the folder that is named."""
    folder = Path(words[0])
    folder.mkdir(parents=True, exist_ok=True)
    for name in (STARTER, *TOOLS):
        (folder / f"{name}.1").write_text(page(name), "utf-8")
    return 0


if __name__ == "__main__":
    sys.exit(main(sys.argv[1:]))
