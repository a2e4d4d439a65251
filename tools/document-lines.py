#!/usr/bin/env python3
"""Says where docs/ARCHITECTURE.md gives another line for a function than its file has: ./tools/document-lines.py [--write]

A row of the document's table names a function and its place, as in | `serve` | `crates/script_server/src/server.rt:31` |. Each
wrong place is a line on standard output, and then the status is 1; with --write they are set right, and the status is 0. A
function that its file lacks, or a file that is not there, is status 1 either way.
"""

from __future__ import annotations

import re
import sys
from pathlib import Path

TOP = Path(__file__).resolve().parent.parent
ROW = re.compile(r"^\| `(?P<name>\w+)` \| `(?P<file>crates/[\w/]+\.rt):(?P<line>\d+)` \|", re.MULTILINE)


def line_of(name: str, file: str) -> int | None:
    """The line, from 1, on which the one function of this name begins; None where there is no such file or function."""
    try:
        lines = (TOP / file).read_text(encoding="utf-8").splitlines()
    except OSError:
        return None
    begins = re.compile(rf"\s*(?:pub(?:\(crate\))? )?fn {name}\b")
    found = [number for number, line in enumerate(lines, 1) if begins.match(line)]
    return found[0] if len(found) == 1 else None


def set_right(text: str) -> tuple[str, list[str], list[str]]:
    """The text with the right lines, what was wrong in it, and what is not there at all."""
    wrong: list[str] = []
    missing: list[str] = []

    def row(match: re.Match[str]) -> str:
        line = line_of(match["name"], match["file"])
        if line is None:
            missing.append(f"{match['file']}: no one function {match['name']}")
            return match[0]
        if line != int(match["line"]):
            wrong.append(f"{match['file']}:{line}: {match['name']}, and not {match['line']}")
        return match[0].replace(f":{match['line']}`", f":{line}`")

    return ROW.sub(row, text), wrong, missing


def main(words: list[str]) -> int:
    if words not in ([], ["--write"]):
        print(__doc__, file=sys.stderr)
        return 2
    document = TOP / "docs" / "ARCHITECTURE.md"
    text, wrong, missing = set_right(document.read_text(encoding="utf-8"))
    for said in missing + wrong:
        print(said)
    if words and wrong:
        document.write_text(text, encoding="utf-8")
    return 1 if missing or (wrong and not words) else 0


if __name__ == "__main__":
    sys.exit(main(sys.argv[1:]))
