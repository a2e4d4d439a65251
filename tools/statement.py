#!/usr/bin/env python3
"""Writes the pages of docs/statement, which have all that the program's contract rests on, and their index, docs/STATEMENT.md:
./tools/statement.py [--check | --list | --html FOLDER]

PROMISE begins at the public call `serve`, and has its clauses and each definition that these reach by name, from above. What
is cut there stands on ALGORITHM and TALLY, each with what it reaches beyond the pages before it; LAWS and COSTS have laws, with
what these name beyond all that. With --check nothing is written, and the status is 1 where a page is out of date; with --list,
too, nothing is written. With --html the same pages are written into a folder as HTML, where each name is a link. Each
definition without a comment is a line on standard output, and then the status is 1 in any case; so it is where a crate has no
heading, where a clause has no plain words, and where a name of the library has none. """

from __future__ import annotations

import sys
from pathlib import Path

from definitions import Failure
from statement_html import write_html
from statement_pages import index, pages, read

TOP = Path(__file__).resolve().parent.parent
FOLDER = "docs/statement"
INDEX = "docs/STATEMENT.md"


def written(top: Path) -> tuple[dict[str, str], list[str]]:
    """The text of each page by its path, the index among them, and what has no comment on them."""
    statement = read(top)
    made = pages(statement)
    texts = {f"{FOLDER}/{it.name}.md": it.text for it in made}
    return {**texts, INDEX: index(statement, made)}, statement.without_comment()


def out_of_date(top: Path, texts: dict[str, str]) -> list[str]:
    """The pages that are not those of the texts, and those of the folder that no text has."""
    there = {f"{FOLDER}/{it.name}" for it in (top / FOLDER).glob("*.md")}
    return [it for it in sorted({*there, *texts}) if it not in texts or not is_text(top / it, texts[it])]


def is_text(path: Path, text: str) -> bool:
    """Whether a file is there and has this text."""
    return path.exists() and path.read_text(encoding="utf-8") == text


def main(words: list[str], top: Path = TOP) -> int:
    """Writes or checks the pages, and gives the status."""
    is_html = len(words) == 2 and words[0] == "--html"
    if words not in ([], ["--check"], ["--list"]) and not is_html:
        print(__doc__, file=sys.stderr)
        return 2
    try:
        if is_html:
            write_html(read(top), Path(words[1]))
            return 0
        texts, missing = written(top)
    except Failure as failure:
        print(failure)
        return 1
    stale = out_of_date(top, texts) if words == ["--check"] else []
    for said in [*missing, *(f"{it} is out of date: write it by ./tools/statement.py" for it in stale)]:
        print(said)
    if not words:
        (top / FOLDER).mkdir(exist_ok=True)
        for path, text in texts.items():
            (top / path).write_text(text, encoding="utf-8")
    return 1 if missing or stale else 0


if __name__ == "__main__":
    sys.exit(main(sys.argv[1:]))
