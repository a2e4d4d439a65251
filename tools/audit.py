#!/usr/bin/env python3
"""Lists what no clause says, and where each sentence of README's 'What is proved' has its clause: ./tools/audit.py [--check |
--kit]

The list stands in docs/PROOFS.md: the public calls without a clause of the crates that the program stands on, each `unsafe`,
each line that reaches outside, how many files of proofs and definitions have a hole or an axiom, and of each library of the kit
the calls that these crates make, with a sum over their statements. Behind it stands the table of sentences. Without a word both
are written anew; with --check nothing is written, and the status is 1 where the page has others. With --kit the statements of
those calls are printed with their text. Where the kit isn't there, its rows stay as they are. """

from __future__ import annotations

import hashlib
import re
import shutil
import subprocess
import sys
from pathlib import Path
from typing import Iterator, NamedTuple, Sequence

from house import OF_THE_KIT, House, read

TOP = Path(__file__).resolve().parent.parent
PAGE = "docs/PROOFS.md"
BEGIN, END = "<!-- What tools/audit.py finds: -->\n", "<!-- End of the audit. -->\n"
PROGRAM = "scadserve"
OUTSIDE = re.compile(r"\bHostRuntime\b|\benv::|\.(?:stdin|stdout|stderr)\(|\b(?:fs|net)::|\bprocess::Command\b|\bextern \"C\"")
UNSAFE = re.compile(r"\bunsafe\b")
# A hole is `?` as a term; the other words are those of what is taken without a proof.
UNPROVED = re.compile(r"(?:^|[\s(])\?\w*(?=[\s)]|$)|\b(?:axiom|postulate)\b")
CALL = re.compile(r"^(?P<margin>\s*)(?P<public>pub )?(?:const )?(?:unsafe )?fn (?P<name>\w+)", re.MULTILINE)
# Each sentence of README's section, by its first words, with the clauses and laws that say it: a call and its crate.
SENTENCES: tuple[tuple[str, tuple[tuple[str, str], ...]], ...] = (
    (
        "the replies of each client are those that its own commands define",
        (("script_server", "serve"), ("script_server", "own_replies")),
    ),
    (
        "a source has exactly one meaning or exactly one first fault",
        (("script_server", "serve"), ("script_server", "some_meaning"), ("script_server", "one_meaning")),
    ),
    ("each text is a 4OFF text whose faces bound what the source means", (("script_server", "serve"),)),
    (
        "each text is watertight",
        (
            ("script_server", "serve"),
            ("script_server", "texts_of_sources_are_watertight"),
            ("watertight", "faces_share_no_inner_point"),
        ),
    ),
    ("take a straight path that ends outside the solid", (("ray_crossings", "crossings_tell_inside"),)),
    ("the printed tally, if it was asked for", (("script_server", "serve"),)),
)


class Failure(Exception):
    """A sentence, a law or a mark that is not there."""


class Place(NamedTuple):
    """A line of a source."""

    path: str
    line: int
    text: str


def sources(top: Path, crates: Sequence[str]) -> Iterator[tuple[str, str]]:
    """The sources of some crates, each with its path below the top."""
    for crate in crates:
        for path in sorted((top / "crates" / crate / "src").rglob("*.rt")):
            yield str(path.relative_to(top)), path.read_text(encoding="utf-8")


def program_crates(house: House) -> list[str]:
    """The crates that the program stands on, and its own, in alphabetical order."""
    return sorted([PROGRAM, *house.reached(house.crates[PROGRAM])])


def signature(text: str, at: int) -> str:
    """A call from where it begins up to its body, or to its `;`."""
    rest = text[at:]
    end = re.search(r"^\s*\{\}?$|[^{]\{\}?$|;$", rest, re.MULTILINE)
    return rest[: end.end()] if end else rest


def without_clause(top: Path, crates: Sequence[str]) -> list[str]:
    """The public calls that promise nothing but to be safe."""
    found = []
    for path, text in sources(top, crates):
        for match in CALL.finditer(text):
            if match["public"] and "ensures" not in signature(text, match.start()):
                found.append(f"`{match['name']}` (`{path}:{text.count(chr(10), 0, match.start(2)) + 1}`)")
    return found


def lines_with(top: Path, crates: Sequence[str], pattern: re.Pattern[str]) -> list[Place]:
    """The lines of code in which something stands, without comments and imports."""
    found = []
    for path, text in sources(top, crates):
        for number, line in enumerate(text.splitlines(), 1):
            code = line.split("//")[0]
            if pattern.search(code) and not code.lstrip().startswith(("use ", "ghost use ")):
                found.append(Place(path, number, code.strip()))
    return found


def unproved(top: Path) -> tuple[int, list[str]]:
    """How many files of proofs and definitions there are, and where one has a hole or an axiom."""
    files = sorted((top / "crates").glob("*/proofs/**/*.antt")) + sorted((top / "crates").glob("*/specs/**/*.antt"))
    found = []
    for path in files:
        for number, line in enumerate(path.read_text(encoding="utf-8").splitlines(), 1):
            if UNPROVED.search(re.sub(r'"[^"]*"', "", line.split("--")[0])):
                found.append(f"`{path.relative_to(top)}:{number}`")
    return len(files), found


def kit() -> Path | None:
    """The folder of the kit's libraries, by the page that `rt doc` names; None where there is no kit."""
    if not shutil.which("rt"):
        return None
    said = subprocess.run(
        ["rt", "doc"], stdout=subprocess.PIPE, stderr=subprocess.DEVNULL, text=True, check=False
    ).stdout.strip()
    folder = Path(said).parent / "rattle"
    return folder if said and folder.is_dir() else None


def statements(top: Path, crates: Sequence[str], folder: Path, library: str) -> list[str]:
    """The statements of a library's calls whose names stand in a source that imports it, with their text."""
    used: set[str] = set()
    for _, text in sources(top, crates):
        imported = re.findall(rf"^\s*(?:pub )?use {library}\b([^;]*);", text, re.MULTILINE)
        if imported:
            used.update(re.findall(r"\b[a-z]\w*", " ".join(imported)))
            used.update(re.findall(r"(?:\.|::)(\w+)(?=[(:])", text))
    found = []
    for path in sorted((folder / library / "src").rglob("*.rt")):
        text = path.read_text(encoding="utf-8")
        for match in [it for it in CALL.finditer(text) if "tests" not in str(path.relative_to(folder)) and it["name"] in used]:
            said = signature(text, match.start()).strip("\n")
            if "ensures" in said or "requires" in said:
                found.append(re.sub(r"\s*\{$", "", said))
    return found


def kit_rows(top: Path, crates: Sequence[str], folder: Path) -> list[str]:
    """A row for each library: how many statements of its calls there are, and the sum of their text."""
    rows = []
    for library in sorted(OF_THE_KIT):
        said = statements(top, crates, folder, library)
        names = sorted({match["name"] for it in said for match in [CALL.search(it)] if match})
        total = hashlib.sha256("\n".join(said).encode()).hexdigest()[:16]
        rows.append(
            f"| the kit's `{library}` | {', '.join(f'`{it}`' for it in names)}: statements {len(said)}, SHA-256 {total}.. |"
        )
    return rows


def line_of(top: Path, crate: str, name: str) -> str:
    """Where a public call of a crate stands. Raises Failure where there is not just one."""
    found = []
    for path, text in sources(top, [crate]):
        for match in re.finditer(rf"^pub fn {name}\b", text, re.MULTILINE):
            found.append(f"{path}:{text.count(chr(10), 0, match.start()) + 1}")
    if len(found) != 1:
        raise Failure(f"{crate}: {len(found)} public calls are named {name}, and not 1")
    return found[0]


def sentence_rows(top: Path) -> list[str]:
    """A row for each sentence of README's section. Raises Failure where the section has others."""
    section = (top / "README.md").read_text(encoding="utf-8").split("## What is proved\n")[1].split("\n## ")[0]
    points = [" ".join(it.split("\n\n")[0].split()) for it in re.split(r"^- ", section, flags=re.MULTILINE)[1:]]
    if len(points) != len(SENTENCES):
        raise Failure(f"README.md has {len(points)} sentences on what is proved, and tools/audit.py has {len(SENTENCES)}")
    rows = []
    for said, (begins, laws) in zip(points, SENTENCES):
        if not said.startswith(begins):
            raise Failure(f"README.md says: {said}; and tools/audit.py: {begins}")
        places = ", ".join(f"`{name}` (`{line_of(top, crate, name)}`)" for crate, name in laws)
        rows.append(f"| {begins} .. | {places} |")
    return rows


def listed(said: Sequence[str]) -> str:
    """Things in a cell of a table."""
    return ", ".join(said) if said else "none"


def section(top: Path, before: str) -> str:
    """The list and the table, with the rows of the kit as they are now, or as they were where it is not there."""
    crates = program_crates(read(top))
    folder = kit()
    files, holes = unproved(top)
    outside = [f"`{it.text}` (`{it.path}:{it.line}`)" for it in lines_with(top, crates, OUTSIDE)]
    unsafe = [f"`{it.path}:{it.line}`" for it in lines_with(top, crates, UNSAFE)]
    of_kit = kit_rows(top, crates, folder) if folder else [it for it in before.splitlines() if it.startswith("| the kit's ")]
    rows = ["| What is looked for | What is found |", "|---|---|"]
    rows += [
        f"| public calls without a clause, in the {len(crates)} crates of the program | {listed(without_clause(top, crates))} |"
    ]
    rows += [f"| `unsafe` | {listed(unsafe)} |", f"| lines that reach outside | {listed(outside)} |"]
    rows += [f"| a hole or an axiom, in {files:,} files of proofs and definitions | {listed(holes)} |", *of_kit, ""]
    rows += ["| README says | Where it is said |", "|---|---|", *sentence_rows(top), ""]
    return "\n".join(["", *rows])


def main(words: list[str], top: Path = TOP) -> int:
    """Writes, checks or prints, and gives the status."""
    if words not in ([], ["--check"], ["--kit"]):
        print(__doc__, file=sys.stderr)
        return 2
    if words == ["--kit"]:
        folder = kit()
        for library in sorted(OF_THE_KIT) if folder else []:
            print(f"== {library}\n" + "\n\n".join(statements(top, program_crates(read(top)), folder, library)) + "\n")
        return 0 if folder else 1
    path = top / PAGE
    page = path.read_text(encoding="utf-8")
    before, begin, rest = page.partition(BEGIN)
    old, end, behind = rest.partition(END)
    try:
        if not begin or not end:
            raise Failure(f"{PAGE} lacks the marks between which the audit stands")
        text = before + begin + section(top, old) + end + behind
    except Failure as failure:
        print(failure)
        return 1
    if words and text != page:
        print(f"{PAGE} is out of date: write its audit by ./tools/audit.py")
        return 1
    path.write_text(text, encoding="utf-8")
    return 0


if __name__ == "__main__":
    sys.exit(main(sys.argv[1:]))
