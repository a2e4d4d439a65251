"""Writes docs/FIGURES.md: runs the measurements of this folder, keeps their output, and makes tables and plots of it.

    sh bench/figures.sh [--from FOLDER] [NAME..]

Each measurement is a script that prints lines. Its output is kept in a file of its name, below a head with the machine, the
date and the commit. A section of the page has the head, and a table of the lines.
"""

from __future__ import annotations

import argparse
import datetime
import math
import os
import platform
import re
import subprocess
import sys
import tempfile
import textwrap
from pathlib import Path
from typing import Callable, Iterable, NamedTuple, Sequence

TOP = Path(__file__).resolve().parent.parent
PAGE, PEERS, GROWTH = "docs/FIGURES.md", "docs/peers.svg", "docs/growth.svg"


class Failed(Exception):
    """A measurement that failed, or that printed no line of its table."""


class Peer(NamedTuple):
    """A source by both programs: milliseconds of each, and million instructions where they were counted."""

    name: str
    ours: float
    instructions: str
    theirs: float

    def times(self) -> float:
        """How many times as long the other takes."""
        return self.theirs / max(self.ours, 0.1)


def peers_of(text: str) -> list[Peer]:
    """The rows that bench/peers.sh prints."""
    row = re.compile(r"^(?P<name>\S.{27}) +(?P<ours>[\d.]+) ms +(?P<count>[\d.]*) +(?P<theirs>\d+) ms +\d+  ", re.MULTILINE)
    return [Peer(it["name"].strip(), float(it["ours"]), it["count"], float(it["theirs"])) for it in row.finditer(text)]


def peers_table(text: str) -> list[str]:
    """Both programs beside each other."""
    rows = [
        f"| {it.name} | {it.ours:.1f} | {it.instructions or '-'} | {it.theirs / 1000:.2f} | {it.times():,.0f} |"
        for it in peers_of(text)
    ]
    return ["| Source | scadserve, ms | Million instructions | openscad, s | Times as long |", "|---|---|---|---|---|", *rows]


def columns(widths: Sequence[int], line: str) -> list[str]:
    """The cells of a line whose first columns have these widths; the others are words."""
    cells, at = [], 0
    for width in widths:
        cells.append(line[at : at + width].strip())
        at += width
    return [*cells, *line[at:].split()]


def edits_table(text: str) -> list[str]:
    """The exports after edits that bench/edits.sh prints, without the shares of phases."""
    rows = []
    for line in text.splitlines():
        cells = columns((22, 20), line)
        if len(cells) > 3 and re.fullmatch(r"[\d.]+", cells[3]):
            rows.append(f"| {' | '.join([*cells[:2], *cells[3:6], *['-'] * (6 - len(cells))])} |")
    return ["| Source | Export | Milliseconds | Million instructions | Of the first |", "|---|---|---|---|---|", *rows]


def clients_table(text: str) -> list[str]:
    """The clients and workers that bench/clients.sh prints."""
    rows = [columns((30,), it) for it in text.splitlines() if re.search(r"(?: +[\d.]+){4}$", it)]
    return [
        "| Clients | Processors | Workers of each | With `memory.sh`, ms | Without it, ms |",
        "|---|---|---|---|---|",
        *(f"| {' | '.join(it)} |" for it in rows),
    ]


def printed_table(text: str) -> list[str]:
    """The rows of a measurement that prints a table."""
    return [it for it in text.splitlines() if it.startswith("|")]


class Section(NamedTuple):
    """A section of the page: its measurement, the heading, what is measured, the table and, below it, a plot."""

    name: str
    command: Sequence[str]
    heading: str
    about: str
    table: Callable[[str], list[str]]
    plots: Sequence[tuple[str, str]] = ()


SECTIONS = (
    Section(
        "peers",
        ("sh", "bench/peers.sh"),
        "How long does it take beside OpenSCAD?",
        "`sh bench/peers.sh` gives the same sources to the proved program and to `openscad`, which writes OFF. Each "
        "program goes from the source to the text. Times are processor times, user and system, with one worker. The "
        "time of scadserve is the mean of 50 runs and includes its start, which the first row shows; `openscad` runs "
        "once. Callgrind counts the instructions. Tetrahedra and slivers form chains: each is joined to those before it.",
        peers_table,
        (
            (PEERS, "Both programs on the largest source of each family, with a bar for each, on a logarithmic scale."),
            (GROWTH, "Growth of the times with the number of parts: full lines for scadserve, dashed lines for openscad."),
        ),
    ),
    Section(
        "edits",
        ("sh", "bench/edits.sh", "--workers", "1"),
        "How long does an export after an edit take?",
        "`sh bench/edits.sh --workers 1` times an export after an edit of one line: a number is changed in the middle "
        "part, a part is added before all others, or the middle part is removed. The cost of an export is the cost of "
        "its script minus that of the script without its last line. Times are processor times, the least of 25 runs.",
        edits_table,
    ),
    Section(
        "clients",
        ("sh", "bench/clients.sh"),
        "How much do more clients and workers gain?",
        "`sh bench/clients.sh` times clients that are served at the same time, by the clock. Times are the median of 15 "
        "runs, with the settings of `memory.sh` and without them. Each of eight clients has 100 parts, either its own or "
        "the same as the others. The first rows are eight programs with one client each, which share only the machine.",
        clients_table,
    ),
    Section(
        "worst",
        ("sh", "bench/worst.sh", "--largest"),
        "What do the worst sources take?",
        "`sh bench/worst.sh --largest` times sources that are written to be costly, with one worker, by the clock. The "
        "table has the largest of each family. If the seconds grow as a power of n, the growth is its exponent, computed "
        "from the size before. RECIPES says how a service [sets limits](RECIPES.md#a-service-under-limits).",
        printed_table,
    ),
    Section(
        "maker",
        ("python3", "bench/maker.py"),
        "How long do a maker's parts take?",
        "`python3 bench/maker.py` makes ten typical parts of a maker, compares the box and the volume with OpenSCAD's, "
        "and times both programs by the clock.",
        printed_table,
    ),
    Section(
        "tiles",
        ("python3", "bench/tiles.py", "growth", "--jobs", "1"),
        "How long do designs by tiles take, and how does the time grow?",
        "`python3 bench/tiles.py growth --jobs 1` makes squares of 2 to 100 balls with bores, at one density, each moved a "
        "little by chance, [by tiles](OPENSCAD.md#any-size-by-tiles). The processor seconds are those to cut the design into "
        "pieces, to make the tiles of the pieces with the server and read their texts, and to join these. The time grows no "
        "faster than n log n as long as the last column grows no faster than the logarithm of the first.",
        printed_table,
    ),
    Section(
        "sizes",
        ("python3", "bench/tiles.py", "sizes", "--jobs", "1"),
        "How many planes should a tile have?",
        "`python3 bench/tiles.py sizes --jobs 1` makes two designs by tiles of several sizes. The tools use 300.",
        printed_table,
    ),
)

BEGINNING = """# Figures

How much time and memory the proved program takes. The figures are measurements, not promises: no contract is about time
([PROOFS.md](PROOFS.md#what-is-neither)). `sh bench/figures.sh` makes this page again. It runs each measurement, and writes the
tables and the plots, with the machine, the date and the commit.
"""

END = """## What else is measured

Each script prints its results; the comment at its head says how it measures.

| By hand | Prints |
|---|---|
| `sh bench/series.sh` | instructions and memory of solids, facets and texts, and how they grow |
| `sh bench/geometry.sh` | sides and cuts in a second, beside the same sums in plain Rust (it needs `rustc`) |
| `tools/compare-openscad.py` | the times of parts with both programs, as in [OPENSCAD.md](OPENSCAD.md#compared-with-openscad) |
| `bench/live.py` | the time from the start of `scadlive` to the drawn bracket, and from a key to the drawn solid of 300 parts |
| `tools/empty-root.sh bookworm` | the time of `git clone` and of README's first command on an empty Debian 12 |
| `python3 bench/tiles.py chance` | whether designs by chance are the same with two sizes of tiles, and as one source |
| `sh bench/memo.sh` | probes and fills of the memo in a second, with 64, 512 and 4,096 entries |
| `sh bench/syntax.sh` | bytes that are lexed and parsed in a second, of ordinary and of dense sources |
| `sh bench/functions.sh` | calls of a recursive function, and indexes of a list, in a second |
| `sh bench/intern.sh` | the time to make a store of 64, 256 and 1,024 leaves |
| `sh bench/modules.sh`, `sh bench/names.sh` | the time of calls of modules, and of sources with many names, and how it grows |
| `sh bench/hull.sh` | the time of hulls of 8, 32 and 128 points |
| `sh bench/solids.sh`, `sh bench/facets.sh` | time and size of unions and plates; facets and bytes of text in a second |
| `sh bench/sharing.sh` | what eight clients gain by more processors, and a repeated export by the memo |
| `sh bench/parallel.sh` | the time of 1,024 parts by one call of `scad2off`, and by GNU parallel if it is installed |
"""


def head() -> str:
    """The machine, the date and the commit, in one line."""
    names = re.findall(r"^model name\s*: (.*)$", Path("/proc/cpuinfo").read_text(encoding="utf-8"), re.MULTILINE)
    commit = subprocess.run(
        ["git", "-C", str(TOP), "rev-parse", "--short=12", "HEAD"], capture_output=True, text=True, check=False
    )
    machine = f"{len(names)} of {names[0]}" if names else platform.machine()
    today = datetime.datetime.now(datetime.timezone.utc).date()
    return f"{machine}; {today}; commit {commit.stdout.strip() or 'unknown'}; load {os.getloadavg()[0]:.1f}"


def measured(section: Section) -> str:
    """What a section's measurement prints, below its head. Raises Failed."""
    began = head()
    done = subprocess.run(section.command, cwd=TOP, stdout=subprocess.PIPE, stderr=subprocess.PIPE, text=True, check=False)
    if done.returncode not in (0, 3):
        raise Failed(f"{' '.join(section.command)} ended with {done.returncode}: {done.stderr.strip()[-300:]}")
    return f"{began}\n{done.stdout}"


def written(section: Section, kept: str) -> str:
    """A section of the page, of what is kept of its measurement. Raises Failed where no row is in it."""
    first, _, text = kept.partition("\n")
    table = section.table(text)
    if len(table) < 3:
        raise Failed(f"{section.name}: no row in what {' '.join(section.command)} printed")
    plots = "".join(f"\n![{about}]({Path(name).name})\n" for name, about in section.plots)
    return f"{beginning(section)}*{first}.*\n\n" + "\n".join(table) + f"\n{plots}"


def beginning(section: Section) -> str:
    """The heading of a section, and what is measured."""
    about = "\n".join(textwrap.wrap(section.about, 128, break_on_hyphens=False, break_long_words=False))
    return f"## {section.heading}\n\n{about}\n\n"


def families(peers: Iterable[Peer]) -> dict[str, list[tuple[int, Peer]]]:
    """The sources of each family, by the number of their parts: the name without its number."""
    found: dict[str, list[tuple[int, Peer]]] = {}
    for it in peers:
        number = re.search(r"\d+", it.name)
        if number:
            name = " ".join(re.sub(r"\d+", "", it.name, count=1).split()).strip(" ,")
            found.setdefault(name.replace("with ", ""), []).append((int(number[0]), it))
    return found


def svg(width: int, height: int, parts: Sequence[str]) -> str:
    """A picture of these parts, on white."""
    begin = f'<svg xmlns="http://www.w3.org/2000/svg" viewBox="0 0 {width} {height}" width="{width}" height="{height}"'
    style = 'font-family="sans-serif" font-size="12">\n<rect width="100%" height="100%" fill="#fff"/>\n'
    return f"{begin} {style}" + "\n".join(parts) + "\n</svg>\n"


def word(x: float, y: float, text: str, anchor: str = "start") -> str:
    """A text at a place."""
    return f'<text x="{x:.1f}" y="{y:.1f}" text-anchor="{anchor}" fill="#222">{text}</text>'


class Scale(NamedTuple):
    """A logarithmic axis from one value to another, in pixels."""

    low: float
    high: float
    start: float
    end: float

    def at(self, value: float) -> float:
        """The place of a value."""
        share = math.log(value / self.low) / math.log(self.high / self.low)
        return self.start + share * (self.end - self.start)

    def tens(self) -> list[float]:
        """The powers of ten on the axis."""
        return [10.0**it for it in range(math.ceil(math.log10(self.low)), math.floor(math.log10(self.high)) + 1)]


def shown_time(milliseconds: float) -> str:
    """A time in the unit that fits it."""
    return f"{milliseconds / 1000:g} s" if milliseconds >= 1000 else f"{milliseconds:g} ms"


def peers_plot(peers: Sequence[Peer]) -> str:
    """A bar for each program on the largest source of each family, and how many times as long the other takes."""
    rows = [max(it, key=lambda row: row[0])[1] for it in families(peers).values()]
    left, width, step = 190, 640, 44
    height = 60 + step * len(rows)
    times = [time for it in rows for time in (it.ours, it.theirs)]
    scale = Scale(10 ** math.floor(math.log10(min(times))), 10 ** math.ceil(math.log10(max(times))), left, width - 70)
    parts = [word(left, 18, "processor time, on a logarithmic scale: scadserve (dark), openscad (light)")]
    for ten in scale.tens():
        at = scale.at(ten)
        parts.append(f'<path d="M{at:.1f} 30V{height - 24}" stroke="#ddd"/>')
        parts.append(word(at, height - 8, shown_time(ten), "middle"))
    for number, it in enumerate(rows):
        top = 36 + step * number
        parts.append(word(left - 8, top + 20, it.name, "end"))
        for at, (time, colour) in enumerate(((it.ours, "#1b5e8c"), (it.theirs, "#c9a66b"))):
            x = scale.at(max(time, scale.low * 1.01))
            parts.append(f'<rect x="{left}" y="{top + 15 * at}" width="{x - left:.1f}" height="13" fill="{colour}"/>')
        parts.append(word(scale.at(max(it.theirs, scale.low * 1.01)) + 6, top + 26, f"{it.times():,.0f} times"))
    return svg(width, height, parts)


COLOURS = ("#1b5e8c", "#b5482a", "#3c7d3c", "#7a4a9a", "#8a6d1f", "#31808a", "#9a3a5f", "#555")


def growth_plot(peers: Sequence[Peer]) -> str:
    """Times by the number of parts, a colour for each family: full lines are ours, dashed ones the other's."""
    lines = {name: sorted(rows) for name, rows in families(peers).items() if len(rows) > 1}
    points = [(number, time) for rows in lines.values() for number, it in rows for time in (it.ours, it.theirs)]
    width, height, left, bottom = 760, 460, 70, 410
    across = Scale(1, 10 ** math.ceil(math.log10(max(it for it, _ in points))), left, 560)
    low = 10 ** math.floor(math.log10(min(it for _, it in points)))
    up = Scale(low, 10 ** math.ceil(math.log10(max(it for _, it in points))), bottom, 30)
    parts = [word(left, 18, "processor time by the number of parts: scadserve full, openscad dashed")]
    for ten in across.tens():
        at = across.at(ten)
        parts += [f'<path d="M{at:.1f} 30V{bottom}" stroke="#ddd"/>', word(at, bottom + 18, f"{ten:g}", "middle")]
    for ten in up.tens():
        at = up.at(ten)
        parts += [f'<path d="M{left} {at:.1f}H560" stroke="#ddd"/>', word(left - 8, at + 4, shown_time(ten), "end")]
    for number, (name, rows) in enumerate(lines.items()):
        colour = COLOURS[number % len(COLOURS)]
        ours, theirs = [it.ours for _, it in rows], [it.theirs for _, it in rows]
        for times, dash in ((ours, ""), (theirs, ' stroke-dasharray="6 4"')):
            places = zip((count for count, _ in rows), times)
            way = " ".join(f"{across.at(count):.1f},{up.at(max(time, low)):.1f}" for count, time in places)
            parts.append(f'<polyline points="{way}" fill="none" stroke="{colour}" stroke-width="2"{dash}/>')
        top = 50 + 22 * number
        parts += [f'<rect x="580" y="{top - 10}" width="14" height="10" fill="{colour}"/>', word(600, top, name)]
    return svg(width, height, parts)


def page_of(folder: Path) -> str:
    """The page of what a folder has; a section whose measurement it lacks says so. Raises Failed."""
    texts = [BEGINNING]
    for section in SECTIONS:
        kept = folder / f"{section.name}.txt"
        if kept.is_file():
            texts.append(written(section, kept.read_text(encoding="utf-8")))
        else:
            texts.append(f"{beginning(section)}Not measured yet: `sh bench/figures.sh {section.name}`.\n")
    return "\n".join([*texts, END])


def write(folder: Path, top: Path) -> None:
    """Writes the page and the plots of what a folder has. Raises Failed."""
    (top / PAGE).write_text(page_of(folder), encoding="utf-8")
    kept = folder / "peers.txt"
    if kept.is_file():
        peers = peers_of(kept.read_text(encoding="utf-8"))
        (top / PEERS).write_text(peers_plot(peers), encoding="utf-8")
        (top / GROWTH).write_text(growth_plot(peers), encoding="utf-8")


def run(names: Sequence[str], folder: Path) -> None:
    """Runs the measurements of these names, or all, and keeps what they print. Raises Failed."""
    for section in SECTIONS:
        if not names or section.name in names:
            print(f"{' '.join(section.command)} ..", file=sys.stderr, flush=True)
            (folder / f"{section.name}.txt").write_text(measured(section), encoding="utf-8")


def main(words: Sequence[str]) -> int:
    """Does what the words ask for, and gives the status."""
    parser = argparse.ArgumentParser(prog="figures", allow_abbrev=False)
    parser.add_argument(
        "--from", dest="folder", type=Path, metavar="FOLDER", help="the folder with earlier output; alone: run nothing"
    )
    parser.add_argument("names", nargs="*", metavar="NAME", help=", ".join(it.name for it in SECTIONS))
    asked = parser.parse_intermixed_args(words)
    unknown = [it for it in asked.names if it not in {section.name for section in SECTIONS}]
    if unknown:
        parser.error(f"{unknown[0]} is not a measurement")
    with tempfile.TemporaryDirectory() as temporary:
        folder = asked.folder or Path(temporary)
        folder.mkdir(parents=True, exist_ok=True)
        try:
            if asked.names or asked.folder is None:
                run(asked.names, folder)
            write(folder, TOP)
        except Failed as failed:
            print(f"figures: {failed}", file=sys.stderr)
            return 1
    return 0


if __name__ == "__main__":
    sys.exit(main(sys.argv[1:]))
