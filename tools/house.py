#!/usr/bin/env python3
"""Keeps the crates in their layers, and docs/ARCHITECTURE.md in step with them: ./tools/house.py [--write] [--gate LOG]

crates.txt has a section for each layer, lowest first, headed by a comment `# layer: what it is for`, and below it maybe another
one, `# must not know: layer, layer`. A crate stands on crates of its own layer or of lower ones, and none that it reaches by
way of others either is of a layer that its own must not know. The page's picture of the layers and its table of crates are made
from that file and from the first sentence of each crate's root file; with --write they are made anew. Each fault is a line on
standard output:

- a crate that stands on one of a higher layer, on itself by way of others, or in no layer, or that says nothing of itself;
- a crate that reaches one of a layer that its own must not know, and such a layer that is none of the lower ones;
- a chain of more than ten crates;
- a crate that stands on a library of the kit other than those that are named here: a contract says what a call does with what
  it is given, and some libraries reach files and streams by number, which no call is given;
- an import across crates of what stands in `proofs` outside of its folder `lemmas`, which alone is shared, and such a file
  that no crate above imports;
- a picture or table that is out of date;
- a name that the page has in backticks and that is not a crate, file, word of a contract or function of the sources;
- with --gate, which names what a run of `rt ci` printed: a crate that was proved there and of which crates.txt gives another
  number of functions that may wait (`may_wait=`, and none where there are none).

The status is 1 where there is a fault that --write has not mended, and 2 at wrong words.
"""

from __future__ import annotations

import re
import sys
from dataclasses import dataclass, field
from pathlib import Path
from typing import Iterator

TOP = Path(__file__).resolve().parent.parent
MOST_IN_A_CHAIN = 10
#: The libraries of the kit that crates may stand on. None of them reaches beyond what its calls are given.
OF_THE_KIT = frozenset(("clap", "hex", "indexmap", "itoa", "lru", "sha2", "smallvec"))
HEAD = re.compile(r"# (?P<name>[a-z ]+): (?P<purpose>.+)")
BOUND = "# must not know: "
#: A name of a crate's proofs, as an import or a tactic has it.
OF_PROOFS = re.compile(r"\b(\w+)(?:\.|::)proofs(?:\.|::)(lemmas(?:\.|::))?(\w+)")
#: What the page has between these two lines is made by this tool.
MADE = re.compile(r"(?P<begin><!-- made by tools/house\.py: (?P<what>\w+) -->\n)(?P<text>.*?)(?P<end><!-- end -->)", re.DOTALL)
#: A name of the sources, as the page has it: at least two words, so that a word of a language is none.
NAME = re.compile(r"`([a-z][a-z0-9]*(?:_[a-z0-9]+)+)`")


@dataclass
class Crate:
    """A line of crates.txt: the crate's name, its layer from 0, what it stands on, libraries of the kit among them, and how
    many of its functions may wait."""

    name: str
    layer: int
    below: list[str]
    waiting: int = 0


@dataclass
class House:
    """The layers with their purposes, lowest first, the crates by name in the order of the file, and by a layer's number the
    names of those that it must not know."""

    layers: list[tuple[str, str]] = field(default_factory=list)
    crates: dict[str, Crate] = field(default_factory=dict)
    bounds: dict[int, list[str]] = field(default_factory=dict)

    def own(self, crate: Crate) -> list[str]:
        """The crates of the repository that one stands on."""
        return [name for name in crate.below if name in self.crates]

    def reached(self, crate: Crate) -> list[str]:
        """The crates of the repository that one stands on, and those that these stand on."""
        found = self.own(crate)
        for name in found:
            found += [it for it in self.own(self.crates[name]) if it not in found]
        return found

    def of_layer(self, layer: int) -> list[Crate]:
        return [crate for crate in self.crates.values() if crate.layer == layer]


def read(top: Path) -> House:
    """The house that crates.txt describes. A crate before the first head has the layer -1."""
    house = House()
    for line in (top / "crates.txt").read_text(encoding="utf-8").splitlines():
        if line.startswith(BOUND):
            house.bounds[len(house.layers) - 1] = line[len(BOUND) :].split(", ")
            continue
        head = HEAD.fullmatch(line)
        if head:
            house.layers.append((head["name"], head["purpose"]))
            continue
        words, colon, below = line.split("#")[0].partition(":")
        if colon:
            name, *counts = words.split()
            waiting = sum(int(it[len("may_wait=") :]) for it in counts if it.startswith("may_wait="))
            house.crates[name] = Crate(name, len(house.layers) - 1, below.split(), waiting)
    return house


def summary(top: Path, name: str) -> str:
    """The first sentence of what a crate's root file says of it, in one line; empty where it says nothing."""
    said = []
    for root in ("lib.rt", "main.rt"):
        file = top / "crates" / name / "src" / root
        if file.exists():
            for line in file.read_text(encoding="utf-8").splitlines():
                if not line.startswith("//! "):
                    break
                said.append(line[len("//! ") :])
    return re.split(r"(?<=\.) ", " ".join(said))[0]


def chains(house: House) -> dict[str, int]:
    """How many crates the longest chain has that ends with each crate; none for a crate that stands on itself."""
    lengths: dict[str, int] = {}
    under_way: set[str] = set()

    def length(name: str) -> int:
        if name not in lengths and name not in under_way:
            under_way.add(name)
            lengths[name] = 1 + max((length(it) for it in house.own(house.crates[name])), default=0)
        return lengths.get(name, MOST_IN_A_CHAIN + 1)

    for name in house.crates:
        length(name)
    return lengths


def misplaced(house: House, top: Path) -> Iterator[str]:
    """What is wrong with the crates themselves."""
    lengths = chains(house)
    names = [name for name, _ in house.layers]
    for layer, barred in house.bounds.items():
        for name in sorted({*barred} - {*names[: max(layer, 0)]}):
            yield f"crates.txt: there is no layer {name} below the one that must not know it"
    for crate in house.crates.values():
        if crate.layer < 0:
            yield f"crates.txt: {crate.name} stands in no layer"
        for name in house.own(crate):
            if house.crates[name].layer > crate.layer:
                yield f"crates.txt: {crate.name} stands on {name}, which is of a higher layer"
        for barred in house.bounds.get(crate.layer, []):
            for name in [it for it in house.reached(crate) if names[house.crates[it].layer] == barred][:1]:
                yield f"crates.txt: {crate.name} reaches {name} of {barred}, which its layer must not know"
        for name in sorted({*crate.below} - {*house.crates} - OF_THE_KIT):
            yield f"crates.txt: {crate.name} stands on {name}, which is neither a crate nor a library that crates may stand on"
        if lengths[crate.name] > MOST_IN_A_CHAIN:
            yield f"crates.txt: {crate.name} ends a chain of more than {MOST_IN_A_CHAIN} crates"
        if not summary(top, crate.name):
            yield f"crates/{crate.name}/src: the root file doesn't begin by saying what the crate is"


def imported(house: House, top: Path) -> Iterator[str]:
    """What crates import of the proofs of others and may not, and what is shared for nobody."""
    shared = {(it.parent.parent.parent.name, it.stem) for it in top.glob("crates/*/proofs/lemmas/*.antt")}
    files = [it for kind in ("src/**/*.rt", "specs/**/*.antt", "proofs/**/*.antt") for it in top.glob(f"crates/*/{kind}")]
    for file in sorted(files):
        own = file.relative_to(top / "crates").parts[0]
        for crate, is_shared, name in sorted({*OF_PROOFS.findall(file.read_text(encoding="utf-8"))}):
            if crate == own or crate not in house.crates:
                continue
            shared.discard((crate, name))
            if not is_shared:
                what = f"it imports {name} of {crate}, which stands in no folder of lemmas that are shared"
                yield f"{file.relative_to(top)}: {what}"
    for crate, name in sorted(shared):
        yield f"crates/{crate}/proofs/lemmas/{name}.antt: no other crate imports it"


def picture(house: House) -> str:
    """The layers with their crates, highest first, as a block of text."""
    wide = max(len(name) for name, _ in house.layers)
    lines = []
    for layer in reversed(range(len(house.layers))):
        name, purpose = house.layers[layer]
        lines.append(f"    {name:{wide}}  {purpose}")
        line = " " * (wide + 6)
        for crate in house.of_layer(layer):
            if len(line) + len(crate.name) + 2 > 126:
                lines.append(line.rstrip())
                line = " " * (wide + 6)
            line += crate.name + "  "
        lines += [line.rstrip(), ""]
    return "\n".join(lines)


def table(house: House, top: Path) -> str:
    """A table of the crates, lowest layer first: each one's layer, what it stands on, and what it says of itself."""
    lines = ["| Layer | Crate | Stands on | What it is |", "|---|---|---|---|"]
    for layer, (name, _) in enumerate(house.layers):
        for crate in house.of_layer(layer):
            below = ", ".join(it if it in house.crates else f"`{it}`" for it in crate.below)
            lines.append(f"| {name} | {crate.name} | {below} | {summary(top, crate.name).rstrip('.')} |")
    return "\n".join(lines) + "\n"


def made_anew(page: str, house: House, top: Path) -> str:
    """The page with its picture and its table as they are now."""
    texts = {"picture": picture(house), "table": table(house, top)}
    return MADE.sub(lambda match: match["begin"] + texts[match["what"]] + match["end"], page)


def unknown_names(page: str, house: House, top: Path) -> Iterator[str]:
    """The names in backticks that nothing in the repository has: a crate that is gone, mostly."""
    sources = "\n".join(file.read_text(encoding="utf-8") for file in sorted((top / "crates").glob("*/src/**/*.rt")))
    words = set(re.findall(r"\w+", sources)) | {it.stem for it in top.glob("**/*.py")} | set(house.crates)
    for crate in house.crates.values():
        words.update(crate.below)
    for name in sorted(set(NAME.findall(page)) - words):
        yield f"docs/ARCHITECTURE.md: {name} is not a crate, and no name of the sources"


def miscounted(house: House, log: str) -> Iterator[str]:
    """Where crates.txt counts other functions that may wait than the prover did, by what a run of the gate printed."""
    name = ""
    for line in log.splitlines():
        if line.startswith("== "):
            name = line[len("== ") :].strip()
        elif line.startswith("logic=proved functions=") and name in house.crates:
            found = re.search(r" may-wait=(\d+)", line)
            counted = int(found[1]) if found else 0
            if counted != house.crates[name].waiting:
                yield f"crates.txt: {counted} functions of {name} may wait, and not {house.crates[name].waiting}"
            name = ""


def main(words: list[str], top: Path = TOP) -> int:
    log = ""
    if words[:1] == ["--gate"] and len(words) == 2:
        log = Path(words[1]).read_text(encoding="utf-8", errors="replace")
        words = []
    if words not in ([], ["--write"]):
        print(__doc__, file=sys.stderr)
        return 2
    house = read(top)
    file = top / "docs" / "ARCHITECTURE.md"
    page = file.read_text(encoding="utf-8")
    anew = made_anew(page, house, top)
    faults = [*misplaced(house, top), *imported(house, top), *miscounted(house, log)]
    if anew != page:
        if words:
            file.write_text(anew, encoding="utf-8")
        else:
            faults.append("docs/ARCHITECTURE.md: the picture or the table is out of date: tools/house.py --write")
    if {match["what"] for match in MADE.finditer(page)} != {"picture", "table"}:
        faults.append("docs/ARCHITECTURE.md: it has no place for the picture and the table")
    faults += unknown_names(anew, house, top)
    for fault in faults:
        print(fault)
    return 1 if faults else 0


if __name__ == "__main__":
    sys.exit(main(sys.argv[1:]))
