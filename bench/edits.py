"""What edits.sh prints; its words are the command that answers a script.

What an export costs is the difference of two runs of the command: on a script that ends with the export, and on that script
without it.
"""

from __future__ import annotations

import re
import resource
import shutil
import subprocess
import sys
import tempfile
import time
from pathlib import Path
from typing import NamedTuple

ROUNDS = 25

# The functions between the phases: what they call of a phase's functions is that phase's cost.
FRAME = (
    "script_run::client::obey",
    "script_server::exporter::",
    "script_server::kept_export::",
    "tree_export::",
    "parallel_zip::",
    "parallel_eval::",
    "scad_parser::source::",
)

# The functions that stand for each phase, by how their names begin; the longest beginning counts. The compiler puts functions
# into their callers: most of `lex`, and of `intern` and `off_bytes` what isn't a call, stands in the functions between. That is
# the rest, with freeing, threads, and the reply's way to the output.
PHASES = {
    # words of the source to tokens, tokens to a program, and its end
    "reading": ("scad_lexer::", "scad_parser::", "scad_expressions::"),
    # a program to a design
    "evaluating": ("scad_eval::", "scad_func::", "scad_scope::", "scad_definitions::", "scad_design::"),
    # a design to a tree in world position
    "placing": ("scad_design::placing::",),
    # the distinct subtrees by number, and their keys, with the SHA-256 of their bytes
    "naming": ("csg_tree::", "sha2::", "std_collections::btree::", "std_alloc::vec::lodged::"),
    # what is asked of the memo and offered to it, with the comparison of keys; what isn't a call stands in `join_solid`
    "probing": (
        "flight_memo::", "subtree_memo::", "memo_core::", "lru::", "csg_tree::tree_key::are_same", "core::sync::Mutex::lock",
    ),
    # the solids of leaves, and merges
    "building": ("bsp_boolean::", "bsp_partition::", "bsp_tree::", "plane_table::", "plane_polygon::"),
    "facets": ("facet_cut::",),
    "text": ("off_text::", "plain_text::decimal::"),
}


class Failed(Exception):
    """Why nothing can be measured, in one line."""


class Design(NamedTuple):
    """A source, and by its name each edit as a command behind a client's name."""

    name: str
    lines: list[str]
    edits: dict[str, str]

    def script(self, *commands: str) -> str:
        """The script that puts the source and then has these commands."""
        puts = [f"put {number} {line}" for number, line in enumerate(self.lines, 1)]
        return "".join(f"a {it}\n" for it in [*puts, *commands])


class Costs(NamedTuple):
    """The instructions of a run: all of them, and those of each phase."""

    total: int
    phases: dict[str, int]


def with_edits(name: str, head: list[str], each: list[str], foot: list[str], changed: str, added: str) -> Design:
    """A design with the lines of its parts between others, and its edits: the part in the middle becomes another one or
    goes, and one is put in front."""
    middle = len(head) + len(each) // 2 + 1
    edits = {
        "a number changed": f"set {middle} {changed}",
        "a part in front": f"put {len(head) + 1} {added}",
        "a part removed": f"cut {middle} {middle}",
    }
    return Design(name, head + each + foot, edits)


def of_parts(count: int) -> Design:
    """The demonstration's parts, 20 in a row: boxes with a smaller box taken from each."""
    module = "module part(x, y, z) translate([x, y, 0]) difference() { cube(4); translate([1, 1, 0]) cube([2, 2, z]); }"
    at = [(7 * (number % 20), 7 * (number // 20)) for number in range(count)]
    each = [f"part({x}, {y}, 2);" for x, y in at]
    changed = each[count // 2].replace(", 2)", ", 3)")
    return with_edits(f"{count} parts", [module], each, [], changed, "part(-7, 0, 2);")


def plate() -> Design:
    """A plate with 300 square holes, 20 in a row, and room for one more."""
    at = [(4 * (number % 20) + 1, 4 * (number // 20) + 1) for number in range(300)]
    head = ["difference() {", "cube([85, 61, 4]);"]
    each = [f"translate([{x}, {y}, -1]) cube([3, 3, 6]);" for x, y in at]
    changed = each[150].replace("[3, 3,", "[2, 3,")
    return with_edits("plate with 300 holes", head, each, ["}"], changed, "translate([81, 1, -1]) cube([3, 3, 6]);")


def sponge() -> Design:
    """A Menger sponge of level 3: a cube of 27 without bars along all three axes."""
    bars = []
    for step in (1, 3, 9):
        for x in range(step, 27, 3 * step):
            for y in range(step, 27, 3 * step):
                bars.append(f"translate([{x}, {y}, -1]) cube([{step}, {step}, 29]);")
                bars.append(f"translate([{x}, -1, {y}]) cube([{step}, 29, {step}]);")
                bars.append(f"translate([-1, {x}, {y}]) cube([29, {step}, {step}]);")
    changed = bars[len(bars) // 2].replace("29", "15")
    head = ["difference() {", "cube(27);"]
    return with_edits("sponge of level 3", head, bars, ["}"], changed, "translate([0, 0, -1]) cube([1, 1, 29]);")


def long_source() -> Design:
    """A source of 4,096 lines with modules, functions and assertions, which makes one cube."""
    lines = []
    for k in range(512):
        lines += [
            f"// plate {k}, with holes in a row",
            f"width_{k} = {k} % 40 + 6; height_{k} = width_{k} % 3 + 1;",
            f"function depth_{k}(n) = n == 0 ? height_{k} : 1 + depth_{k}(n - 1);",
            f"module plate_{k}(at) difference() {{",
            f"  cube([width_{k}, depth_{k}(4), height_{k}]);",
            f"  for (i = at) translate([i, 1, -1]) cube([1, 2, height_{k} + 2]);",
            "}",
            f"assert(depth_{k}(8) == height_{k} + 8); if (width_{k} < 0) plate_{k}([1 : 3 : 4]);",
        ]
    return Design("4,096 lines", [*lines[:-1], "cube(1);"], {})


def clocks() -> tuple[float, float]:
    """The seconds by the clock, and those that processors gave to programs that were run."""
    used = resource.getrusage(resource.RUSAGE_CHILDREN)
    return time.perf_counter(), used.ru_utime + used.ru_stime


class Measuring:
    """Runs of the command on scripts. Each script is timed and counted once."""

    def __init__(self, command: list[str], folder: Path) -> None:
        self.command = command
        self.folder = folder
        self.times: dict[str, list[float]] = {}
        self.counts: dict[str, Costs] = {}

    def _run(self, words: list[str], script: str) -> bytes:
        ran = subprocess.run(words, input=script.encode(), stdout=subprocess.PIPE, stderr=subprocess.PIPE, check=False)
        if ran.returncode:
            said = (ran.stderr or ran.stdout).decode(errors="replace").strip().rpartition("\n")[2]
            raise Failed(f"{Path(words[0]).name} ended with status {ran.returncode}: {said}")
        return ran.stdout

    def check(self, script: str) -> None:
        """Raises Failed unless each export of a script is answered by a solid."""
        out = self._run(self.command, script).decode()
        said = re.findall(r"^\d+ ((?:solid|fault|complex|nomem|refused).*)$", out, re.MULTILINE)
        other = [it for it in said if not it.startswith("solid ")]
        if other or len(said) != script.count("a export\n"):
            raise Failed(f"an export was answered: {other[0] if other else 'nothing'}")

    def take_times(self, scripts: list[str]) -> None:
        """The least milliseconds of some runs of each script, by the clock and of processors. The scripts take turns, so that
        a busy moment hits all of them."""
        for _ in range(ROUNDS):
            for script in scripts:
                began = clocks()
                self._run(self.command, script)
                taken = [1000 * (end - begin) for begin, end in zip(began, clocks())]
                self.times[script] = [min(both) for both in zip(taken, self.times.get(script, taken))]

    def costs(self, script: str) -> Costs:
        """The instructions of a script's run."""
        if script not in self.counts:
            file = self.folder / "costs"
            self._run(["valgrind", "--tool=callgrind", f"--callgrind-out-file={file}", *self.command], script)
            words = ["callgrind_annotate", "--inclusive=yes", "--tree=caller", "--threshold=100", str(file)]
            self.counts[script] = read_costs(self._run(words, "").decode(errors="replace"))
        return self.counts[script]


def phase_of(function: str) -> str | None:
    """The phase that a function stands for; one between the phases stands for none."""
    if function.startswith(FRAME):
        return None
    found = [(len(it), phase) for phase, names in PHASES.items() for it in names if function.startswith(it)]
    return max(found)[1] if found else None


def read_costs(text: str) -> Costs:
    """The costs in what callgrind_annotate prints: in front of each function, which is marked `*`, its callers, marked `<`,
    with what their calls of it cost. Raises Failed where that has another form."""
    row = re.compile(
        r"\s*(?P<cost>[\d,]+) (?:\([ \d.]+%\) )?\s*(?:PROGRAM (?P<total>TOTALS)|(?P<mark>[<*]) +[^:]*:(?P<name>.*))"
    )
    total, phases, calls = 0, dict.fromkeys(PHASES, 0), 0
    for found in filter(None, map(row.match, text.splitlines())):
        cost = int(found["cost"].replace(",", ""))
        if found["total"]:
            total = cost
        elif found["mark"] == "<":
            calls += cost if found["name"].startswith(FRAME) else 0
        else:
            phase = phase_of(found["name"])
            if phase:
                phases[phase] += calls
            calls = 0
    if not total:
        raise Failed("callgrind_annotate printed no total")
    return Costs(total, phases)


def check_phases(costs: Costs) -> None:
    """Raises Failed where an export that goes through all phases has a phase without costs: these would be in the rest."""
    for phase, cost in costs.phases.items():
        if not cost:
            raise Failed(f"the program has none of the functions by which {phase} is counted")


def shares(before: Costs, after: Costs) -> list[str]:
    """The percent of the difference of two runs that each phase has, and the rest."""
    total = after.total - before.total
    costs = [after.phases[it] - before.phases[it] for it in PHASES]
    return [f"{100 * it / total:.0f}%" for it in [*costs, total - sum(costs)]]


def say(cells: list[str]) -> None:
    """A line of the table."""
    print(f"{cells[0]:<22}{cells[1]:<20}" + "".join(f"{it:>11}" for it in cells[2:]), flush=True)


def measure(measuring: Measuring, design: Design, is_counted: bool) -> None:
    """Prints a design's lines of the table: times, and where they are counted, instructions."""
    exports = {"first": ([], ["export"])}
    if design.edits:
        exports["the same again"] = (["export"], ["export", "export"])
    for name, edit in design.edits.items():
        exports[name] = (["export", edit], ["export", edit, "export"])
    scripts = {name: (design.script(*before), design.script(*after)) for name, (before, after) in exports.items()}
    for _, after in scripts.values():
        measuring.check(after)
    measuring.take_times(list(dict.fromkeys(it for both in scripts.values() for it in both)))
    of_first = 0
    for name, (before, after) in scripts.items():
        cells = [f"{more - less:.1f}" for less, more in zip(measuring.times[before], measuring.times[after])]
        if is_counted:
            costs = measuring.costs(before), measuring.costs(after)
            count = costs[1].total - costs[0].total
            of_first = of_first or count
            cells += [f"{count / 1e6:.1f}", f"{count / of_first:.2f}", *shares(*costs)]
        say([design.name if name == "first" else "", name, *cells])


def measure_reading(measuring: Measuring, design: Design) -> None:
    """Prints what a source takes a megabyte, beside `openscad`, whose own start is taken off."""
    megabytes = sum(len(it) + 1 for it in design.lines) / 1e6
    taken = measuring.times[design.script("export")][1] - measuring.times[design.script()][1]
    print(f"\n{design.name} of {megabytes:.2f} MB, read and evaluated: {taken / megabytes:.0f} CPU ms a megabyte")
    if not shutil.which("openscad"):
        print("openscad isn't installed: nothing to compare with")
        return
    source = measuring.folder / "part.scad"
    others = Measuring(["openscad", "-o", str(measuring.folder / "part.csg"), str(source)], measuring.folder)
    times = []
    for lines in (["cube(1);"], design.lines):
        source.write_text("\n".join(lines) + "\n", encoding="utf-8")
        others.times = {}
        others.take_times([""])
        times.append(others.times[""][1])
    print(f"openscad, to its tree of shapes: {(times[1] - times[0]) / megabytes:.0f} CPU ms a megabyte")


def main(command: list[str]) -> int:
    missing = [it for it in ("valgrind", "callgrind_annotate") if not shutil.which(it)]
    try:
        with tempfile.TemporaryDirectory() as folder:
            measuring = Measuring(command, Path(folder))
            designs = [of_parts(100), of_parts(300), plate(), sponge(), long_source()]
            measuring.check(designs[0].script("export"))
            if not missing:
                check_phases(measuring.costs(designs[0].script("export")))
            say(["source", "export", "ms", "CPU ms", *([] if missing else ["M instr.", "of first", *PHASES, "rest"])])
            for design in designs:
                measure(measuring, design, not missing)
            measure_reading(measuring, designs[-1])
    except Failed as failed:
        print(f"edits: {failed}", file=sys.stderr)
        return 1
    if missing:
        print(f"edits: {missing[0]} isn't installed, and so no instructions are counted", file=sys.stderr)
        return 3
    return 0


if __name__ == "__main__":
    sys.exit(main(sys.argv[1:]))
